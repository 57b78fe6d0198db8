//! A simulated head: an attribute table, the answers that the Core Specification asks of it, and the many
//! ways of answering otherwise.

use super::rng::Rng;
use oracle::ble::central::{Uuid, att, gatt};

pub struct Characteristic {
    pub declaration: u16,
    pub properties: u8,
    pub value_handle: u16,
    pub uuid: Uuid,
    pub descriptors: Vec<(u16, Uuid)>,
}

pub struct Service {
    pub start: u16,
    pub end: u16,
    pub uuid: Uuid,
    pub characteristics: Vec<Characteristic>,
}

pub struct Head {
    pub services: Vec<Service>,
    pub mtu: u16,
    /// Every UUID in 16 bytes, even where 2 would do.
    long: bool,
    /// Errors name each code in turn.
    code: u8,
}

/// Payloads may go to the held frame's limit, 251 - 4, whatever the MTU is.
pub const MOST_PAYLOAD: usize = 247;

fn le16(b: &[u8], at: usize) -> u16 {
    u16::from(b.get(at).copied().unwrap_or(0)) | u16::from(b.get(at + 1).copied().unwrap_or(0)) << 8
}

pub fn error(request: u8, handle: u16, code: u8) -> Vec<u8> {
    let [lo, hi] = handle.to_le_bytes();
    vec![att::ERROR_RSP, request, lo, hi, code]
}

/// A UUID of a small family, so that equal ones turn up.
pub fn uuid(rng: &mut Rng) -> Uuid {
    if rng.flip() {
        Uuid::from_u16(0x2A00 + rng.below(24) as u16)
    } else {
        let mut b = [0x5A; 16];
        b[rng.size(0, 15)] = rng.below(4) as u8;
        Uuid(b)
    }
}

/// How many services, and characteristics in all.
fn size(rng: &mut Rng) -> (usize, usize) {
    match rng.below(10) {
        0 => (0, 0),
        1..=5 => (rng.size(1, 4), rng.size(0, 8)),
        6 | 7 => (rng.size(5, 32), rng.size(0, 30)),
        8 => (rng.size(1, 3), rng.size(20, 64)),
        _ => (32, rng.size(0, 64)),
    }
}

fn descriptors(rng: &mut Rng, handle: &mut u16) -> Vec<(u16, Uuid)> {
    let mut out = Vec::new();
    for _ in 0..rng.below(4) {
        let kind = match rng.below(6) {
            0..=2 => gatt::CCCD,
            3 => Uuid::from_u16(0x2901),
            4 => Uuid::from_u16(0x2904),
            _ => uuid(rng),
        };
        *handle += 1;
        out.push((*handle, kind));
    }
    out
}

impl Head {
    /// `full`: with as many characteristics as the table has places. `code`: the error code before the first.
    pub fn new(rng: &mut Rng, full: bool, code: u8) -> Head {
        let (count, all) = if full { (rng.size(1, 32), 64) } else { size(rng) };
        let mut handle: u16 = if rng.chance(70) { 0 } else { rng.below(0xF000) as u16 };
        let mut services = Vec::new();
        for i in 0..count {
            handle += 1 + if rng.chance(20) { rng.below(3) as u16 } else { 0 };
            let start = handle;
            let share = all / count + usize::from(i < all % count);
            let mut characteristics = Vec::new();
            for _ in 0..share {
                handle += 1;
                let declaration = handle;
                handle += 1;
                let value_handle = handle;
                let descriptors = descriptors(rng, &mut handle);
                let (properties, uuid) = (rng.byte(), uuid(rng));
                characteristics.push(Characteristic { declaration, properties, value_handle, uuid, descriptors });
            }
            let end = if i + 1 == count && rng.chance(60) { u16::MAX } else { handle };
            services.push(Service { start, end, uuid: uuid(rng), characteristics });
        }
        let mtu = if full { 247 } else { *rng.pick(&[23, 23, 24, 64, 100, 185, 246, 247, 248, 517, 0, 22, u16::MAX]) };
        Head { services, mtu, long: rng.chance(15), code }
    }

    pub fn characteristics(&self) -> Vec<Uuid> {
        self.services.iter().flat_map(|s| &s.characteristics).map(|c| c.uuid).collect()
    }

    fn form(&self, u: Uuid) -> Vec<u8> {
        if self.long { u.0.to_vec() } else { u.to_att() }
    }

    /// Entries of one width behind the opcode and the width, as many as fit.
    fn list(&self, op: u8, entries: Vec<Vec<u8>>, mtu: usize) -> Vec<u8> {
        let width = entries[0].len();
        let mut out = vec![op, width as u8];
        for e in entries {
            if e.len() != width || out.len() + width > mtu.min(MOST_PAYLOAD) {
                break;
            }
            out.extend_from_slice(&e);
        }
        out
    }

    fn group(&self, from: u16, to: u16, mtu: usize) -> Option<Vec<u8>> {
        let mut entries = Vec::new();
        for s in self.services.iter().filter(|s| s.start >= from && s.start <= to) {
            let mut e = [s.start.to_le_bytes(), s.end.to_le_bytes()].concat();
            e.extend_from_slice(&self.form(s.uuid));
            entries.push(e);
        }
        (!entries.is_empty()).then(|| self.list(att::READ_BY_GROUP_TYPE_RSP, entries, mtu))
    }

    fn by_type(&self, from: u16, to: u16, mtu: usize) -> Option<Vec<u8>> {
        let mut entries = Vec::new();
        let all = self.services.iter().flat_map(|s| &s.characteristics);
        for c in all.filter(|c| c.declaration >= from && c.declaration <= to) {
            let mut e = c.declaration.to_le_bytes().to_vec();
            e.push(c.properties);
            e.extend_from_slice(&c.value_handle.to_le_bytes());
            e.extend_from_slice(&self.form(c.uuid));
            entries.push(e);
        }
        (!entries.is_empty()).then(|| self.list(att::READ_BY_TYPE_RSP, entries, mtu))
    }

    fn information(&self, from: u16, to: u16, mtu: usize) -> Option<Vec<u8>> {
        let mut all = Vec::new();
        for s in &self.services {
            all.push((s.start, gatt::PRIMARY_SERVICE));
            for c in &s.characteristics {
                all.push((c.declaration, gatt::CHARACTERISTIC));
                all.push((c.value_handle, c.uuid));
                all.extend(c.descriptors.iter().copied());
            }
        }
        let mut entries = Vec::new();
        for (handle, kind) in all.into_iter().filter(|(h, _)| *h >= from && *h <= to) {
            let mut e = handle.to_le_bytes().to_vec();
            e.extend_from_slice(&self.form(kind));
            entries.push(e);
        }
        if entries.is_empty() {
            return None;
        }
        let mut out = self.list(att::FIND_INFORMATION_RSP, entries, mtu);
        out[1] = if out[1] == 4 { 1 } else { 2 };
        Some(out)
    }

    /// The answer to a request as it should be; none to a command or an answer.
    pub fn right(&self, rng: &mut Rng, request: &[u8], mtu: usize) -> Option<Vec<u8>> {
        let op = *request.first()?;
        let (from, to) = (le16(request, 1), le16(request, 3));
        let found = match op {
            att::EXCHANGE_MTU_REQ => {
                let [lo, hi] = self.mtu.to_le_bytes();
                Some(vec![att::EXCHANGE_MTU_RSP, lo, hi])
            }
            att::READ_BY_GROUP_TYPE_REQ => self.group(from, to, mtu),
            att::READ_BY_TYPE_REQ => self.by_type(from, to, mtu),
            att::FIND_INFORMATION_REQ => self.information(from, to, mtu),
            att::WRITE_REQ => Some(vec![att::WRITE_RSP]),
            att::READ_REQ => {
                let n = if rng.chance(15) { mtu.min(MOST_PAYLOAD) - 1 } else { rng.size(0, 20) };
                let mut out = vec![att::READ_RSP];
                out.extend(rng.bytes(n));
                Some(out)
            }
            _ => return None,
        };
        Some(found.unwrap_or_else(|| error(op, from, att::ERR_ATTRIBUTE_NOT_FOUND)))
    }

    /// One of the answers that it should not give.
    pub fn wrong(&mut self, rng: &mut Rng, request: &[u8], mtu: usize) -> Option<Vec<u8>> {
        let op = *request.first()?;
        let mut a = self.right(rng, request, mtu)?;
        let handle = le16(request, 1);
        match rng.below(20) {
            0 | 1 | 16..=18 => {
                self.code = self.code.wrapping_add(1);
                return Some(error(op, handle, self.code));
            }
            2 => return Some(error(op, handle, att::ERR_ATTRIBUTE_NOT_FOUND)),
            3 => return Some(error(rng.byte(), rng.half(), rng.byte())),
            4 => {
                a = error(op, handle, rng.byte());
                a.truncate(rng.size(1, 4));
            }
            5 => a[0] = *rng.pick(&[0x03, 0x05, 0x09, 0x0B, 0x11, 0x13, 0x07, 0x1B, 0x1F]),
            6 => a[0] = rng.byte(),
            7 | 19 if a.len() > 1 => a[1] = *rng.pick(&[0, 1, 2, 3, 5, 6, 7, 8, 19, 20, 21, 22]),
            8 if a.len() > 1 => a[1] = rng.byte(),
            9 => a.truncate(rng.size(1, a.len())),
            10 => {
                let n = rng.size(1, 24);
                a.extend(rng.bytes(n));
            }
            11 if a.len() > 2 => {
                for _ in 0..rng.within(1, 4) {
                    let at = rng.size(1, a.len() - 1);
                    a[at] = rng.byte();
                }
            }
            12 => {
                a.truncate(1);
                let n = rng.size(0, 40);
                a.extend(rng.bytes(n));
            }
            13..=15 => return Some(entries(rng, op, request).unwrap_or(a)),
            _ => {}
        }
        a.truncate(MOST_PAYLOAD);
        Some(a)
    }
}

/// An answer to a discovery request with entries of any handles: rising, repeated, backwards, at the ends.
fn entries(rng: &mut Rng, op: u8, request: &[u8]) -> Option<Vec<u8>> {
    let (from, to) = (le16(request, 1), le16(request, 3));
    let wide = rng.flip();
    let (answer, width) = match op {
        att::READ_BY_GROUP_TYPE_REQ => (att::READ_BY_GROUP_TYPE_RSP, if wide { 20 } else { 6 }),
        att::READ_BY_TYPE_REQ => (att::READ_BY_TYPE_RSP, if wide { 21 } else { 7 }),
        att::FIND_INFORMATION_REQ => (att::FIND_INFORMATION_RSP, if wide { 18 } else { 4 }),
        _ => return None,
    };
    let most = (MOST_PAYLOAD - 2) / width;
    let count = if rng.chance(20) { most } else { rng.size(0, 6.min(most)) };
    let mut out = vec![answer, width as u8];
    if op == att::FIND_INFORMATION_REQ {
        out[1] = if wide { 2 } else { 1 };
    }
    let style = rng.below(5);
    let mut handle = from;
    for i in 0..count {
        handle = match style {
            0 => handle.wrapping_add(1 + rng.below(3) as u16),
            1 => handle,
            2 => handle.wrapping_sub(rng.below(3) as u16),
            3 => *rng.pick(&[
                from,
                from.wrapping_sub(1),
                from.wrapping_add(1),
                to,
                to.wrapping_sub(1),
                0,
                1,
                u16::MAX,
                0xFFFE,
            ]),
            _ => rng.half(),
        };
        out.extend_from_slice(&handle.to_le_bytes());
        let last = i + 1 == count;
        match op {
            att::READ_BY_GROUP_TYPE_REQ => {
                let end = if last && rng.chance(30) {
                    *rng.pick(&[u16::MAX, 0xFFFE, 0, 1, from, to])
                } else {
                    handle.wrapping_add(rng.below(6) as u16)
                };
                out.extend_from_slice(&end.to_le_bytes());
            }
            att::READ_BY_TYPE_REQ => {
                out.push(rng.byte());
                let value = if rng.chance(70) { handle.wrapping_add(1) } else { rng.half() };
                let value = if rng.chance(4) { u16::MAX } else { value };
                out.extend_from_slice(&value.to_le_bytes());
            }
            _ => {}
        }
        let kind = if op == att::FIND_INFORMATION_REQ && rng.flip() { gatt::CCCD } else { uuid(rng) };
        if wide {
            out.extend_from_slice(&kind.0);
        } else {
            out.extend_from_slice(&kind.0[12..14]);
        }
    }
    if rng.chance(20) {
        let n = rng.size(0, (MOST_PAYLOAD - out.len()).min(5));
        out.extend(rng.bytes(n));
    }
    Some(out)
}
