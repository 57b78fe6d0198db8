//! Inputs for the leaves: all short ones, the boundaries, random ones of every length, and damaged good ones.
use super::port::Number;
use super::slow::{short, structures, width};

/// One input: advertising data (or text, or the bytes of ATT), the scan response beside it, and a UUID's number (for the
/// parameter rule: the four numbers, 16 bits each, the first lowest).
#[derive(Clone, Default)]
pub struct Case {
    pub data: Vec<u8>,
    pub response: Vec<u8>,
    pub uuid: Number,
}

impl Case {
    pub fn params(&self) -> [u16; 4] {
        [0, 16, 32, 48].map(|shift| (self.uuid >> shift) as u16)
    }

    fn set_params(&mut self, p: [u16; 4]) {
        self.uuid = p.iter().rev().fold(0, |n, v| n << 16 | Number::from(*v));
    }
}

/// SplitMix64.
pub struct Random(u64);

impl Random {
    pub fn new(seed: u64) -> Random {
        Random(seed)
    }

    pub fn next(&mut self) -> u64 {
        self.0 = self.0.wrapping_add(0x9E37_79B9_7F4A_7C15);
        let z = (self.0 ^ self.0 >> 30).wrapping_mul(0xBF58_476D_1CE4_E5B9);
        let z = (z ^ z >> 27).wrapping_mul(0x94D0_49BB_1331_11EB);
        z ^ z >> 31
    }

    pub fn below(&mut self, n: usize) -> usize {
        (self.next() as u128 * n as u128 >> 64) as usize
    }

    pub fn chance(&mut self, percent: usize) -> bool {
        self.below(100) < percent
    }

    pub fn of<T: Copy>(&mut self, choices: &[T]) -> T {
        choices[self.below(choices.len())]
    }

    fn bytes(&mut self, to: &mut Vec<u8>, n: usize) {
        to.extend((0..n).map(|_| self.next() as u8));
    }

    fn number(&mut self) -> Number {
        Number::from(self.next()) << 64 | Number::from(self.next())
    }
}

pub type Each<'a> = &'a mut dyn FnMut(&Case);

/// Longer than any advertising data, any structure and any count of one byte.
const LONGEST: usize = 300;
const EVERY_LENGTH: usize = 65;

/// The length of the i-th random input: every one up to 64 in turn, then any.
fn length(r: &mut Random, i: u64) -> usize {
    if i % 2 == 0 {
        (i / 2) as usize % EVERY_LENGTH
    } else {
        r.below(LONGEST + 1)
    }
}

/// One to three small changes anywhere: a byte replaced, a bit turned, a byte one more or less, one removed, one put in, the end cut off.
fn damage(r: &mut Random, b: &mut Vec<u8>, instead: &[u8]) {
    for _ in 0..1 + r.below(3) {
        if b.is_empty() {
            b.push(r.of(instead));
            continue;
        }
        let at = r.below(b.len());
        match r.below(7) {
            0 => b[at] = r.of(instead),
            1 => b[at] ^= 1 << r.below(8),
            2 => b[at] = b[at].wrapping_add(1),
            3 => b[at] = b[at].wrapping_sub(1),
            4 => drop(b.remove(at)),
            5 => b.insert(at, r.of(instead)),
            _ => b.truncate(at),
        }
    }
}

// ---- UUID text

const HEX: &[u8] = b"0123456789abcdefABCDEF";
const NEAR: &[u8] = b"09afAFgG-+/:@` x";

pub fn text_fixed(each: Each) {
    let mut c = Case::default();
    // Every text of up to 5 bytes over the digits' ends and what stands beside them.
    for len in 0..=5u32 {
        for n in 0..NEAR.len().pow(len) {
            c.data.clear();
            c.data.extend((0..len).map(|k| NEAR[n / NEAR.len().pow(k) % NEAR.len()]));
            each(&c);
        }
    }
    // Every byte at every place of good texts.
    for good in ["180F", "1-8-0-F", "----", "0000180f-0000-1000-8000-00805F9B34FB", "+0+1+2+3+4+5+6+7+8+9+a+b+c+d+e+f----"] {
        for at in 0..good.len() {
            for b in 0..=255 {
                c.data = good.as_bytes().to_vec();
                c.data[at] = b;
                each(&c);
            }
        }
    }
}

/// 32 digits with so many hyphens at random places.
fn long_text(r: &mut Random, to: &mut Vec<u8>, hyphens: usize) {
    for i in 0..32 {
        let plus = i % 2 == 0 && r.chance(2);
        to.push(if plus { b'+' } else { r.of(HEX) });
    }
    for _ in 0..hyphens {
        to.insert(r.below(to.len() + 1), b'-');
    }
}

pub fn text(r: &mut Random, i: u64, c: &mut Case) {
    c.data.clear();
    match i % 8 {
        0 => {
            let n = length(r, i / 8);
            c.data.extend((0..n).map(|_| r.of(NEAR)));
        }
        1 => {
            let n = length(r, i / 8);
            r.bytes(&mut c.data, n);
        }
        2 | 3 => {
            if r.chance(20) {
                c.data.push(b'+');
            }
            while c.data.len() < 4 {
                c.data.push(r.of(HEX));
            }
            for _ in 0..r.of(&[0, 0, 1, 2, 40]) {
                c.data.insert(r.below(c.data.len() + 1), b'-');
            }
        }
        4 | 5 => {
            let hyphens = r.of(&[4, 4, 4, 4, 4, 3, 5]);
            long_text(r, &mut c.data, hyphens);
        }
        6 => {
            // Text of 36 bytes, or of 4, with characters of more than one byte in it.
            long_text(r, &mut c.data, 4);
            c.data.truncate(r.of(&[4, 36]));
            let wide = r.of(&["é", "€", "😀", "\u{7f}", "٣", "0"]).as_bytes();
            let at = r.below(c.data.len() + 1 - wide.len());
            c.data[at..at + wide.len()].copy_from_slice(wide);
        }
        _ => {
            long_text(r, &mut c.data, 4);
            if r.chance(50) {
                c.data.truncate(4);
            }
            damage(r, &mut c.data, b"0-+fFgG \x80\xC3");
        }
    }
}

// ---- ATT bytes

const FEW: [u32; 6] = [0x180F, 0x1810, 0, 0xFFFF, 0x1_0000, 0xFFFF_FFFF];
const OWN: Number = 0x6E40_0001_B5A3_F393_E0A9_E50E_24DC_CA9E;

/// A UUID: a 16-bit one, a 32-bit one, one of the vendor, one with a byte changed, or any.
fn some_uuid(r: &mut Random) -> Number {
    match r.below(8) {
        0 => short(r.next() as u16 as u32),
        1 => short(r.next() as u32),
        2 => r.number(),
        3 => OWN,
        4 => short(r.next() as u16 as u32) ^ 1 << r.below(128),
        _ => short(r.of(&FEW)),
    }
}

fn each_uuid(each: &mut dyn FnMut(Number)) {
    for v in 0..=0xFFFF {
        each(short(v));
    }
    for v in FEW.into_iter().chain([0x1_180F, 0x8000_0000, 0x00FF_0000]) {
        for at in 0..16 {
            for b in 0..=255u8 {
                let mut bytes = short(v).to_le_bytes();
                bytes[at] = b;
                each(Number::from_le_bytes(bytes));
            }
        }
    }
}

pub fn att_fixed(each: Each) {
    let mut c = Case::default();
    each(&c);
    for a in 0..=255 {
        c.data = vec![a];
        each(&c);
        for b in 0..=255 {
            c.data = vec![a, b];
            each(&c);
        }
    }
    for n in 0..=LONGEST {
        c.data = (0..n).map(|i| i as u8).collect();
        each(&c);
    }
    each_uuid(&mut |u| {
        c.data = u.to_le_bytes().to_vec();
        each(&c);
    });
}

pub fn att(r: &mut Random, i: u64, c: &mut Case) {
    c.data.clear();
    match i % 4 {
        0 => {
            let n = length(r, i / 4);
            r.bytes(&mut c.data, n);
        }
        1 => r.bytes(&mut c.data, 2),
        2 => c.data.extend(some_uuid(r).to_le_bytes()),
        _ => {
            c.data.extend(some_uuid(r).to_le_bytes());
            damage(r, &mut c.data, &[0, 0xFB, 0xFF]);
        }
    }
}

pub fn uuid_fixed(each: Each) {
    let mut c = Case::default();
    each_uuid(&mut |u| {
        c.uuid = u;
        each(&c);
    });
}

pub fn uuid(r: &mut Random, _: u64, c: &mut Case) {
    c.uuid = some_uuid(r);
}

// ---- advertising data

/// Every length and every kind, over a body that is one short, right, and one long.
fn each_header(c: &mut Case, each: Each) {
    for len in 0..=255usize {
        for kind in 0..=255 {
            for there in len.saturating_sub(2)..=len {
                c.data.clear();
                c.data.extend([len as u8, kind]);
                c.data.resize(2 + there, 0);
                c.uuid = if width(kind) == 16 { 0 } else { short(0) };
                each(c);
            }
        }
    }
}

pub fn search_fixed(each: Each) {
    let mut c = Case {
        uuid: short(0),
        ..Case::default()
    };
    each(&c);
    for a in 0..=255 {
        c.data = vec![a];
        each(&c);
        for b in 0..=255 {
            c.data = vec![a, b];
            each(&c);
            c.data = vec![3, 3, a, b];
            c.uuid = short(0x180F);
            each(&c);
        }
    }
    each_header(&mut c, each);
}

/// Up to four structures, most of them lists of UUIDs, some with a remainder.
fn report(r: &mut Random, to: &mut Vec<u8>) {
    for _ in 0..r.below(5) {
        let kind = r.of(&[1, 2, 3, 3, 4, 5, 6, 7, 7, 8, 9, 0x16, 0xFF]);
        let mut body = Vec::new();
        let most = if r.chance(3) { 40 } else { 4 };
        for _ in 0..r.below(most) {
            let u = some_uuid(r).to_le_bytes();
            match width(kind) {
                2 => body.extend(&u[12..14]),
                4 => body.extend(&u[12..16]),
                16 => body.extend(u),
                _ => body.extend(&u[..3]),
            }
        }
        if r.chance(20) {
            let more = r.below(16);
            r.bytes(&mut body, more);
        }
        body.truncate(254);
        to.extend([body.len() as u8 + 1, kind]);
        to.extend(body);
    }
}

/// A UUID that stands in the data, if one does.
fn listed_uuid(r: &mut Random, data: &[u8]) -> Option<Number> {
    let lists: Vec<_> = structures(data)
        .into_iter()
        .filter(|&(kind, _, count)| width(kind) > 0 && count >= width(kind))
        .collect();
    if lists.is_empty() {
        return None;
    }
    let (kind, start, count) = r.of(&lists);
    let w = width(kind);
    let at = start + r.below(count / w) * w;
    let mut u = if w == 16 { [0; 16] } else { short(0).to_le_bytes() };
    let to = if w == 16 { 0 } else { 12 };
    u[to..to + w].copy_from_slice(&data[at..at + w]);
    Some(Number::from_le_bytes(u))
}

fn advertising(r: &mut Random, i: u64, to: &mut Vec<u8>) {
    to.clear();
    match i % 4 {
        0 => {
            let n = length(r, i / 4);
            r.bytes(to, n);
            // Lengths and kinds that lead somewhere, more often than chance gives them.
            if n > 1 && r.chance(90) {
                to[0] = r.below(n + 1) as u8;
                to[1] = r.below(10) as u8;
            }
        }
        1 | 2 => report(r, to),
        _ => {
            report(r, to);
            damage(r, to, &[0, 1, 2, 3, 7, 17, 255]);
        }
    }
}

pub fn search(r: &mut Random, i: u64, c: &mut Case) {
    advertising(r, i, &mut c.data);
    advertising(r, i / 3, &mut c.response);
    let listed = match r.below(10) {
        0..5 => listed_uuid(r, &c.data),
        5..8 => listed_uuid(r, &c.response),
        _ => None,
    };
    c.uuid = match listed {
        Some(u) if r.chance(5) => u ^ 1 << r.below(128),
        Some(u) => u,
        None => some_uuid(r),
    };
}

/// As for the search; a quarter have no response, and some of the others' parts are cut.
pub fn presence(r: &mut Random, i: u64, c: &mut Case) {
    search(r, i, c);
    match r.below(8) {
        0 | 1 => c.response.clear(),
        2 => c.data.truncate(r.below(c.data.len() + 1)),
        3 => c.response.truncate(r.below(c.response.len() + 1)),
        _ => {}
    }
}

// ---- the name

pub fn name_fixed(each: Each) {
    let mut c = Case::default();
    each(&c);
    for a in 0..=255 {
        c.data = vec![2, 9, a];
        each(&c);
        for b in 0..=255 {
            c.data = vec![3, 8, a, b];
            each(&c);
            for d in 0..=255 {
                c.data = vec![4, 9, a, b, d];
                each(&c);
            }
        }
    }
    let edges = [0, 0x7F, 0x80, 0x8F, 0x90, 0x9F, 0xA0, 0xBF, 0xC0, 0xFF];
    for a in 0xE0..=255 {
        for b in 0..=255 {
            for d in edges {
                for e in edges {
                    c.data = vec![5, 9, a, b, d, e];
                    each(&c);
                }
            }
        }
    }
    each_header(&mut c, each);
}

const CHARACTERS: [&str; 14] = [
    "a", "é", "€", "😀", "\u{7ff}", "\u{800}", "\u{d7ff}", "\u{e000}", "\u{ffff}", "\u{10000}", "\u{10ffff}", "\0", "\u{7f}", "\u{80}",
];

pub fn name(r: &mut Random, i: u64, c: &mut Case) {
    if i % 4 == 0 {
        return advertising(r, i / 4, &mut c.data);
    }
    c.data.clear();
    if r.chance(50) {
        report(r, &mut c.data);
    }
    let mut body = Vec::new();
    let most = if r.chance(3) { 90 } else { 8 };
    for _ in 0..r.below(most) {
        body.extend(r.of(&CHARACTERS).as_bytes());
    }
    if r.chance(30) {
        damage(r, &mut body, &[0xC0, 0xE0, 0xED, 0xF0, 0xF4, 0x80, 0xFF]);
    }
    body.truncate(254);
    c.data.extend([body.len() as u8 + 1, r.of(&[8, 9, 8, 9, 8, 9, 8, 9, 7, 10])]);
    c.data.extend(body);
    if r.chance(30) {
        report(r, &mut c.data);
    }
    if r.chance(10) {
        damage(r, &mut c.data, &[0, 1, 8, 9, 255]);
    }
}

// ---- the connection parameters

const INTERVALS: [u16; 14] = [0, 1, 5, 6, 7, 8, 1599, 1600, 3199, 3200, 3201, 0x7FFF, 0x8000, 0xFFFF];
const LATENCIES: [u16; 13] = [0, 1, 2, 3, 10, 498, 499, 500, 501, 1000, 0x7FFF, 0x8000, 0xFFFF];
const TIMEOUTS: [u16; 18] = [0, 1, 9, 10, 11, 12, 750, 751, 800, 801, 1600, 3199, 3200, 3201, 4000, 0x7FFF, 0x8000, 0xFFFF];

pub fn params_fixed(each: Each) {
    let mut c = Case::default();
    for min in INTERVALS {
        for max in INTERVALS {
            for latency in LATENCIES {
                for timeout in TIMEOUTS {
                    c.set_params([min, max, latency, timeout]);
                    each(&c);
                }
            }
        }
    }
    // Every latency against every interval, where the timeout begins to be long enough.
    for latency in 0..=500u32 {
        for max in (6..=3201u32).step_by(17) {
            let edge = (1 + latency) * max / 4;
            for timeout in edge.saturating_sub(1)..=edge + 1 {
                if timeout <= 0xFFFF {
                    c.set_params([6, max as u16, latency as u16, timeout as u16]);
                    each(&c);
                }
            }
        }
    }
}

pub fn params(r: &mut Random, i: u64, c: &mut Case) {
    let any = r.next();
    if i % 4 == 0 {
        c.uuid = any.into();
        return;
    }
    let max = 6 + r.below(3195) as u16;
    let min = 6 + r.below(usize::from(max) - 5) as u16;
    let most = if r.chance(50) { 4 } else { 500 };
    let latency = r.below(most) as u16;
    let edge = (1 + usize::from(latency)) * usize::from(max) / 4;
    let timeout = match r.below(3) {
        0 => r.below(3201),
        1 => (edge + r.below(3)).saturating_sub(1),
        _ => edge + r.below(3201),
    };
    let mut p = [min, max, latency, timeout.min(0xFFFF) as u16];
    if i % 4 == 1 {
        let at = r.below(4);
        p[at] = r.of(&[p[at].wrapping_add(1), p[at].wrapping_sub(1), any as u16, 0, 3200, 3201]);
    }
    c.set_params(p);
}
