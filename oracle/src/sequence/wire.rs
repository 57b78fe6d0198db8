//! What comes over the air: advertisements, and frames in fragments.

use super::head::{MOST_PAYLOAD, error};
use super::{Cut, Groups, Scene, Sequence};
use crate::trace::{Call, MOST_DATA, MOST_FRAGMENT, gate};
use oracle::ble::central::{Step, att, cid};

pub fn l2cap(channel: u16, payload: &[u8]) -> Vec<u8> {
    let mut out = (payload.len() as u16).to_le_bytes().to_vec();
    out.extend_from_slice(&channel.to_le_bytes());
    out.extend_from_slice(payload);
    out
}

/// Codes on either side of a border: named requests and answers, the notification, 20, the command.
const OPCODES: [u8; 14] = [0x00, 0x01, 0x13, 0x14, 0x19, 0x1A, 0x1B, 0x1C, 0x1D, 0x1E, 0x1F, 0x20, 0x21, 0x52];
const SIGNALS: [u8; 12] = [0x00, 0x01, 0x06, 0x07, 0x12, 0x13, 0x14, 0x15, 0x16, 0x17, 0x18, 0x1A];
/// About the borders of the parameter rule.
const INTERVALS: [u16; 10] = [0, 5, 6, 7, 24, 100, 3199, 3200, 3201, u16::MAX];
const LATENCIES: [u16; 7] = [0, 0, 1, 498, 499, 500, u16::MAX];
const TIMEOUTS: [u16; 8] = [0, 9, 10, 11, 100, 3200, 3201, u16::MAX];

impl Sequence<'_> {
    // The radio.

    fn structure(&mut self) -> Vec<u8> {
        let r = &mut self.rng;
        let listed = *r.pick(&self.listed);
        let (kind, body) = match r.below(10) {
            0 => (0x01, vec![0x06]),
            1 | 2 => (r.within(2, 3) as u8, listed.0[12..14].to_vec()),
            3 => {
                let mut four = listed.0[12..16].to_vec();
                if r.chance(40) {
                    four[r.size(0, 3)] = r.byte();
                }
                (r.within(4, 5) as u8, four)
            }
            4 => (r.within(6, 7) as u8, listed.0.to_vec()),
            5 => {
                let mut two = r.bytes(2);
                two.extend_from_slice(&listed.0[12..14]);
                two.extend(r.bytes(1));
                (3, two)
            }
            6 => (r.within(8, 9) as u8, b"bay 7".to_vec()),
            7 => (r.byte(), r.bytes(2)),
            8 => (r.within(2, 7) as u8, Vec::new()),
            _ => {
                let n = r.size(0, 20);
                (r.byte(), r.bytes(n))
            }
        };
        let mut out = vec![body.len() as u8 + 1, kind];
        out.extend_from_slice(&body);
        if r.chance(5) {
            out[0] = r.byte();
        }
        out
    }

    fn advertised(&mut self) -> Vec<u8> {
        let mut data = Vec::new();
        if self.rng.chance(10) {
            let n = self.rng.size(0, gate::MOST_ADVERTISED);
            return self.rng.bytes(n);
        }
        for _ in 0..self.rng.below(4) {
            data.extend(self.structure());
        }
        data.truncate(gate::MOST_ADVERTISED);
        data
    }

    fn advertiser(&mut self) -> ([u8; 6], bool) {
        if self.profile.scene == Scene::Crowd {
            self.boundary += 1;
        }
        let address = match self.profile.scene {
            Scene::Crowd => self.advertisers[self.boundary % self.advertisers.len()],
            _ => *self.rng.pick(&self.advertisers),
        };
        // Mostly of the type that goes with the address, else one address with both.
        (address, (address[0] & 1 == 1) != self.rng.chance(15))
    }

    fn scan_response(&mut self, address: [u8; 6], random: bool) -> Call {
        let data = self.advertised();
        Call::ScanResponse { at: self.tick(), address, random, data }
    }

    pub fn heard(&mut self) -> Call {
        let (address, random) = self.advertiser();
        if self.rng.chance(8) {
            let address = if self.rng.chance(80) { address } else { self.rng.bytes(6).try_into().expect("6") };
            return self.scan_response(address, random);
        }
        let pdu = match self.rng.below(10) {
            2..=6 if self.profile.scene == Scene::Crowd => 6,
            0..=4 => 0,
            5 => 1,
            6 => 2,
            7 | 8 => 6,
            _ => *self.rng.pick(&[3, 4, 5, 7, 8, 15, 16, 255]),
        };
        let channel = if self.rng.chance(95) { self.rng.within(37, 39) as u8 } else { self.rng.byte() };
        let (at, to_central, data) = (self.tick(), self.rng.flip(), self.advertised());
        Call::Advertising { at, channel, pdu, address, random, to_central, data }
    }

    /// The scan response that a scan request asked for, of the advertiser heard last.
    pub fn answer_scan(&mut self) {
        if let Some(Call::Advertising { address, random, .. }) = self.made.last() {
            let call = self.scan_response(*address, *random);
            self.make(call);
        }
    }

    // The link: what goes in.

    /// A fragment, cut short where more could not be held.
    pub fn fragment(&mut self, start: bool, mut data: Vec<u8>) -> Call {
        if let Some(held) = gate::held(&self.central, start, data.len())
            && held > gate::MOST_HELD
        {
            let less = held - gate::MOST_HELD;
            data.truncate(data.len().saturating_sub(less));
        }
        Call::Fragment { at: self.tick(), start, data }
    }

    /// A fragment that belongs to no frame.
    pub fn loose_fragment(&mut self) -> Call {
        let start = self.rng.flip();
        let dropped = gate::held(&self.central, start, 0).is_none();
        let n = match self.rng.below(40) {
            0 if dropped => self.rng.size(0, MOST_FRAGMENT),
            1 if dropped && self.rng.chance(20) => MOST_FRAGMENT,
            2..=4 => gate::MOST_HELD - usize::from(self.rng.flip()),
            5..=8 => 0,
            9..=12 => self.rng.size(0, gate::MOST_HELD),
            _ => self.rng.size(0, 9),
        };
        let mut data = self.rng.bytes(n);
        // A length that may be reached, so that what follows counts.
        if start && n >= 4 && self.rng.chance(80) {
            let len = *self.rng.pick(&[0, 1, 3, 5, n - 4, n - 3, 247, 300]) as u16;
            data[..2].copy_from_slice(&len.to_le_bytes());
            data[2..4].copy_from_slice(&self.rng.within(4, 6).to_le_bytes()[..2]);
        }
        self.fragment(start, data)
    }

    /// A call that 01 refuses, mostly: what it is, the gate tells.
    pub fn refused(&mut self) -> Call {
        let Groups { radio, link } = self.groups;
        let late = gate::MOST_TIME + *self.rng.pick(&[1, 2, 1 << 61, (1 << 63) + (1 << 62) - 1]);
        match self.rng.below(8) {
            0 => Call::Timer { now: late },
            1 => Call::Connected { at: late, handle: 1 },
            2 => Call::Disconnected { at: late },
            3 if radio => {
                let n = self.rng.size(gate::MOST_ADVERTISED + 1, MOST_DATA);
                let (at, (address, random), data) = (self.tick(), self.advertiser(), self.rng.bytes(n));
                match self.rng.below(4) {
                    0 => Call::ScanResponse { at: late, address, random, data: Vec::new() },
                    1 => Call::ScanResponse { at, address, random, data },
                    _ => Call::Advertising { at, channel: 37, pdu: 0, address, random, to_central: true, data },
                }
            }
            4 | 5 if link => {
                let held = self.central.link.as_ref().map_or(0, |l| l.rx.len());
                let start = held == 0 || self.rng.flip();
                let room = gate::MOST_HELD - if start { 0 } else { held };
                let n = if self.rng.chance(10) { self.rng.size(room + 1, MOST_FRAGMENT) } else { room + 1 };
                let at = if self.rng.chance(10) { late } else { self.tick() };
                Call::Fragment { at, start, data: self.rng.bytes(n) }
            }
            _ => Call::Batch(self.spoilt_batch()),
        }
    }

    /// A frame is cut into fragments, which wait to be heard.
    pub fn post(&mut self, frame: Vec<u8>) {
        let cut = match self.profile.cut {
            Cut::Mixed => *self.rng.pick(&[Cut::Whole, Cut::Two, Cut::Many, Cut::Surplus]),
            c if self.rng.chance(5) && c == Cut::Whole => Cut::Two,
            c => c,
        };
        match cut {
            Cut::Two => {
                self.boundary += 1;
                let at = self.boundary % (frame.len() + 1);
                self.outbox.push_back((true, frame[..at].to_vec()));
                self.outbox.push_back((false, frame[at..].to_vec()));
            }
            Cut::Many => {
                let mut at = 0;
                let most = if frame.len() > 60 { 80 } else { 12 };
                while at < frame.len() {
                    let to = (at + self.rng.size(1, most)).min(frame.len());
                    self.outbox.push_back((at == 0, frame[at..to].to_vec()));
                    at = to;
                }
            }
            Cut::Surplus => {
                let more = self.rng.size(0, 8).min(gate::MOST_HELD - frame.len());
                let mut long = frame;
                long.extend(self.rng.bytes(more));
                self.outbox.push_back((true, long));
            }
            _ => self.outbox.push_back((true, frame)),
        }
    }

    /// The head hears a frame and answers, rightly or not.
    pub fn react(&mut self, frame: &[u8]) {
        if !self.groups.link || frame.len() < 5 || frame[2..4] != cid::ATT.to_le_bytes() {
            return;
        }
        let mtu = self.central.link.as_ref().map_or(23, |l| usize::from(l.mtu));
        let p = &self.profile;
        let (wrong, silent, late) = (p.wrong, p.silent, p.late);
        let request = &frame[4..];
        let answer = if self.rng.chance(wrong) {
            self.head.wrong(&mut self.rng, request, mtu)
        } else {
            self.head.right(&mut self.rng, request, mtu)
        };
        let Some(answer) = answer else {
            return;
        };
        let answer = l2cap(cid::ATT, &answer);
        if self.rng.chance(silent) {
            return;
        }
        if self.rng.chance(late) {
            self.late.push(answer.clone());
            if self.rng.flip() {
                return;
            }
        }
        if self.rng.chance(4) {
            let first = self.unasked();
            self.post(first);
        }
        self.post(answer);
    }

    // The link: what the peer says unasked.

    fn known_handle(&mut self) -> u16 {
        let r = &mut self.rng;
        match r.below(10) {
            0..=7 if !self.central.characteristics.is_empty() => r.pick(&self.central.characteristics).value_handle,
            8 => r.half(),
            _ => r.below(20) as u16,
        }
    }

    pub fn notification(&mut self, handle: u16, value: &[u8]) -> Vec<u8> {
        let op = if self.rng.chance(35) { att::HANDLE_VALUE_IND } else { att::HANDLE_VALUE_NTF };
        let mut p = vec![op];
        p.extend_from_slice(&handle.to_le_bytes());
        p.extend_from_slice(value);
        p.truncate(MOST_PAYLOAD);
        l2cap(cid::ATT, &p)
    }

    fn any_notification(&mut self) -> Vec<u8> {
        let handle = self.known_handle();
        let n = if self.rng.chance(4) { self.rng.size(200, 244) } else { self.rng.size(0, 6) };
        let value = self.letters(n);
        self.notification(handle, &value)
    }

    fn parameters(&mut self) -> Vec<u8> {
        let r = &mut self.rng;
        let (mut min, mut max, mut latency, mut timeout) =
            (*r.pick(&INTERVALS), *r.pick(&INTERVALS), *r.pick(&LATENCIES), *r.pick(&TIMEOUTS));
        match r.below(5) {
            0 => {}
            1 | 2 => {
                // All within their borders, at the last rule.
                max = r.within(6, 3200) as u16;
                min = r.within(6, u64::from(max)) as u16;
                latency = r.within(0, (12_800 / u64::from(max)).saturating_sub(1).min(499)) as u16;
                let edge = (1 + u32::from(latency)) * u32::from(max) / 4;
                timeout = (edge + r.below(3) as u32).clamp(9, 3201) as u16;
            }
            _ => {
                // Good but for one, at its border.
                let one = (min, max, latency, timeout);
                (min, max, latency, timeout) = (6, *r.pick(&[6, 7, 8]), r.within(0, 100) as u16, 3200);
                match r.below(4) {
                    0 if r.flip() => min = one.0,
                    0 => (min, max, latency) = (one.0, one.0.max(6), 0),
                    1 => (max, latency) = (one.1, 0),
                    2 => latency = one.2,
                    _ => (latency, timeout) = (0, one.3),
                }
            }
        }
        let mut p = vec![0x12, r.byte(), 8, 0];
        for n in [min, max, latency, timeout] {
            p.extend_from_slice(&n.to_le_bytes());
        }
        match r.below(12) {
            0 => p.truncate(r.size(0, 11)),
            1 => p.extend(r.bytes(3)),
            _ => {}
        }
        p
    }

    fn signaling(&mut self) -> Vec<u8> {
        if self.rng.chance(50) {
            return self.parameters();
        }
        self.signal = self.signal.wrapping_add(1);
        let n = self.rng.size(0, 13);
        let mut p = vec![if self.rng.chance(40) { *self.rng.pick(&SIGNALS) } else { self.signal }];
        p.extend(self.rng.bytes(n));
        p
    }

    fn request(&mut self) -> Vec<u8> {
        let r = &mut self.rng;
        match r.below(10) {
            0 | 1 => {
                let mtu = *r.pick(&[0u16, 5, 22, 23, 24, 100, 246, 247, 248, u16::MAX]);
                let mut p = vec![att::EXCHANGE_MTU_REQ];
                p.extend_from_slice(&mtu.to_le_bytes());
                p.truncate(r.size(1, 4).max(2));
                p
            }
            2 => {
                let op = *r.pick(&[0x03, 0x05, 0x09, 0x0B, 0x11, 0x13]);
                let n = r.size(0, 12);
                let mut p = vec![op];
                p.extend(r.bytes(n));
                p
            }
            3 => {
                let pending = self.central.link.as_ref().and_then(|l| l.pending).unwrap_or(0x0A);
                error(pending, r.half(), r.byte())
            }
            _ => {
                self.opcode = self.opcode.wrapping_add(1);
                let n = r.size(0, 8);
                let mut p = vec![if r.chance(25) { *r.pick(&OPCODES) } else { self.opcode }];
                p.extend(r.bytes(n));
                p
            }
        }
    }

    pub fn unasked(&mut self) -> Vec<u8> {
        let peer = self.profile.scene == Scene::Peer;
        match self.rng.below(if peer { 16 } else { 20 }) {
            0..=5 => {
                let p = self.request();
                l2cap(cid::ATT, &p)
            }
            6..=11 => {
                let p = self.signaling();
                l2cap(cid::SIGNALING, &p)
            }
            12 | 13 => {
                let n = self.rng.size(0, 3);
                let mut p = self.rng.bytes(n);
                if n > 0 && self.rng.chance(25) {
                    p[0] = 0x05;
                }
                l2cap(cid::SMP, &p)
            }
            14 => {
                let channel = *self.rng.pick(&[0, 1, 2, 3, 7, 0x0104, 0x0400, 0x0500, u16::MAX]);
                let n = self.rng.size(0, 6);
                let p = self.rng.bytes(n);
                l2cap(channel, &p)
            }
            15 => l2cap(cid::ATT, &[]),
            _ => self.any_notification(),
        }
    }

    /// Notifications for the wait that runs: its bytes whole, in two with others between, or nearly.
    pub fn notify_wait(&mut self) {
        let Some(Step::WaitNotification { characteristic, contains, .. }) =
            self.central.running.as_ref().map(|r| r.step.clone())
        else {
            return;
        };
        let known = self.central.characteristics.iter().find(|c| c.uuid == characteristic);
        let handle = known.map_or(1, |c| c.value_handle);
        let other = handle.wrapping_add(1 + self.rng.below(3) as u16);
        let before = self.rng.size(0, 3).min(244 - contains.len());
        let mut whole = self.letters(before);
        whole.extend_from_slice(&contains);
        let split = self.rng.size(0, whole.len());
        let mut parts = match self.rng.below(8) {
            0 | 1 => vec![(handle, whole)],
            2 => vec![(handle, whole[..split].to_vec()), (handle, whole[split..].to_vec())],
            3 => {
                vec![(handle, whole[..split].to_vec()), (other, b"FRE".to_vec()), (handle, whole[split..].to_vec())]
            }
            4 => vec![(handle, whole[..whole.len().saturating_sub(1)].to_vec())],
            5 => vec![(other, whole)],
            6 => vec![(handle, Vec::new())],
            _ => {
                let frame = self.any_notification();
                return self.post(frame);
            }
        };
        if self.profile.scene == Scene::Notify && self.rng.chance(30) {
            // Enough to push old ones out.
            let more = self.rng.size(5, 40);
            for _ in 0..more {
                let value = self.rng.size(0, 2);
                let value = self.letters(value);
                parts.insert(0, (other, value));
            }
        }
        for (handle, value) in parts {
            let frame = self.notification(handle, &value);
            self.post(frame);
        }
    }
}
