//! Steps and batches.

use super::{Scene, Sequence, head};
use crate::trace::{Batch, MOST_STEPS, MOST_VALUES, gate, one, value};
use oracle::ble::central::{Step, Target, Uuid};

pub const KINDS: u64 = 13;
/// Values are of few letters, so that one turns up in another.
const LETTERS: &[u8] = b"FRE";

impl Sequence<'_> {
    fn ms(&mut self) -> u32 {
        *self.rng.pick(&[0, 1, 2, 10, 100, 1_000, 1_000, 5_000, 60_000, 3_600_000, u32::MAX])
    }

    pub fn letters(&mut self, n: usize) -> Vec<u8> {
        (0..n).map(|_| *self.rng.pick(LETTERS)).collect()
    }

    fn service(&mut self) -> Uuid {
        let r = &mut self.rng;
        let (known, has) = (&self.central.services, &self.head.services);
        let full: Vec<Uuid> = has.iter().filter(|s| !s.characteristics.is_empty()).map(|s| s.uuid).collect();
        match r.below(10) {
            0 | 1 if !known.is_empty() => r.pick(known).uuid,
            2..=7 if !full.is_empty() => *r.pick(&full),
            8 if !has.is_empty() => r.pick(has).uuid,
            _ => head::uuid(r),
        }
    }

    pub fn characteristic(&mut self) -> Uuid {
        let r = &mut self.rng;
        let (known, has) = (&self.central.characteristics, self.head.characteristics());
        match r.below(20) {
            0..=13 if !known.is_empty() => r.pick(known).uuid,
            14..=18 if !has.is_empty() => *r.pick(&has),
            _ => head::uuid(r),
        }
    }

    /// One that can be subscribed to, if any is known.
    fn source(&mut self) -> Uuid {
        let known: Vec<Uuid> =
            self.central.characteristics.iter().filter(|c| c.cccd.is_some()).map(|c| c.uuid).collect();
        if !known.is_empty() && self.rng.chance(80) { *self.rng.pick(&known) } else { self.characteristic() }
    }

    fn target(&mut self) -> Target {
        let r = &mut self.rng;
        match r.below(4) {
            0 | 1 => Target::Any,
            2 => Target::Address {
                address: if r.chance(90) { *r.pick(&self.advertisers) } else { r.bytes(6).try_into().expect("6") },
                random: r.flip(),
            },
            _ => Target::Service(*r.pick(&self.listed)),
        }
    }

    /// About the MTU in force, about the common ones, and at the limit.
    fn length(&mut self) -> usize {
        let mtu = self.central.link.as_ref().map_or(23, |l| usize::from(l.mtu));
        let r = &mut self.rng;
        match r.below(8) {
            0 => 0,
            1 => 20,
            2 => 21,
            3 => (mtu - 3 + r.size(0, 1)).min(gate::MOST_VALUE),
            4 if r.chance(30) => r.size(gate::MOST_VALUE - 1, gate::MOST_VALUE),
            _ => r.size(1, 12),
        }
    }

    fn wait(&mut self) -> Step {
        if self.profile.scene == Scene::Aged {
            let n = self.rng.size(0, 3);
            let contains = self.letters(n);
            return one::wait(self.bay(), contains, self.ms(), self.age());
        }
        let n = if self.rng.chance(25) { 0 } else { self.rng.size(1, 5) };
        let n = if self.rng.chance(4) { self.rng.size(100, gate::MOST_VALUE) } else { n };
        let contains = self.letters(n);
        one::wait(self.characteristic(), contains, self.ms(), self.age())
    }

    pub fn step(&mut self, kind: u64) -> Step {
        match kind {
            0 => Step::Scan { ms: self.ms() },
            1 => Step::Connect {
                target: self.target(),
                interval: self.rng.half(),
                latency: self.rng.half(),
                timeout: self.rng.half(),
                within_ms: self.ms(),
            },
            2 => Step::ExchangeMtu { mtu: *self.rng.pick(&[0, 10, 22, 23, 24, 64, 100, 185, 246, 247, 247]) },
            3 => Step::DiscoverServices,
            4 => Step::DiscoverCharacteristics { service: self.service() },
            5 => Step::Subscribe { characteristic: self.source(), indicate: self.rng.flip() },
            6 => {
                let n = self.length();
                let value = if self.rng.flip() { self.letters(n) } else { self.rng.bytes(n) };
                Step::Write { characteristic: self.characteristic(), value, with_response: self.rng.flip() }
            }
            7 => Step::Read { characteristic: self.characteristic() },
            8 => self.wait(),
            9 => Step::Wait { ms: self.ms() },
            10 => Step::Disconnect,
            11 => Step::Capture { enabled: self.rng.flip() },
            _ => Step::CaptureSecrets { secrets: self.rng.flip() },
        }
    }

    fn any(&mut self) -> Step {
        let kind = self.rng.below(KINDS);
        self.step(kind)
    }

    /// Scan, connect, discover, subscribe, wait, read, with some left out.
    fn journey(&mut self) -> Vec<Step> {
        let mut kinds = Vec::new();
        let linked = self.central.link.is_some();
        if self.rng.chance(20) {
            kinds.push(0);
        }
        if !linked || self.rng.chance(30) {
            kinds.push(1);
        }
        if self.rng.chance(50) {
            kinds.push(2);
        }
        if self.central.services.is_empty() && self.rng.chance(70) || self.rng.chance(5) {
            kinds.push(3);
        }
        let known = !self.central.characteristics.is_empty();
        for _ in 0..if known { self.rng.below(2) } else { self.rng.within(1, 2) } {
            kinds.push(4);
        }
        for _ in 0..if known { self.rng.within(1, 8) } else { self.rng.below(3) } {
            kinds.push(self.rng.within(5, 8));
        }
        if self.rng.chance(10) {
            kinds.push(9);
        }
        if self.rng.chance(15) {
            kinds.push(10);
        }
        if self.rng.chance(10) {
            kinds.push(self.rng.within(11, 12));
        }
        kinds.into_iter().map(|k| self.step(k)).collect()
    }

    pub fn some(&mut self, kinds: &[u64]) -> Vec<Step> {
        let n = self.rng.size(1, 5);
        (0..n)
            .map(|_| {
                let kind = *self.rng.pick(kinds);
                self.step(kind)
            })
            .collect()
    }

    /// Commands that all go out once the wait is over, or the link there.
    fn volley(&mut self) -> Vec<Step> {
        let known = self.central.characteristics.len() as u64;
        let c = self.central.characteristics[self.rng.below(known) as usize].uuid;
        let mtu = self.central.link.as_ref().map_or(23, |l| usize::from(l.mtu));
        let n = if self.rng.flip() { mtu - 3 } else { self.length() };
        let value = self.letters(n);
        let write = Step::Write { characteristic: c, value, with_response: false };
        let mut steps = vec![write; 64];
        if self.central.running.is_none() && self.rng.chance(80) {
            let wait = one::wait(c, Vec::new(), 60_000, self.age());
            steps[0] = if self.rng.chance(70) { wait } else { self.step(10) };
        }
        steps
    }

    /// Every service of the head in turn.
    fn survey(&mut self) -> Vec<Step> {
        let mut steps = vec![Step::ExchangeMtu { mtu: 247 }, Step::DiscoverServices];
        for s in &self.head.services {
            steps.push(Step::DiscoverCharacteristics { service: s.uuid });
        }
        if self.central.link.is_none() {
            steps.insert(0, self.step(1));
        }
        steps
    }

    /// Many steps at once, often of one kind, behind one that holds them up.
    fn burst(&mut self) -> Vec<Step> {
        let held = self.central.running.is_some();
        if !self.central.characteristics.is_empty() && self.rng.chance(if held { 80 } else { 40 }) {
            return self.volley();
        }
        let n = *self.rng.pick(&[0, 1, 30, 62, 63, 63, 64, 64]);
        let kind = *self.rng.pick(&[2, 3, 5, 6, 6, 6, 7, 8, 10, 11, 12]);
        let mixed = self.rng.chance(30);
        let same = self.step(kind);
        let mut steps: Vec<Step> = (0..n).map(|_| if mixed { self.any() } else { same.clone() }).collect();
        if self.rng.chance(60) && n > 0 {
            let first = *self.rng.pick(&[0, 1, 8, 9, 10]);
            steps[0] = self.step(first);
        }
        steps
    }

    pub fn script(&mut self) -> Vec<Step> {
        let linked = self.central.link.is_some();
        let linked_known = linked && !self.central.characteristics.is_empty();
        let mut steps = match self.profile.scene {
            Scene::Survey if self.central.characteristics.is_empty() => self.survey(),
            Scene::Crowd => vec![Step::Scan { ms: 5_000 }],
            _ if self.rng.chance(if self.profile.scene == Scene::Burst { 3 } else { 10 }) => {
                let n = match self.rng.below(20) {
                    0 => 0,
                    1 => MOST_STEPS,
                    2 | 3 => self.rng.size(9, 40),
                    _ => self.rng.size(1, 6),
                };
                (0..n).map(|_| self.any()).collect()
            }
            Scene::Any => (0..self.rng.below(5)).map(|_| self.any()).collect(),
            Scene::Burst if linked_known || !self.groups.link || self.rng.chance(25) => self.burst(),
            Scene::Scan => self.some(&[0, 0, 0, 1, 9, 10]),
            Scene::Notify if linked_known => self.some(&[5, 8, 8, 8, 8, 9, 1, 7]),
            Scene::Aged if linked_known => self.some(&[8, 8, 8, 8, 8, 8, 8, 9, 7, 10]),
            Scene::Aged | Scene::Needles if linked => vec![self.step(4)],
            Scene::Closed if linked => self.closing_script(),
            Scene::Discover if linked => self.some(&[3, 4, 4, 4, 4, 4, 2]),
            Scene::Peer if linked => self.some(&[9, 9, 6, 7, 2, 8]),
            _ => self.journey(),
        };
        steps.truncate(MOST_STEPS);
        steps
    }

    /// The same values at other places: backwards, with gaps, equal ones shared.
    pub fn scatter(&mut self, batch: &mut Batch) {
        let mut values = self.rng.bytes(3);
        for (step, (place, _)) in batch.steps.iter().zip(&mut batch.parts).rev() {
            let wanted = value(step);
            if wanted.is_empty() {
                continue;
            }
            let found = values.windows(wanted.len()).position(|w| w == wanted);
            *place = found.unwrap_or(values.len()) as u32;
            if found.is_none() {
                values.extend_from_slice(wanted);
                values.push(0xEE);
            }
        }
        if values.len() <= MOST_VALUES {
            batch.values = values;
        } else {
            *batch = Batch::new(batch.now, std::mem::take(&mut batch.steps));
        }
    }

    /// A batch with one thing too many in it.
    pub fn spoilt_batch(&mut self) -> Batch {
        let mut steps = self.script();
        let long = self.rng.size(gate::MOST_VALUE + 1, 300);
        let way = self.rng.below(5);
        match way {
            0 => {
                while steps.len() < MOST_STEPS {
                    steps.push(self.any());
                }
            }
            1 => steps.push(Step::ExchangeMtu { mtu: *self.rng.pick(&[248, 249, 512, u16::MAX]) }),
            2 => {
                let (characteristic, value) = (self.characteristic(), self.rng.bytes(long));
                steps.push(Step::Write { characteristic, value, with_response: true });
            }
            3 => {
                let (characteristic, contains) = (self.characteristic(), self.letters(long));
                let age_ms = self.age();
                steps.push(one::wait(characteristic, contains, 1, age_ms));
            }
            _ => steps.push(Step::Write { characteristic: self.characteristic(), value: vec![1], with_response: true }),
        }
        let at = self.rng.below(steps.len() as u64) as usize;
        let last = steps.len() - 1;
        steps.swap(at, last);
        steps.truncate(MOST_STEPS);
        let mut batch = Batch::new(self.tick(), steps);
        let r = &mut self.rng;
        match way {
            0 => batch.count = *r.pick(&[65, 66, 300, u32::MAX]),
            4 if at < MOST_STEPS => {
                let end = batch.values.len() as u32;
                batch.parts[at] = *r.pick(&[(end, 1), (end - 1, 2), (u32::MAX, 1), (u32::MAX, u32::MAX), (0, end + 1)]);
            }
            _ => {}
        }
        batch
    }
}
