//! Aged waits: their ages, times about those at which a notification becomes too old, and what is heard before a wait and under it.

use super::{Scene, Sequence};
use crate::trace::{Call, gate, one, value};
use oracle::ble::central::{Notification, Step, Uuid};

impl Sequence<'_> {
    /// The age of a wait: none unless aged ones are asked for, and then of most.
    pub fn age(&mut self) -> Option<u32> {
        if !self.plan.aged || self.rng.chance(20) {
            return None;
        }
        Some(match self.rng.below(8) {
            0 => 0,
            1 => 1,
            2 => u32::MAX,
            3 | 4 => self.rng.within(10, 90) as u32,
            5 => self.rng.within(100, 5_000) as u32,
            _ => *self.rng.pick(&[2, 20, 50, 100, 1_000]),
        })
    }

    /// What aged waits are about: one of two characteristics, so that what is heard for one wait is kept as the next begins.
    pub fn bay(&mut self) -> Uuid {
        let known = &self.central.characteristics;
        match known.len() {
            0 => self.characteristic(),
            _ if self.rng.chance(15) => self.characteristic(),
            1 => known[0].uuid,
            _ => known[self.rng.size(0, 1)].uuid,
        }
    }

    /// The age of the wait that runs, or of the one that a batch is about to begin.
    fn age_at_hand(&self) -> Option<u32> {
        self.coming.or_else(|| one::age(&self.central.running.as_ref()?.step))
    }

    /// A time at which a kept notification is about as old as the wait at hand allows, or is still to come.
    pub fn about_an_age(&mut self) -> Option<u64> {
        let age_us = u64::from(self.age_at_hand()?) * 1_000;
        let c = &self.central;
        let gone = c.notified - c.notifications.len() as u64;
        let from = c.wait_from.saturating_sub(gone) as usize;
        let kept: Vec<&Notification> = c.notifications.iter().skip(from).collect();
        if kept.is_empty() {
            return None;
        }
        let heard = self.rng.pick(&kept).at_us;
        let at = match self.rng.below(12) {
            0..=3 => heard + age_us,
            4..=7 => heard + age_us + 1,
            8 => (heard + age_us).saturating_sub(1),
            9 => heard,
            10 => heard.saturating_sub(1),
            _ => heard.saturating_sub(self.rng.below(1_000_000)),
        };
        (at <= gate::MOST_TIME).then_some(at)
    }

    pub fn handle_of(&self, characteristic: Uuid) -> u16 {
        self.central.characteristics.iter().find(|c| c.uuid == characteristic).map_or(1, |c| c.value_handle)
    }

    /// A notification of a bay, or of a handle beside it.
    fn hear(&mut self, beside: u64) -> Call {
        let bay = self.bay();
        let handle = self.handle_of(bay).wrapping_add(u16::from(self.rng.chance(beside)));
        let n = self.rng.size(0, 3);
        let value = self.letters(n);
        let frame = self.notification(handle, &value);
        self.post(frame);
        self.send_or(Sequence::reader)
    }

    /// What the wait looks for comes in two, the second when the first is about as old as it may be. Between them comes one that
    /// does not count then: it has a time after that, or was too old.
    fn word_in_two(&mut self, step: &Step, age_us: u64) -> Option<Call> {
        let Step::WaitNotification { characteristic, .. } = step else {
            return None;
        };
        let (handle, word) = (self.handle_of(*characteristic), value(step).to_vec());
        let first = self.tick();
        if first > gate::MOST_TIME - 2 * age_us - 2 {
            return None;
        }
        let apart = self.rng.size(0, word.len());
        let between = if self.rng.flip() { first + 2 * age_us + 2 } else { first.saturating_sub(age_us + 1) };
        let late = *self.rng.pick(&[0, age_us, age_us, age_us + 1, age_us + 1, age_us.saturating_sub(1)]);
        let other = self.letters(1);
        self.tell_at(first, handle, &word[..apart]);
        if self.rng.chance(70) {
            self.tell_at(between, handle, &other);
        }
        self.now = first + late;
        let data = self.notification(handle, &word[apart..]);
        Some(Call::Fragment { at: self.now, start: true, data })
    }

    pub fn tell_at(&mut self, at: u64, handle: u16, value: &[u8]) {
        let data = self.notification(handle, value);
        self.make(Call::Fragment { at, start: true, data });
    }

    /// In the scene of aged waits: what is heard before a wait and under it, and links made without a disconnect or with one.
    pub fn about_a_wait(&mut self) -> Option<Call> {
        let c = &self.central;
        if self.profile.scene != Scene::Aged || c.link.is_none() || c.characteristics.is_empty() {
            return None;
        }
        let Some(step) = c.running.as_ref().map(|r| r.step.clone()) else {
            return match self.rng.below(20) {
                0..=9 => Some(self.hear(20)),
                10 | 11 => Some(self.connected()),
                12 => Some(self.disconnected()),
                _ => None,
            };
        };
        let age_us = u64::from(one::age(&step)?) * 1_000;
        match self.rng.below(20) {
            0..=4 => Some(self.hear(50)),
            5..=8 => self.word_in_two(&step, age_us),
            9 | 10 => Some(self.connected()),
            11 => Some(self.disconnected()),
            _ => None,
        }
    }

    /// The count of links and what each kept thing has of them, or the notification that a late result names.
    pub fn aged_reader(&mut self) -> Call {
        if self.rng.chance(20) {
            return Call::Links;
        }
        let named: Vec<u32> = self.central.results.iter().filter(|r| one::heard(r) > 0).map(|r| r.index).collect();
        let next = u64::from(self.central.next_index);
        let index = match self.rng.below(6) {
            0 => self.rng.below(next + 3) as u32,
            1 => self.rng.next() as u32,
            2..=4 if !named.is_empty() => *self.rng.pick(&named),
            _ => next.saturating_sub(self.rng.below(6)) as u32,
        };
        Call::PassedOn { index }
    }
}
