//! What waits look for, of 1 to 244 bytes, and what is heard of it: whole and in up to twenty pieces, over empty values and those of
//! other handles, behind a part of itself, and almost.

use super::{Clock, Cut, Plan, Profile, Scene, Sequence};
use crate::trace::gate::MOST_VALUE;
use crate::trace::{Batch, Call, one};
use oracle::ble::central::{Step, Uuid};

/// One sequence in so many is about them; with aged waits there are fewer sequences.
const ONE_IN: u64 = 24;
const ONE_IN_OF_AGED: u64 = 8;

pub fn is_about_them(plan: Plan, number: u64) -> bool {
    let one_in = if plan.aged { ONE_IN_OF_AGED } else { ONE_IN };
    plan.groups.link && number % one_in == one_in - 1
}

const MOST_PIECES: usize = 20;
/// Values between the pieces. None of the pieces is gone when the last is heard.
const MOST_BETWEEN: usize = 10;

pub fn profile(cut: Cut) -> Profile {
    let (scene, clock) = (Scene::Needles, Clock::Steady);
    Profile { scene, clock, cut, noise: 2, wrong: 0, silent: 0, late: 0, drop: 0 }
}

impl Sequence<'_> {
    /// Each length in turn, or one about a border.
    fn needle_length(&mut self) -> usize {
        self.needle += 1;
        match self.rng.below(10) {
            0 => 1,
            1 => self.rng.size(2, 9),
            2 => self.rng.size(10, 40),
            3 => MOST_VALUE,
            _ => 1 + self.needle % MOST_VALUE,
        }
    }

    fn another(&mut self, than: u8) -> u8 {
        loop {
            let letter = self.letters(1)[0];
            if letter != than {
                return letter;
            }
        }
    }

    /// Some letters; or a few over and over and another at the end, so that it begins again inside itself.
    fn needle(&mut self, n: usize) -> Vec<u8> {
        if n < 3 || self.rng.flip() {
            return self.letters(n);
        }
        let period = self.rng.size(1, (n / 2).min(4));
        let mut needle: Vec<u8> = self.letters(period).into_iter().cycle().take(n).collect();
        needle[n - 1] = self.another(needle[n - 1]);
        needle
    }

    /// The needle behind some letters or behind its own beginning; or all of it but its last byte, or with another there.
    fn about(&mut self, needle: &[u8]) -> Vec<u8> {
        let n = self.rng.size(0, 4);
        let mut text = if self.rng.flip() { needle[..n.min(needle.len())].to_vec() } else { self.letters(n) };
        text.extend_from_slice(needle);
        let last = text.pop().expect("a needle");
        match self.rng.below(6) {
            0 => {}
            1 => {
                let other = self.another(last);
                text.push(other);
            }
            _ => text.push(last),
        }
        text
    }

    /// Cut into so many pieces at most, none longer than a value may be.
    fn pieces(&mut self, mut text: Vec<u8>, most: usize) -> Vec<Vec<u8>> {
        if most == 1 {
            text.drain(..text.len().saturating_sub(MOST_VALUE));
        }
        let mut cuts: Vec<usize> = (1..most).map(|_| self.rng.size(0, text.len())).collect();
        cuts.extend([0, text.len(), text.len().min(MOST_VALUE)]);
        cuts.sort_unstable();
        cuts.dedup();
        cuts.windows(2).map(|c| text[c[0]..c[1]].to_vec()).collect()
    }

    /// What is heard: the pieces, and between them empty values and those of another handle; sometimes a piece is of that one.
    fn heard_of(&mut self, handle: u16, needle: &[u8]) -> Vec<(u16, Vec<u8>)> {
        let other = handle.wrapping_add(1 + self.rng.below(3) as u16);
        let text = self.about(needle);
        let most = match self.rng.below(4) {
            0 => 1,
            1 => 2,
            2 => self.rng.size(3, 9),
            _ => self.rng.size(10, MOST_PIECES),
        };
        let pieces = self.pieces(text, most);
        let mut heard: Vec<(u16, Vec<u8>)> = pieces.into_iter().map(|p| (handle, p)).collect();
        if !heard.is_empty() && self.rng.chance(10) {
            let at = self.rng.size(0, heard.len() - 1);
            heard[at].0 = other;
        }
        let (empty, others) = (self.rng.chance(40), self.rng.chance(40));
        for _ in 0..self.rng.size(1, MOST_BETWEEN) {
            let at = self.rng.size(0, heard.len());
            if empty && self.rng.flip() {
                heard.insert(at, (handle, Vec::new()));
            } else if others {
                let n = self.rng.size(0, 3);
                heard.insert(at, (other, self.letters(n)));
            }
        }
        heard
    }

    /// At the same time mostly, so that the youngest of ages counts them.
    fn soon(&mut self) -> u64 {
        if self.rng.chance(90) { self.now } else { self.tick() }
    }

    /// Heard one by one, or cut into fragments and on their way.
    fn hear_of(&mut self, characteristic: Uuid, needle: &[u8]) {
        let handle = self.handle_of(characteristic);
        let on_their_way = self.rng.chance(30);
        for (handle, value) in self.heard_of(handle, needle) {
            if on_their_way {
                let frame = self.notification(handle, &value);
                self.post(frame);
            } else {
                let at = self.soon();
                self.tell_at(at, handle, &value);
            }
        }
    }

    /// A wait for a needle; some of what is heard of it comes before.
    fn look(&mut self) -> Call {
        let n = self.needle_length();
        let (characteristic, needle) = (self.bay(), self.needle(n));
        if self.rng.chance(25) {
            self.hear_of(characteristic, &needle);
        }
        let wait = one::wait(characteristic, needle, 3_600_000, self.age());
        Call::Batch(Batch::new(self.soon(), vec![wait]))
    }

    /// In the scene of needles: a link, a wait, and what is heard under it.
    pub fn about_a_needle(&mut self) -> Option<Call> {
        let c = &self.central;
        if self.profile.scene != Scene::Needles {
            return None;
        }
        if c.link.is_none() {
            return Some(self.connected());
        }
        match c.running.as_ref().map(|r| r.step.clone()) {
            None if c.characteristics.is_empty() => None,
            None => Some(self.look()),
            Some(Step::WaitNotification { characteristic, contains, .. })
                if !contains.is_empty() && self.rng.chance(90) =>
            {
                self.hear_of(characteristic, &contains);
                Some(self.send_or(Sequence::reader))
            }
            _ => None,
        }
    }
}
