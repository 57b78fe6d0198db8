//! Strict mode: options of the fresh state, timeouts with a request awaited and with none, and what comes upon a closed bearer.

use super::closings::ATT;
use super::{Scene, Sequence};
use crate::trace::{Call, four, kind};
use oracle::ble::central::Step;

impl Sequence<'_> {
    /// The first call: in most sequences the mode is strict, in some the old one; bits that are no option may be set.
    pub fn first(&mut self) -> Call {
        if !self.plan.strict {
            return Call::Fresh;
        }
        let strict = if self.rng.chance(85) { four::STRICT } else { 0 };
        let more = if self.rng.flip() { self.rng.next() & !four::STRICT } else { 0 };
        Call::FreshWith { options: strict | more }
    }

    /// Scripts of steps that could send ATT, and waits between them; discoveries that forget what is known mostly on a closed bearer.
    pub fn closing_script(&mut self) -> Vec<Step> {
        if four::is_closed(&self.central) {
            self.some(&[2, 3, 4, 5, 6, 6, 7, 8, 8, 8, 9, 10, 1])
        } else if self.central.characteristics.is_empty() {
            self.some(&[4, 4, 4, 4, 3, 2])
        } else {
            self.some(&[2, 2, 3, 4, 5, 5, 6, 6, 6, 7, 7, 8, 9])
        }
    }

    /// In the scene of closed bearers: links made under a running step, late answers, links lost and made again.
    pub fn about_a_closing(&mut self) -> Option<Call> {
        if self.profile.scene != Scene::Closed || self.central.link.is_none() {
            return None;
        }
        if four::is_closed(&self.central) {
            return match self.rng.below(40) {
                0 => Some(self.connected()),
                1 => Some(self.disconnected()),
                2..=7 if !self.late.is_empty() => Some(self.comes_late()),
                8..=11 => Some(self.noise()),
                _ => None,
            };
        }
        let step = self.central.running.as_ref().map(|r| kind(&r.step))?;
        if !ATT.contains(&usize::from(step)) {
            return None;
        }
        match self.rng.below(20) {
            // An answer past the deadline that no timer call has met.
            0 if !self.late.is_empty() => {
                let late = self.central.timer_us().map(|deadline| deadline + self.rng.below(2));
                self.now = late.filter(|at| *at <= self.now + 40_000_000).unwrap_or(self.now);
                Some(self.comes_late())
            }
            1 | 2 => Some(self.connected()),
            _ => None,
        }
    }
}
