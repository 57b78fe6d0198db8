//! Checks of waits, and how aged ones went: the status that each ended with, and what its checks came upon. A check is looked at
//! where a notification makes it and where a batch begins with the wait, by a reading of 02 that is made here once more.

use super::counts::{STATUSES, frame};
use crate::trace::{Batch, Call, one};
use oracle::ble::central::{Central, MAX_NOTIFICATIONS, Step};
use std::borrow::Cow;

pub const AGES: [&str; 4] = ["0 ms", "1 ms", "2 ms and more", "4294967295 ms"];

/// What decides a check: without it the wait would not have passed, or with it would have.
#[derive(Clone, Copy, PartialEq)]
enum Way {
    AtTheAge,
    Joined,
    OverOneLeftOut,
    AtItsStart,
    ByAnotherHandle,
    OnANewLink,
    EarlierLink,
    AMicrosecondTooOld,
    TooOld,
    AfterNow,
    PassedBefore,
}

pub const WAYS: [&str; 11] = [
    "passed by one exactly at the age",
    "passed by several joined",
    "passed by several joined over one that does not count",
    "passed as it began",
    "passed at a notification of another handle",
    "passed on a link made while it ran",
    "not passed, but for an earlier link",
    "not passed, but for one microsecond",
    "not passed, but for the age",
    "not passed, but for a time after now",
    "not passed, but for a pass before",
];

/// What the reader of the notification that a result names can come upon.
pub const READ: [&str; 4] =
    ["a result that is not kept", "a result that names none", "a notification that is gone", "a notification"];

fn age_class(age_ms: u32) -> usize {
    match age_ms {
        0 => 0,
        1 => 1,
        u32::MAX => 3,
        _ => 2,
    }
}

/// A notification that a check can see.
pub struct Heard<'a> {
    number: u64,
    at: u64,
    link: u64,
    /// Of the handle that is waited for.
    own: bool,
    pub value: Cow<'a, [u8]>,
}

/// A check of a wait, with all that is kept.
pub struct Check<'a> {
    pub contains: &'a [u8],
    /// None of a wait without an age.
    age_us: Option<u64>,
    now: u64,
    link: u64,
    wait_from: u64,
    heard: Vec<Heard<'a>>,
    /// How it came about, where that was no notification of its own handle.
    made: Option<Way>,
}

/// Handle and value of the notification that a fragment completes.
fn notified(c: &Central, start: bool, data: &[u8]) -> Option<(u16, Vec<u8>)> {
    let frame = frame(c, start, data)?;
    let is_one = frame.len() >= 7 && frame[2..4] == [4, 0] && matches!(frame[4], 0x1B | 0x1D);
    is_one.then(|| (u16::from_le_bytes([frame[5], frame[6]]), frame[7..].to_vec()))
}

impl<'a> Check<'a> {
    /// The check that this call makes first, if any.
    pub fn of(c: &'a Central, call: &'a Call) -> Option<Check<'a>> {
        let (step, now) = match call {
            Call::Batch(Batch { now, steps, .. }) if c.running.is_none() => (steps.first()?, *now),
            Call::Fragment { at, .. } => (&c.running.as_ref()?.step, *at),
            _ => return None,
        };
        let Step::WaitNotification { characteristic, contains, .. } = step else {
            return None;
        };
        c.link.as_ref()?;
        let handle = c.characteristics.iter().find(|k| k.uuid == *characteristic)?.value_handle;
        let new = match call {
            Call::Fragment { start, data, .. } => Some(notified(c, *start, data)?),
            _ => None,
        };
        let made = match &new {
            None => Some(Way::AtItsStart),
            Some((other, _)) => (*other != handle).then_some(Way::ByAnotherHandle),
        };
        Some(Check {
            contains,
            age_us: one::age(step).map(|ms| u64::from(ms) * 1_000),
            now,
            link: one::links(c),
            wait_from: c.wait_from,
            heard: kept(c, handle, now, new),
            made,
        })
    }

    /// All that keeps one of its handle out; nothing where it counts.
    fn why_not(&self, h: &Heard) -> Vec<Way> {
        let mut why = Vec::new();
        why.extend((h.number < self.wait_from).then_some(Way::PassedBefore));
        let Some(age_us) = self.age_us else {
            return why;
        };
        why.extend((h.link != self.link).then_some(Way::EarlierLink));
        why.extend(match self.now.checked_sub(h.at) {
            None => Some(Way::AfterNow),
            Some(old) if old == age_us + 1 => Some(Way::AMicrosecondTooOld),
            Some(old) if old > age_us => Some(Way::TooOld),
            _ => None,
        });
        why
    }

    pub fn counts(&self, h: &Heard) -> bool {
        h.own && self.why_not(h).is_empty()
    }

    /// All from `wait_from` on, of any handle, the oldest first.
    pub fn in_sight(&self) -> impl Iterator<Item = &Heard<'a>> {
        self.heard.iter().filter(|h| h.number >= self.wait_from)
    }

    /// Whether those of its handle that `counts` takes make it pass.
    fn passes(&self, counts: impl Fn(&Heard) -> bool) -> bool {
        let counted: Vec<&Heard> = self.heard.iter().filter(|h| h.own && counts(h)).collect();
        if self.contains.is_empty() {
            return !counted.is_empty();
        }
        let joined: Vec<u8> = counted.iter().flat_map(|h| h.value.iter().copied()).collect();
        joined.windows(self.contains.len()).any(|w| w == self.contains)
    }

    /// What decided it, of an aged wait; `new_link` says that there is another link than when the wait began.
    fn ways(&self, age_us: u64, new_link: bool) -> Vec<Way> {
        let counts = |h: &Heard| self.counts(h);
        if !self.passes(counts) {
            let all = [Way::EarlierLink, Way::AMicrosecondTooOld, Way::TooOld, Way::AfterNow, Way::PassedBefore];
            let but_for = |way: &Way| self.passes(|h| self.why_not(h).iter().all(|w| w == way));
            return all.into_iter().filter(but_for).collect();
        }
        let alone = |h: &Heard| counts(h) && h.value.windows(self.contains.len().max(1)).any(|w| w == self.contains);
        let joined = !self.contains.is_empty() && !self.heard.iter().any(alone);
        let all = |h: &Heard| h.number >= self.wait_from;
        let at_the_age = age_us > 0 && !self.passes(|h| counts(h) && self.now - h.at < age_us);
        let mut ways: Vec<Way> = self.made.into_iter().collect();
        ways.extend(at_the_age.then_some(Way::AtTheAge));
        ways.extend(joined.then_some(Way::Joined));
        ways.extend((joined && !self.passes(all)).then_some(Way::OverOneLeftOut));
        ways.extend((new_link && self.made != Some(Way::AtItsStart)).then_some(Way::OnANewLink));
        ways
    }
}

/// All that the check can see, the new one last.
fn kept(c: &Central, handle: u16, now: u64, new: Option<(u16, Vec<u8>)>) -> Vec<Heard<'_>> {
    let first = c.notified - c.notifications.len() as u64;
    let goes = usize::from(new.is_some() && c.notifications.len() == MAX_NOTIFICATIONS);
    let mut heard: Vec<Heard> = (first..)
        .zip(&c.notifications)
        .skip(goes)
        .map(|(number, n)| {
            let value = Cow::from(&n.value);
            Heard { number, at: n.at_us, link: one::link(n), own: n.handle == handle, value }
        })
        .collect();
    if let Some((of, value)) = new {
        let (number, link) = (c.notified, one::links(c));
        heard.push(Heard { number, at: now, link, own: of == handle, value: value.into() });
    }
    heard
}

#[derive(Default)]
pub struct Aged {
    /// By age and status.
    pub ended: [[u64; STATUSES.len()]; AGES.len()],
    pub ways: [u64; WAYS.len()],
    pub read: [u64; READ.len()],
    /// The index of the step that runs, plus one, and how many links there were as it began.
    began: (u32, u64),
}

impl Aged {
    pub fn before(&mut self, c: &Central, call: &Call) {
        if let Call::PassedOn { index } = call {
            let named = c.result(*index).map(one::heard);
            self.read[match (named, one::passed_on(c, *index)) {
                (None, _) => 0,
                (Some(0), _) => 1,
                (_, None) => 2,
                _ => 3,
            }] += 1;
        }
    }

    pub fn check(&mut self, c: &Central, check: &Check) {
        let Some(age_us) = check.age_us else {
            return;
        };
        for way in check.ways(age_us, self.began.1 != one::links(c)) {
            self.ways[way as usize] += 1;
        }
    }

    pub fn after(&mut self, c: &Central, call: &Call) {
        if call.is_fresh() {
            self.began = (0, 0);
        }
        if let Some(r) = c.running.as_ref().filter(|r| r.index + 1 != self.began.0) {
            self.began = (r.index + 1, one::links(c));
        }
    }

    pub fn end(&mut self, age_ms: u32, status: u8) {
        self.ended[age_class(age_ms)][usize::from(status)] += 1;
    }
}
