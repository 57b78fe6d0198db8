//! What the sequences showed: calls of each kind, steps ended with each status, limits reached.

use super::checks::{Aged, Check};
use super::closings::Closings;
use super::searches::Searches;
use crate::trace::{Call, NAMES, answer, gate, kind, one, tag, value};
use oracle::ble::central::{Central, Step, StepResult, Uuid};

pub const KINDS: [&str; 13] = [
    "Scan",
    "Connect",
    "ExchangeMtu",
    "DiscoverServices",
    "DiscoverCharacteristics",
    "Subscribe",
    "Write",
    "Read",
    "WaitNotification",
    "Wait",
    "Disconnect",
    "Capture",
    "CaptureSecrets",
];
/// By number; the Rust never ends a step for want of a table place.
pub const STATUSES: [&str; 9] =
    ["Ok", "Timeout", "NotConnected", "NotFound", "AttError", "TooLong", "Disconnected", "TableFull", "BearerClosed"];

/// The greatest seen of each.
#[derive(Default, Clone)]
pub struct Most {
    pub waiting: usize,
    pub frames: usize,
    pub reports: usize,
    pub keys: usize,
    pub services: usize,
    pub characteristics: usize,
    pub held: usize,
    pub mtu: u16,
    pub read: usize,
    pub written: usize,
    pub refused: u64,
    pub notified: u64,
    pub index: u32,
    pub time: u64,
}

/// What is remembered of a step taken in.
#[derive(Clone, Copy)]
pub struct Taken {
    pub kind: u8,
    pub age_ms: Option<u32>,
    /// The characteristic that it looks up.
    pub characteristic: Option<Uuid>,
    /// How long its value is.
    pub len: usize,
    /// A write with no response.
    pub command: bool,
}

impl Taken {
    pub fn of(step: &Step) -> Taken {
        let characteristic = match step {
            Step::Subscribe { characteristic, .. }
            | Step::Write { characteristic, .. }
            | Step::Read { characteristic }
            | Step::WaitNotification { characteristic, .. } => Some(*characteristic),
            _ => None,
        };
        let command = matches!(step, Step::Write { with_response: false, .. });
        Taken { kind: kind(step), age_ms: one::age(step), characteristic, len: value(step).len(), command }
    }
}

pub struct Counts {
    pub calls: [u64; NAMES.len()],
    /// By step kind and status.
    pub ended: [[u64; STATUSES.len()]; 13],
    /// Ended and dropped in the same call.
    pub unseen: u64,
    /// Calls refused, by the refusal's number; and not made, since they would be.
    pub refused: [u64; 9],
    pub withheld: u64,
    pub most: Most,
    /// First bytes of the whole frames that came in on each channel.
    pub opcodes: [bool; 256],
    pub signals: [bool; 256],
    pub error_codes: [bool; 256],
    pub pdus: [bool; 256],
    /// Times that the oldest went.
    pub dropped_reports: u64,
    pub dropped_notifications: u64,
    pub updates: u64,
    /// Waits that passed on notifications of an earlier link alone.
    pub old_waits: u64,
    pub aged: Aged,
    pub searches: Searches,
    pub closings: Closings,
    notified_before: u64,
}

impl Default for Counts {
    fn default() -> Counts {
        Counts {
            calls: [0; NAMES.len()],
            ended: [[0; STATUSES.len()]; 13],
            unseen: 0,
            refused: [0; 9],
            withheld: 0,
            most: Most::default(),
            opcodes: [false; 256],
            signals: [false; 256],
            error_codes: [false; 256],
            pdus: [false; 256],
            dropped_reports: 0,
            dropped_notifications: 0,
            updates: 0,
            old_waits: 0,
            aged: Aged::default(),
            searches: Searches::default(),
            closings: Closings::default(),
            notified_before: 0,
        }
    }
}

pub fn seen(of: &[bool; 256]) -> usize {
    of.iter().filter(|x| **x).count()
}

/// The frame that a fragment completes, if anything is in it.
pub fn frame(c: &Central, start: bool, data: &[u8]) -> Option<Vec<u8>> {
    gate::held(c, start, data.len())?;
    let mut rx = Vec::new();
    if let (false, Some(l)) = (start, &c.link) {
        rx.extend_from_slice(&l.rx);
    }
    rx.extend_from_slice(data);
    let len = usize::from(*rx.first()?) | usize::from(*rx.get(1)?) << 8;
    let is_whole = len > 0 && rx.len() >= 4 + len;
    rx.truncate(4 + len);
    is_whole.then_some(rx)
}

impl Counts {
    pub fn sequences(&self) -> u64 {
        self.calls[usize::from(tag::FRESH)] + self.calls[usize::from(tag::FRESH_WITH)]
    }

    /// Calls, dumps not counted.
    pub fn made(&self) -> u64 {
        let calls = usize::from(tag::BATCH)..=usize::from(tag::RESULT);
        self.calls[calls].iter().sum::<u64>() + self.calls[usize::from(tag::PASSED_ON)]
    }

    pub fn before(&mut self, c: &Central, call: &Call) {
        self.calls[usize::from(call.tag())] += 1;
        self.aged.before(c, call);
        if let Some(check) = Check::of(c, call) {
            self.aged.check(c, &check);
            self.searches.check(&check);
        }
        self.closings.before(c, call);
        match call {
            Call::Fragment { start, data, .. } => self.heard(c, *start, data),
            Call::Advertising { pdu, address, random, .. } => {
                self.pdus[usize::from(*pdu)] = true;
                let hears = c.running.as_ref().is_some_and(|r| kind(&r.step) <= 1);
                let known = c.reports.iter().any(|r| r.address == *address && r.random == *random);
                if hears && c.reports.len() == 64 && !known {
                    self.dropped_reports += 1;
                }
            }
            _ => {}
        }
    }

    /// The frame that a fragment completes.
    fn heard(&mut self, c: &Central, start: bool, data: &[u8]) {
        let Some(n) = gate::held(c, start, data.len()) else {
            return;
        };
        self.most.held = self.most.held.max(n);
        let Some(frame) = frame(c, start, data) else {
            return;
        };
        let code = usize::from(frame[4]);
        match (frame[2], frame[3]) {
            (4, 0) => {
                self.opcodes[code] = true;
                if matches!(code, 0x1B | 0x1D) && frame.len() >= 7 && c.notifications.len() == 32 {
                    self.dropped_notifications += 1;
                }
            }
            (5, 0) => self.signals[code] = true,
            _ => {}
        }
    }

    /// A step has ended.
    fn end(&mut self, r: &StepResult, step: Taken, c: &Central) {
        let (kind, (status, code)) = (step.kind, answer::status(r.status));
        self.ended[usize::from(kind)][usize::from(status)] += 1;
        self.closings.end(c, status, step);
        if let Some(age_ms) = step.age_ms {
            self.aged.end(age_ms, status);
        }
        if status == 4 {
            self.error_codes[usize::from(code)] = true;
        }
        if kind == 8 && status == 0 && c.notified == self.notified_before {
            self.old_waits += 1;
        }
        if kind == 7 {
            self.most.read = self.most.read.max(r.value.len());
        }
    }

    /// `taken` has each step, by index; those from `ended` on may have ended in this call.
    pub fn after(&mut self, c: &Central, call: &Call, sent: &answer::Sent, taken: &[Taken], ended: u32) {
        self.aged.after(c, call);
        match call {
            _ if call.is_fresh() => self.notified_before = 0,
            Call::Connected { .. } => self.notified_before = c.notified,
            _ => {}
        }
        let now = c.next_index - u32::from(c.running.is_some());
        let mut seen = 0;
        for r in c.results.iter().rev().take_while(|r| r.index >= ended) {
            self.end(r, taken[r.index as usize], c);
            seen += 1;
        }
        self.closings.after(c, call, sent, now > ended);
        if !call.is_fresh() {
            self.unseen += u64::from(now - ended) - seen;
        }
        let m = &mut self.most;
        m.waiting = m.waiting.max(c.queue.len());
        m.frames = m.frames.max(sent.frames.len());
        m.written = m.written.max(sent.frames.iter().map(Vec::len).sum());
        m.reports = m.reports.max(c.reports.len());
        m.keys = m.keys.max(c.running.as_ref().map_or(0, |r| r.scan_requested.len()));
        m.services = m.services.max(c.services.len());
        m.characteristics = m.characteristics.max(c.characteristics.len());
        m.mtu = m.mtu.max(c.link.as_ref().map_or(0, |l| l.mtu));
        m.refused = m.refused.max(c.refused_steps);
        m.notified = m.notified.max(c.notified);
        m.index = m.index.max(c.next_index);
        m.time = m.time.max(c.results.last().map_or(0, |r| r.at_us));
        if sent.requests.iter().any(|r| matches!(r, oracle::ble::central::LlRequest::Update { .. })) {
            self.updates += 1;
        }
    }
}
