//! How strict mode went: which timeouts closed a bearer and which did not, and what came upon a closed one. Nothing is decided here:
//! the answers are the oracle's.

use super::counts::{Taken, frame};
use crate::trace::answer::Sent;
use crate::trace::{Call, four, kind};
use oracle::ble::central::{Central, att, cid};

/// The kinds of step that could send ATT.
pub const ATT: std::ops::RangeInclusive<usize> = 2..=7;

/// What came upon a closed bearer, and what opened it; the last two beside one.
#[derive(Clone, Copy)]
enum Way {
    Behind,
    InALaterCall,
    NotFound,
    TooLong,
    Command,
    Discovery,
    LateAnswer,
    LateAnswerInAWait,
    PeerAnswered,
    Confirmed,
    Signaled,
    Paired,
    WaitPassed,
    WaitTimedOut,
    Disconnected,
    NotConnected,
    OpenedAtOnce,
    OpenedAfterADisconnect,
    PastItsDeadline,
    OldMode,
}

pub const WAYS: [&str; 20] = [
    "BearerClosed, in the call that closed it",
    "BearerClosed, in a later call",
    "BearerClosed, its characteristic not known",
    "BearerClosed, its value too long to be sent",
    "BearerClosed, a write with no response",
    "BearerClosed, a discovery that would have cleared tables",
    "the late answer, for nothing",
    "the late answer, while a wait ran",
    "a request of the peer, answered",
    "an indication, confirmed",
    "signaling, answered",
    "pairing, answered",
    "a wait that passed",
    "a wait that timed out",
    "the link lost",
    "NotConnected, the link lost",
    "opened by a link made with no disconnect",
    "opened by a link made after a disconnect",
    "an answer past its deadline, with no timer call before",
    "in the old mode: a request behind such a timeout",
];

/// Before a call.
#[derive(Clone, Copy, Default)]
struct Before {
    closed: bool,
    /// The kind of step that runs, and the request that it awaits.
    runs: Option<usize>,
    awaited: Option<u8>,
    linked: bool,
}

#[derive(Default)]
pub struct Closings {
    /// By kind of step: timed out with its request awaited, and with nothing awaited.
    pub closed: [u64; 13],
    pub left_open: [u64; 13],
    pub ways: [u64; WAYS.len()],
    before: Before,
    /// The request of the present link that was not answered in time.
    unanswered: Option<u8>,
}

/// The payload of the frame that a fragment completes on the ATT channel.
fn att_payload(c: &Central, start: bool, data: &[u8]) -> Option<Vec<u8>> {
    let frame = frame(c, start, data)?;
    (frame[2..4] == cid::ATT.to_le_bytes()).then(|| frame[4..].to_vec())
}

/// Whether the payload would count as an answer to the request.
fn answers(payload: &[u8], request: Option<u8>) -> bool {
    let Some(request) = request else {
        return false;
    };
    match payload[0] {
        att::ERROR_RSP => payload.get(1) == Some(&request),
        op => op == request + 1,
    }
}

impl Closings {
    fn came(&mut self, way: Way, times: usize) {
        self.ways[way as usize] += times as u64;
    }

    pub fn before(&mut self, c: &Central, call: &Call) {
        self.before = Before {
            closed: four::is_closed(c),
            runs: c.running.as_ref().map(|r| usize::from(kind(&r.step))),
            awaited: c.link.as_ref().and_then(|l| l.pending),
            linked: c.link.is_some(),
        };
        if let Call::Fragment { at, start, data } = call
            && four::is_strict(c)
            && let Some(payload) = att_payload(c, *start, data)
        {
            let late = self.before.closed && answers(&payload, self.unanswered);
            self.came(Way::LateAnswer, usize::from(late));
            self.came(Way::LateAnswerInAWait, usize::from(late && matches!(self.before.runs, Some(8 | 9))));
            let past = c.timer_us().is_some_and(|deadline| *at >= deadline);
            let counts = past && answers(&payload, self.before.awaited);
            self.came(Way::PastItsDeadline, usize::from(counts));
        }
    }

    /// A step has ended in the call just made.
    pub fn end(&mut self, c: &Central, status: u8, step: Taken) {
        let closed = four::is_closed(c);
        match (step.kind, status) {
            (8, 0) if closed => self.came(Way::WaitPassed, 1),
            (8, 1) if closed => self.came(Way::WaitTimedOut, 1),
            (_, 2) if closed => self.came(Way::NotConnected, 1),
            (_, 8) => self.barred(c, step),
            _ => {}
        }
    }

    fn barred(&mut self, c: &Central, step: Taken) {
        let known = |u| c.characteristics.iter().any(|k| k.uuid == u);
        let unknown = step.characteristic.is_some_and(|u| !known(u));
        let mtu = c.link.as_ref().map_or(0, |l| usize::from(l.mtu));
        self.came(if self.before.closed { Way::InALaterCall } else { Way::Behind }, 1);
        self.came(Way::NotFound, usize::from(unknown));
        self.came(Way::TooLong, usize::from(step.kind == 6 && !unknown && step.len + 3 > mtu));
        self.came(Way::Command, usize::from(step.command));
        self.came(Way::Discovery, usize::from(step.kind == 3 && !c.services.is_empty()));
    }

    pub fn after(&mut self, c: &Central, call: &Call, sent: &Sent, timed_out: bool) {
        let Before { closed, runs, awaited, linked } = self.before;
        match call {
            Call::Fresh | Call::FreshWith { .. } => self.unanswered = None,
            Call::Timer { .. } if timed_out => self.timed_out(c, runs, awaited),
            Call::Connected { .. } => {
                self.unanswered = None;
                let way = if linked { Way::OpenedAtOnce } else { Way::OpenedAfterADisconnect };
                self.came(way, usize::from(closed));
            }
            Call::Disconnected { .. } => self.came(Way::Disconnected, usize::from(closed && linked)),
            Call::Fragment { .. } if closed => self.replies(sent),
            _ => {}
        }
        let asked =
            !four::is_strict(c) && self.unanswered.is_some() && c.link.as_ref().is_some_and(|l| l.pending.is_some());
        self.came(Way::OldMode, usize::from(asked && !sent.frames.is_empty()));
    }

    /// The step that ran, of this kind, has ended by its deadline.
    fn timed_out(&mut self, c: &Central, runs: Option<usize>, awaited: Option<u8>) {
        let Some(kind) = runs.filter(|k| ATT.contains(k)) else {
            return;
        };
        self.unanswered = awaited.or(self.unanswered);
        match awaited {
            _ if !four::is_strict(c) => {}
            Some(_) => self.closed[kind] += 1,
            None => self.left_open[kind] += 1,
        }
    }

    fn replies(&mut self, sent: &Sent) {
        for frame in &sent.frames {
            let channel = u16::from_le_bytes([frame[2], frame[3]]);
            let way = match (channel, frame[4]) {
                (cid::ATT, att::HANDLE_VALUE_CFM) => Way::Confirmed,
                (cid::ATT, _) => Way::PeerAnswered,
                (cid::SIGNALING, _) => Way::Signaled,
                _ => Way::Paired,
            };
            self.came(way, 1);
        }
    }
}
