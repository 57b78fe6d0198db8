//! The port through its C interface, answering calls as the oracle does.

use crate::asked::Asked;
use crate::exports::{Memory, STEP, Told};
use crate::state;
use crate::trace::answer::{self, Answer, Passed};
use crate::trace::{Batch, Call, kind, one};
use oracle::ble::central::{AdvAction, LlRequest, Step, Target, Uuid};

/// The one word of the core that a refusal changes, and the refusal: bytes held of a frame that is too long.
const HELD: usize = 17;
const LONG_FRAME: u8 = 7;

// ---- a call in words

/// An address as a number: 48 bits, and one more if it is random.
pub fn number_of(address: &[u8; 6], random: bool) -> u64 {
    address.iter().rev().fold(u64::from(random), |n, b| n << 8 | u64::from(*b))
}

pub fn halves(uuid: &Uuid) -> (u64, u64) {
    let n = u128::from_le_bytes(uuid.0);
    (n as u64, (n >> 64) as u64)
}

/// The words of a step; what its kind does not have is 0.
fn step_words(step: &Step, (place, len): (u32, u32)) -> [u64; STEP] {
    let mut w = [0; STEP];
    w[0] = u64::from(kind(step));
    (w[10], w[11]) = (u64::from(place), u64::from(len));
    match step {
        Step::Scan { ms } | Step::Wait { ms } => w[2] = u64::from(*ms),
        Step::Connect { target, interval, latency, timeout, within_ms } => {
            w[2] = u64::from(*within_ms);
            (w[7], w[8], w[9]) = (u64::from(*latency), u64::from(*timeout), u64::from(*interval));
            match target {
                Target::Any => {}
                Target::Address { address, random } => (w[4], w[6]) = (number_of(address, *random), 1),
                Target::Service(u) => ((w[4], w[5]), w[6]) = (halves(u), 2),
            }
        }
        Step::ExchangeMtu { mtu } => w[3] = u64::from(*mtu),
        Step::DiscoverServices | Step::Disconnect => {}
        Step::DiscoverCharacteristics { service: u } | Step::Read { characteristic: u } => (w[4], w[5]) = halves(u),
        Step::Subscribe { characteristic: u, indicate: flag }
        | Step::Write { characteristic: u, with_response: flag, .. } => {
            ((w[4], w[5]), w[1]) = (halves(u), u64::from(*flag));
        }
        Step::WaitNotification { characteristic: u, within_ms, .. } => {
            ((w[4], w[5]), w[2]) = (halves(u), u64::from(*within_ms));
            if let Some(age_ms) = one::age(step) {
                (w[1], w[7], w[8]) = (1, u64::from(age_ms & 0xFFFF), u64::from(age_ms >> 16));
            }
        }
        Step::Capture { enabled: flag } | Step::CaptureSecrets { secrets: flag } => w[1] = u64::from(*flag),
    }
    w
}

// ---- an answer from words

fn other(told: &Told) -> Answer {
    Answer::Other(format!("told {told:?}"))
}

/// The first word is the refusal; with one, the others are 0.
fn refused(told: &Told) -> Option<Answer> {
    match told {
        [0, ..] => None,
        [why @ 1..=255, 0, 0, 0, 0, 0, 0, 0] => Some(Answer::Refused(*why as u8)),
        _ => Some(other(told)),
    }
}

fn half(n: u64) -> Option<u16> {
    u16::try_from(n).ok()
}

fn update(interval: u64, latency: u64, timeout: u64) -> Option<LlRequest> {
    Some(LlRequest::Update { interval: half(interval)?, latency: half(latency)?, timeout: half(timeout)? })
}

fn sent(told: &Told, out: &[u8]) -> Answer {
    let (frames, bytes) = (told[1] as usize, out.get(..told[2] as usize));
    let request = match told[3..] {
        [0, 0, 0, 0, 0] => Ok(None),
        [1, interval, latency, timeout, 0] => update(interval, latency, timeout).ok_or(()).map(Some),
        [2, 0, 0, 0, reason @ 0..=255] => Ok(Some(LlRequest::Terminate { reason: reason as u8 })),
        _ => Err(()),
    };
    match (bytes, request) {
        (Some(bytes), Ok(request)) => Answer::Sent { frames, bytes: bytes.to_vec(), request },
        _ => other(told),
    }
}

fn done(told: &Told) -> Answer {
    if *told == [0; 8] { Answer::Done } else { other(told) }
}

fn action(told: &Told) -> Answer {
    let connect = || {
        let (interval, latency, timeout) = (half(told[2])?, half(told[3])?, half(told[4])?);
        Some(Answer::Action(AdvAction::Connect { interval, latency, timeout }))
    };
    match told[1..] {
        [0, 0, 0, 0, 0, 0, 0] => Answer::Action(AdvAction::None),
        [1, 0, 0, 0, 0, 0, 0] => Answer::Action(AdvAction::ScanRequest),
        [2, _, _, _, 0, 0, 0] => connect().unwrap_or_else(|| other(told)),
        _ => other(told),
    }
}

fn time(told: &Told) -> Answer {
    match told[1..] {
        [0, 0, 0, 0, 0, 0, 0] => Answer::Time(None),
        [1, at, 0, 0, 0, 0, 0] => Answer::Time(Some(at)),
        _ => other(told),
    }
}

fn handle(told: &Told) -> Answer {
    match told[1..] {
        [0, 0, 0, 0, 0, 0, 0] => Answer::Handle(None),
        [1, h @ 0..=0xFFFF, 0, 0, 0, 0, 0] => Answer::Handle(Some(h as u16)),
        _ => other(told),
    }
}

fn result(told: &Told, index: u32, store: &[u8]) -> Answer {
    let kept = || {
        let (place, len) = (told[5] as usize, told[6] as usize);
        let value = store.get(place..place.checked_add(len)?)?.to_vec();
        let status = state::status(u8::try_from(told[3]).ok()?, u8::try_from(told[4]).ok()?)?;
        Some(Answer::Result(Some(one::result(index, told[2], status, value))))
    };
    match told[1..] {
        [0, 0, 0, 0, 0, 0, 0] => Answer::Result(None),
        [1, _, _, _, _, _, 0] => kept().unwrap_or_else(|| other(told)),
        _ => other(told),
    }
}

fn passed(told: &Told, store: &[u8]) -> Answer {
    let kept = || {
        let (place, len) = (told[6] as usize, told[7] as usize);
        let value = store.get(place..place.checked_add(len)?)?.to_vec();
        let indication = told[5] == 1;
        Some(Answer::PassedOn(Some(Passed {
            at_us: told[2],
            link: told[3],
            handle: half(told[4])?,
            indication,
            value,
        })))
    };
    match told[1..] {
        [0, 0, 0, 0, 0, 0, 0] => Answer::PassedOn(None),
        [1, _, _, _, 0 | 1, _, _] => kept().unwrap_or_else(|| other(told)),
        _ => other(told),
    }
}

// ---- the port

pub struct Port {
    pub memory: Memory,
    /// The memory before a call that is to be refused.
    before: Memory,
    steps: Vec<u64>,
}

impl Port {
    pub fn new() -> Port {
        Port { memory: Memory::new(), before: Memory::new(), steps: Vec::new() }
    }

    fn push(&mut self, b: &Batch) -> Told {
        self.steps.clear();
        for (step, part) in b.steps.iter().zip(&b.parts) {
            self.steps.extend_from_slice(&step_words(step, *part));
        }
        self.memory.push_steps(b.now, &self.steps, b.count as usize, &b.values)
    }

    /// Makes the call.
    pub fn answer(&mut self, call: &Call) -> Answer {
        let m = &mut self.memory;
        let told = match call {
            Call::Fresh => {
                m.clear();
                return Answer::Fresh;
            }
            Call::FreshWith { options } => {
                m.fresh_with(*options);
                return Answer::Fresh;
            }
            Call::Dump | Call::Links | Call::Mode => return Answer::State,
            Call::Batch(b) => self.push(b),
            Call::Timer { now } => m.on_timer(*now),
            Call::Connected { at, handle } => m.on_connected(*handle, *at),
            Call::Disconnected { at } => m.on_disconnected(*at),
            Call::Advertising { at, channel, pdu, address, random, to_central, data } => {
                m.on_advertising(*at, (*channel, *pdu, number_of(address, *random)), data, *to_central)
            }
            Call::ScanResponse { at, address, random, data } => {
                m.on_scan_response(*at, number_of(address, *random), data)
            }
            Call::Fragment { at, start, data } => m.on_fragment(*at, *start, data),
            Call::TimerUs => m.timer_us(),
            Call::ConnectedHandle => m.connected_handle(),
            Call::Result { index } => m.result(*index),
            Call::PassedOn { index } => m.passed_on(*index),
        };
        refused(&told).unwrap_or_else(|| self.accepted(call, &told))
    }

    fn accepted(&self, call: &Call, told: &Told) -> Answer {
        match call {
            Call::Batch(_) | Call::Timer { .. } | Call::Connected { .. } | Call::Fragment { .. } => {
                sent(told, &self.memory.out)
            }
            Call::Advertising { .. } => action(told),
            Call::TimerUs => time(told),
            Call::ConnectedHandle => handle(told),
            Call::Result { index } => result(told, *index, &self.memory.store),
            Call::PassedOn { .. } => passed(told, &self.memory.store),
            _ => done(told),
        }
    }

    /// Makes a call that is to be refused: it must leave everything as it was, but for what is held of a frame that is too long.
    pub fn refusal(&mut self, call: &Call) -> Answer {
        *self.before.core = *self.memory.core;
        *self.before.tables = *self.memory.tables;
        self.before.store.copy_from_slice(&self.memory.store);
        self.before.out.copy_from_slice(&self.memory.out);
        let answer = self.answer(call);
        if answer == Answer::Refused(LONG_FRAME) {
            self.before.core[HELD] = 0;
        }
        let (a, b) = (&self.before, &self.memory);
        if a.core != b.core || a.tables != b.tables || a.store != b.store || a.out != b.out {
            return Answer::Other(format!("{answer:?}, and what was lent has changed"));
        }
        answer
    }

    /// The line of docs/TRACE.md for an answer; for a dump, `links` and `mode` the state that the words say.
    pub fn line(&self, call: &Call, answer: &Answer) -> Vec<u8> {
        match state::central(&self.memory) {
            Ok(left) => answer::line(call, answer, &left),
            Err(why) => format!("the state can't be read: {why}").into_bytes(),
        }
    }
}

impl Asked for Port {
    fn ask(&mut self, call: &Call) -> Option<Vec<u8>> {
        let answer = self.answer(call);
        Some(self.line(call, &answer))
    }
}
