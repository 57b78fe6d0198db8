//! Plays a call on the oracle and says what it answered, also in the line of docs/TRACE.md.

use super::{Batch, Call, NAMES, four, gate, kind, one, value};
use oracle::ble::central::{AdvAction, Central, LlRequest, Running, Step, StepResult, StepStatus, Target, Uuid};

/// What a call sent.
#[derive(Default)]
pub struct Sent {
    pub frames: Vec<Vec<u8>>,
    pub requests: Vec<LlRequest>,
    pub action: Option<AdvAction>,
}

/// The notification that a result names.
#[derive(Clone, Debug, PartialEq)]
pub struct Passed {
    pub at_us: u64,
    pub link: u64,
    pub handle: u16,
    pub indication: bool,
    pub value: Vec<u8>,
}

/// What a call answered.
#[derive(Clone, Debug, PartialEq)]
pub enum Answer {
    Fresh,
    Refused(u8),
    /// How many frames, their bytes one after another, what is asked of the link.
    Sent {
        frames: usize,
        bytes: Vec<u8>,
        request: Option<LlRequest>,
    },
    Done,
    Action(AdvAction),
    Time(Option<u64>),
    Handle(Option<u16>),
    Result(Option<StepResult>),
    PassedOn(Option<Passed>),
    /// A dump, `links` or `mode`: the answer is the state.
    State,
    /// What the oracle never answers.
    Other(String),
}

/// A line under way: words and numbers with one space before each.
#[derive(Default)]
pub struct Line(Vec<u8>);

impl Line {
    fn word(&mut self, w: &str) -> &mut Line {
        if !self.0.is_empty() {
            self.0.push(b' ');
        }
        self.0.extend_from_slice(w.as_bytes());
        self
    }

    fn number(&mut self, n: u64) -> &mut Line {
        let mut digits = [0u8; 20];
        let (mut at, mut n) = (20, n);
        loop {
            at -= 1;
            digits[at] = b'0' + (n % 10) as u8;
            n /= 10;
            if n == 0 {
                break;
            }
        }
        self.word(std::str::from_utf8(&digits[at..]).expect("digits"))
    }

    fn flag(&mut self, f: bool) -> &mut Line {
        self.number(u64::from(f))
    }

    fn hex_of<'a>(&mut self, bytes: impl Iterator<Item = &'a u8>) -> &mut Line {
        const DIGITS: &[u8; 16] = b"0123456789abcdef";
        self.0.push(b' ');
        let at = self.0.len();
        for b in bytes {
            self.0.push(DIGITS[usize::from(b >> 4)]);
            self.0.push(DIGITS[usize::from(b & 15)]);
        }
        if self.0.len() == at {
            self.0.push(b'-');
        }
        self
    }

    /// Bytes in their order, after their number.
    fn bytes(&mut self, bytes: &[u8]) -> &mut Line {
        self.number(bytes.len() as u64).hex_of(bytes.iter())
    }

    /// An address or a UUID: the number that the bytes are, least significant first.
    fn large(&mut self, bytes: &[u8]) -> &mut Line {
        self.hex_of(bytes.iter().rev())
    }

    fn uuid(&mut self, u: &Uuid) -> &mut Line {
        self.large(&u.0)
    }

    fn option(&mut self, n: Option<u64>) -> &mut Line {
        match n {
            None => self.word("none"),
            Some(n) => self.number(n),
        }
    }

    fn request(&mut self, request: Option<LlRequest>) -> &mut Line {
        match request {
            None => self.word("none"),
            Some(LlRequest::Update { interval, latency, timeout }) => {
                self.word("update").number(u64::from(interval)).number(u64::from(latency)).number(u64::from(timeout))
            }
            Some(LlRequest::Terminate { reason }) => self.word("terminate").number(u64::from(reason)),
        }
    }

    fn action(&mut self, action: AdvAction) -> &mut Line {
        match action {
            AdvAction::None => self.word("none"),
            AdvAction::ScanRequest => self.word("scan"),
            AdvAction::Connect { interval, latency, timeout } => {
                self.word("connect").number(u64::from(interval)).number(u64::from(latency)).number(u64::from(timeout))
            }
        }
    }

    fn result(&mut self, r: &StepResult) -> &mut Line {
        let (status, code) = status(r.status);
        self.number(u64::from(r.index))
            .number(r.at_us)
            .number(u64::from(status))
            .number(u64::from(code))
            .bytes(&r.value)
    }

    fn step(&mut self, step: &Step) -> &mut Line {
        self.number(u64::from(kind(step)));
        match step {
            Step::Scan { ms } | Step::Wait { ms } => self.number(u64::from(*ms)),
            Step::Connect { target, interval, latency, timeout, within_ms } => {
                self.number(u64::from(*interval)).number(u64::from(*latency)).number(u64::from(*timeout));
                self.number(u64::from(*within_ms));
                match target {
                    Target::Any => self.word("any"),
                    Target::Address { address, random } => self.word("address").flag(*random).large(address),
                    Target::Service(u) => self.word("service").uuid(u),
                }
            }
            Step::ExchangeMtu { mtu } => self.number(u64::from(*mtu)),
            Step::DiscoverServices | Step::Disconnect => self,
            Step::DiscoverCharacteristics { service } => self.uuid(service),
            Step::Subscribe { characteristic, indicate } => self.uuid(characteristic).flag(*indicate),
            Step::Write { characteristic, with_response, .. } => {
                self.uuid(characteristic).flag(*with_response).bytes(value(step))
            }
            Step::Read { characteristic } => self.uuid(characteristic),
            Step::WaitNotification { characteristic, within_ms, .. } => {
                self.uuid(characteristic).number(u64::from(*within_ms)).bytes(value(step));
                match one::age(step) {
                    None => self,
                    Some(age_ms) => self.word("aged").number(u64::from(age_ms)),
                }
            }
            Step::Capture { enabled } => self.flag(*enabled),
            Step::CaptureSecrets { secrets } => self.flag(*secrets),
        }
    }

    fn running(&mut self, r: &Running) -> &mut Line {
        self.number(u64::from(r.index)).step(&r.step).option(r.deadline_us);
        self.number(u64::from(r.phase)).number(u64::from(r.cursor)).number(r.scan_requested.len() as u64);
        for key in &r.scan_requested {
            self.number(u64::from(key[0])).large(&key[1..]);
        }
        self
    }

    fn dump(&mut self, c: &Central) -> &mut Line {
        self.word("next").number(u64::from(c.next_index));
        self.word("refused_steps").number(c.refused_steps);
        self.word("notified").number(c.notified).word("wait_from").number(c.wait_from);
        self.word("link");
        match &c.link {
            None => self.word("none"),
            Some(l) => self
                .number(u64::from(l.handle))
                .number(u64::from(l.mtu))
                .option(l.pending.map(u64::from))
                .flag(l.terminating)
                .bytes(&l.rx),
        };
        self.word("running");
        match &c.running {
            None => self.word("none"),
            Some(r) => self.running(r),
        };
        self.word("waiting").number(c.queue.len() as u64);
        for step in &c.queue {
            self.step(step);
        }
        self.word("results").number(c.results.len() as u64);
        for r in &c.results {
            self.result(r);
        }
        self.word("reports").number(c.reports.len() as u64);
        for r in &c.reports {
            self.number(r.at_us).number(u64::from(r.channel)).number(u64::from(r.pdu_type));
            self.flag(r.random).large(&r.address).bytes(&r.data);
            match &r.scan_response {
                None => self.word("none"),
                Some(d) => self.bytes(d),
            };
        }
        self.word("services").number(c.services.len() as u64);
        for s in &c.services {
            self.number(u64::from(s.start)).number(u64::from(s.end)).uuid(&s.uuid);
        }
        self.word("characteristics").number(c.characteristics.len() as u64);
        for d in &c.characteristics {
            self.number(u64::from(d.declaration)).number(u64::from(d.properties)).number(u64::from(d.value_handle));
            self.uuid(&d.uuid).option(d.cccd.map(u64::from));
        }
        self.word("notifications").number(c.notifications.len() as u64);
        for n in &c.notifications {
            self.number(n.at_us).number(u64::from(n.handle)).flag(n.indication).bytes(&n.value);
        }
        self
    }

    /// The count of links, the link of each notification, what each result names.
    fn links(&mut self, c: &Central) -> &mut Line {
        self.number(one::links(c)).number(c.notifications.len() as u64);
        for n in &c.notifications {
            self.number(one::link(n));
        }
        self.number(c.results.len() as u64);
        for r in &c.results {
            self.number(one::heard(r));
        }
        self
    }

    /// Whether the mode is strict, and whether the bearer is closed.
    fn mode(&mut self, c: &Central) -> &mut Line {
        self.flag(four::is_strict(c)).flag(four::is_closed(c))
    }

    fn passed(&mut self, p: &Passed) -> &mut Line {
        self.number(p.at_us).number(p.link).number(u64::from(p.handle)).flag(p.indication).bytes(&p.value)
    }
}

/// A status' number, and the code that an ATT error carries.
pub fn status(s: StepStatus) -> (u8, u8) {
    match s {
        StepStatus::Ok => (0, 0),
        StepStatus::Timeout => (1, 0),
        StepStatus::NotConnected => (2, 0),
        StepStatus::NotFound => (3, 0),
        StepStatus::AttError(code) => (4, code),
        StepStatus::TooLong => (5, 0),
        StepStatus::Disconnected => (6, 0),
        #[cfg(extended)]
        StepStatus::BearerClosed => (8, 0),
    }
}

/// A step as a dump has it.
pub fn step(s: &Step) -> Vec<u8> {
    let mut line = Line::default();
    line.step(s);
    line.0
}

/// Plays the call, or refuses it as 01 would.
pub fn judge(c: &mut Central, call: &Call) -> (Answer, Sent) {
    let refusal = gate::refusal(c, call);
    if refusal == 0 || refusal == gate::TABLE_FULL {
        return play(c, call);
    }
    if let (7, Some(link)) = (refusal, c.link.as_mut()) {
        link.rx.clear();
    }
    (Answer::Refused(refusal), Sent::default())
}

/// Plays the call and hands back its answer and what it sent.
pub fn play(c: &mut Central, call: &Call) -> (Answer, Sent) {
    let mut sent = Sent::default();
    match call {
        Call::Fresh => *c = Central::default(),
        Call::FreshWith { options } => *c = four::fresh(*options),
        Call::Batch(Batch { now, steps, .. }) => c.push_steps(steps.clone(), *now),
        Call::Timer { now } => c.on_timer(*now),
        Call::Connected { at, handle } => c.on_connected(*handle, *at),
        Call::Disconnected { at } => c.on_disconnected(*at),
        Call::Advertising { at, channel, pdu, address, random, to_central, data } => {
            sent.action = Some(c.on_advertising(*at, *channel, *pdu, *address, *random, data, *to_central));
        }
        Call::ScanResponse { at, address, random, data } => c.on_scan_response(*at, *address, *random, data),
        Call::Fragment { at, start, data } => c.on_fragment(*start, data, *at),
        Call::TimerUs
        | Call::ConnectedHandle
        | Call::Result { .. }
        | Call::PassedOn { .. }
        | Call::Dump
        | Call::Links
        | Call::Mode => {}
    }
    sent.frames = c.take_frames();
    sent.requests = c.take_ll_requests();
    let answer = match call {
        Call::Batch(_) | Call::Timer { .. } | Call::Connected { .. } | Call::Fragment { .. } => {
            assert!(sent.requests.len() <= 1, "more than one link request in a call");
            Answer::Sent {
                frames: sent.frames.len(),
                bytes: sent.frames.concat(),
                request: sent.requests.first().copied(),
            }
        }
        _ => {
            assert!(sent.frames.is_empty() && sent.requests.is_empty());
            quiet(c, call, &sent)
        }
    };
    (answer, sent)
}

fn passed(c: &Central, index: u32) -> Option<Passed> {
    one::passed_on(c, index).map(|n| Passed {
        at_us: n.at_us,
        link: one::link(n),
        handle: n.handle,
        indication: n.indication,
        value: n.value.clone(),
    })
}

/// Of a call that sends nothing over the link.
fn quiet(c: &Central, call: &Call, sent: &Sent) -> Answer {
    match call {
        Call::Fresh | Call::FreshWith { .. } => Answer::Fresh,
        Call::Dump | Call::Links | Call::Mode => Answer::State,
        Call::TimerUs => Answer::Time(c.timer_us()),
        Call::ConnectedHandle => Answer::Handle(c.connected_handle()),
        Call::Result { index } => {
            Answer::Result(c.result(*index).map(|r| one::result(r.index, r.at_us, r.status, r.value.clone())))
        }
        Call::PassedOn { index } => Answer::PassedOn(passed(c, *index)),
        _ => sent.action.map_or(Answer::Done, Answer::Action),
    }
}

/// The call's line, without its end; that of a dump, of `links` or of `mode` is made of the state that was left.
pub fn line(call: &Call, answer: &Answer, left: &Central) -> Vec<u8> {
    let mut line = Line::default();
    line.word(NAMES[usize::from(call.tag())]);
    match answer {
        Answer::Fresh => &mut line,
        Answer::State if *call == Call::Links => line.links(left),
        Answer::State if *call == Call::Mode => line.mode(left),
        Answer::State => line.dump(left),
        Answer::Other(what) => line.word(what),
        Answer::Refused(refusal) => line.number(u64::from(*refusal)),
        Answer::Done => line.number(0),
        Answer::Sent { frames, bytes, request } => line.number(0).number(*frames as u64).bytes(bytes).request(*request),
        Answer::Action(action) => line.number(0).action(*action),
        Answer::Time(time) => line.number(0).option(*time),
        Answer::Handle(handle) => line.number(0).option(handle.map(u64::from)),
        Answer::Result(None) | Answer::PassedOn(None) => line.number(0).word("none"),
        Answer::Result(Some(r)) => line.number(0).result(r),
        Answer::PassedOn(Some(p)) => line.number(0).passed(p),
    };
    line.0
}
