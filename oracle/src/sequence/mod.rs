//! Sequences of calls from a seed. The oracle runs beside them, so that what it sends can be answered by a
//! simulated head and a script gets far; no call is made that 01 refuses.

mod aged;
pub mod checks;
pub mod closings;
pub mod counts;
pub mod head;
mod needles;
pub mod rng;
mod script;
pub mod searches;
mod strict;
mod wire;

use crate::trace::answer::{self, Answer};
use crate::trace::{Batch, Call, gate, one};
use counts::{Counts, Taken};
use head::Head;
use oracle::ble::central::{AdvAction, Central, Step, Uuid};
use rng::Rng;
use std::collections::VecDeque;

/// The calls that are made: those of the script always.
#[derive(Clone, Copy, Debug)]
pub struct Groups {
    pub radio: bool,
    pub link: bool,
}

/// How sequences are made.
#[derive(Clone, Copy, Debug)]
pub struct Plan {
    pub seed: u64,
    pub groups: Groups,
    /// Calls that 01 refuses are made too.
    pub refusals: bool,
    /// Most waits have an age.
    pub aged: bool,
    /// In most sequences the mode is strict.
    pub strict: bool,
    /// At least so many calls beside dumps.
    pub calls: usize,
    /// Dumps in a hundred calls.
    pub dumps: u64,
}

/// What a sequence is mostly about.
#[derive(Clone, Copy, Debug, PartialEq)]
enum Scene {
    /// Scripts in the order that they are written in.
    Journey,
    /// Steps of any kind in any order.
    Any,
    Notify,
    /// Notifications before and under aged waits, over links that come and go.
    Aged,
    /// Waits for bytes that come in pieces, or almost.
    Needles,
    /// Requests that are not answered in time, and what comes behind.
    Closed,
    Discover,
    /// Many advertisers.
    Scan,
    /// One scan that hears more advertisers than it can ask.
    Crowd,
    /// Every service of the head, with nothing in the way.
    Survey,
    /// Requests from the peer.
    Peer,
    /// Many steps that end in one call.
    Burst,
}

#[derive(Clone, Copy, Debug, PartialEq)]
enum Clock {
    Steady,
    Jumps,
    Back,
    /// Near the greatest time that is accepted.
    Edge,
}

#[derive(Clone, Copy, Debug, PartialEq)]
enum Cut {
    Whole,
    /// In two, at each boundary in turn.
    Two,
    Many,
    Surplus,
    Mixed,
}

pub struct Profile {
    scene: Scene,
    clock: Clock,
    cut: Cut,
    /// In a hundred calls: unlooked-for ones, answers that are wrong, none or late, disconnects.
    noise: u64,
    wrong: u64,
    silent: u64,
    late: u64,
    drop: u64,
}

/// Sees each call when the oracle has made it: its answer, and the state that it left.
pub trait Witness {
    fn saw(&mut self, call: &Call, answer: &Answer, left: &Central);
}

/// A sequence and the oracle's answers, one line for each call. The first makes the state fresh.
pub struct Recorded {
    pub calls: Vec<Call>,
    pub lines: Vec<Vec<u8>>,
}

impl Recorded {
    pub fn bytes(&self) -> Vec<u8> {
        bytes(&self.calls)
    }
}

/// The calls as a trace.
pub fn bytes(calls: &[Call]) -> Vec<u8> {
    let mut out = Vec::new();
    for call in calls {
        call.put(&mut out);
    }
    out
}

#[derive(Default)]
struct Lines(Vec<Vec<u8>>);

impl Witness for Lines {
    fn saw(&mut self, call: &Call, answer: &Answer, left: &Central) {
        self.0.push(answer::line(call, answer, left));
    }
}

pub struct Sequence<'a> {
    rng: Rng,
    plan: Plan,
    groups: Groups,
    profile: Profile,
    counts: &'a mut Counts,
    witness: &'a mut dyn Witness,
    central: Central,
    head: Head,
    advertisers: Vec<[u8; 6]>,
    listed: Vec<Uuid>,
    now: u64,
    /// Fragments on their way.
    outbox: VecDeque<(bool, Vec<u8>)>,
    /// Frames that come later than they should.
    late: Vec<Vec<u8>>,
    connects: bool,
    /// The age of the wait that the batch to come begins with.
    coming: Option<u32>,
    /// How many needles were looked for, and a beginning of its own for each sequence: each length has its turn.
    needle: usize,
    boundary: usize,
    opcode: u8,
    signal: u8,
    /// Each step taken in, by index.
    taken: Vec<Taken>,
    made: Vec<Call>,
}

fn profile(rng: &mut Rng, plan: Plan) -> Profile {
    let groups = plan.groups;
    let scenes: &[Scene] = match (groups.radio, groups.link) {
        (false, false) => &[Scene::Journey, Scene::Any, Scene::Any, Scene::Burst],
        (true, false) => &[Scene::Journey, Scene::Any, Scene::Scan, Scene::Scan, Scene::Crowd, Scene::Burst],
        (_, true) => &[
            Scene::Journey,
            Scene::Journey,
            Scene::Journey,
            Scene::Journey,
            Scene::Any,
            Scene::Notify,
            Scene::Notify,
            Scene::Discover,
            Scene::Discover,
            Scene::Peer,
            Scene::Burst,
            Scene::Burst,
            Scene::Survey,
            if groups.radio { Scene::Scan } else { Scene::Any },
            if groups.radio { Scene::Crowd } else { Scene::Any },
        ],
    };
    let scene = match groups.link {
        true if plan.aged && rng.chance(60) => Scene::Aged,
        true if plan.strict && rng.chance(60) => Scene::Closed,
        _ => *rng.pick(scenes),
    };
    if matches!(scene, Scene::Crowd | Scene::Survey) {
        let (clock, cut) = (Clock::Steady, Cut::Whole);
        return Profile { scene, clock, cut, noise: 1, wrong: 0, silent: 0, late: 0, drop: 0 };
    }
    if scene == Scene::Aged {
        let clock = *rng.pick(&[Clock::Steady, Clock::Steady, Clock::Jumps, Clock::Back, Clock::Edge]);
        let cut = *rng.pick(&[Cut::Whole, Cut::Whole, Cut::Mixed]);
        let (noise, wrong) = (*rng.pick(&[2, 5, 10]), *rng.pick(&[0, 0, 0, 5]));
        return Profile { scene, clock, cut, noise, wrong, silent: 1, late: 1, drop: *rng.pick(&[0, 1, 4]) };
    }
    if scene == Scene::Closed {
        let clock = *rng.pick(&[Clock::Steady, Clock::Steady, Clock::Jumps, Clock::Back]);
        let cut = *rng.pick(&[Cut::Whole, Cut::Whole, Cut::Mixed]);
        let (noise, wrong) = (*rng.pick(&[2, 5, 10]), *rng.pick(&[0, 0, 0, 5]));
        let (late, drop) = (*rng.pick(&[10, 20, 40]), *rng.pick(&[0, 0, 1]));
        return Profile { scene, clock, cut, noise, wrong, silent: 5, late, drop };
    }
    Profile {
        scene,
        clock: *rng.pick(&[Clock::Steady, Clock::Steady, Clock::Steady, Clock::Jumps, Clock::Back, Clock::Edge]),
        cut: *rng.pick(&[Cut::Whole, Cut::Whole, Cut::Whole, Cut::Two, Cut::Many, Cut::Surplus, Cut::Mixed]),
        noise: if scene == Scene::Peer { 60 } else { *rng.pick(&[2, 5, 10, 20, 40]) },
        wrong: *rng.pick(&[0, 0, 0, 5, 15, 40, 90]),
        silent: *rng.pick(&[0, 2, 10]),
        late: *rng.pick(&[0, 0, 5, 20]),
        drop: *rng.pick(&[0, 0, 1, 4, 10]),
    }
}

impl<'a> Sequence<'a> {
    fn new(plan: Plan, number: u64, counts: &'a mut Counts, witness: &'a mut dyn Witness) -> Sequence<'a> {
        let (mut rng, groups) = (Rng::new(plan.seed, number), plan.groups);
        let profile = if needles::is_about_them(plan, number) {
            needles::profile(*rng.pick(&[Cut::Whole, Cut::Mixed]))
        } else {
            profile(&mut rng, plan)
        };
        let mut head = Head::new(&mut rng, profile.scene == Scene::Survey, (number * 3) as u8);
        while profile.scene == Scene::Needles && head.characteristics().is_empty() {
            head = Head::new(&mut rng, false, (number * 3) as u8);
        }
        let crowd = match profile.scene {
            Scene::Crowd => 160,
            Scene::Scan => rng.size(40, 120),
            _ => rng.size(1, 6),
        };
        let advertisers = (0..crowd).map(|_| rng.bytes(6).try_into().expect("6 bytes")).collect();
        let mut listed = vec![Uuid::from_u16(0x180F), Uuid::from_u16(rng.half())];
        let mut wide = Uuid::from_u16(0x1234);
        wide.0[14] = 1 + rng.below(255) as u8;
        listed.extend([wide, Uuid(rng.bytes(16).try_into().expect("16 bytes"))]);
        let now = match profile.clock {
            Clock::Edge => gate::MOST_TIME - rng.below(4_000_000_000),
            _ if rng.chance(30) => 0,
            _ => rng.below(1 << 50),
        };
        // Spread over the sequences, so that each code has its turn.
        let (boundary, opcode, signal) = (rng.size(0, 30), (number * 7) as u8, (number * 5) as u8);
        Sequence {
            rng,
            plan,
            groups,
            profile,
            counts,
            witness,
            central: Central::default(),
            head,
            advertisers,
            listed,
            now,
            outbox: VecDeque::new(),
            late: Vec::new(),
            connects: false,
            coming: None,
            needle: number as usize,
            boundary,
            opcode,
            signal,
            taken: Vec::new(),
            made: Vec::new(),
        }
    }

    /// Plays the call on the oracle and lets the head see what was sent.
    fn make(&mut self, call: Call) {
        match gate::refusal(&self.central, &call) {
            0 => {}
            n if self.plan.refusals && n != gate::TABLE_FULL => {
                self.counts.refused[usize::from(n)] += 1;
                self.counts.calls[usize::from(call.tag())] += 1;
                let answer = answer::judge(&mut self.central, &call).0;
                self.witness.saw(&call, &answer, &self.central);
                return self.made.push(call);
            }
            _ => {
                self.counts.withheld += 1;
                return;
            }
        }
        self.counts.before(&self.central, &call);
        let taken = self.central.next_index as usize + self.central.queue.len();
        let ended = self.central.next_index - u32::from(self.central.running.is_some());
        let (answer, sent) = answer::play(&mut self.central, &call);
        if let Call::Batch(b) = &call {
            let more = self.central.next_index as usize + self.central.queue.len() - taken;
            self.taken.extend(b.steps[..more].iter().map(Taken::of));
        }
        self.counts.after(&self.central, &call, &sent, &self.taken, ended);
        self.witness.saw(&call, &answer, &self.central);
        self.made.push(call);
        for frame in &sent.frames {
            self.react(frame);
        }
        match sent.action {
            Some(AdvAction::Connect { .. }) => self.connects = true,
            Some(AdvAction::ScanRequest) if self.profile.scene == Scene::Crowd && self.rng.chance(90) => {}
            Some(AdvAction::ScanRequest) if self.rng.chance(60) => self.answer_scan(),
            _ => {}
        }
    }

    fn run(&mut self) {
        let first = self.first();
        self.make(first);
        let calls = self.plan.calls + self.rng.size(0, self.plan.calls / 10);
        let mut made = 0;
        while made < calls {
            let before = self.made.len();
            let call = self.next();
            self.make(call);
            made += self.made.len() - before;
            if self.rng.chance(self.plan.dumps) {
                self.dump();
            }
        }
        self.dump();
    }

    /// A dump's line tells nothing of links and of a closed bearer: those have records of their own.
    fn dump(&mut self) {
        self.make(Call::Dump);
        if self.plan.aged {
            self.make(Call::Links);
        }
        if self.plan.strict {
            self.make(Call::Mode);
        }
    }

    /// The time of the next call.
    fn tick(&mut self) -> u64 {
        if self.plan.aged
            && self.rng.chance(35)
            && let Some(at) = self.about_an_age()
        {
            self.now = at;
            return at;
        }
        let r = &mut self.rng;
        let step = match self.profile.clock {
            Clock::Jumps if r.chance(20) => r.below(40_000_000),
            _ => r.below(20_000),
        };
        self.now = match self.profile.clock {
            Clock::Back if r.chance(3) => 0,
            Clock::Back if r.chance(25) => self.now.saturating_sub(r.below(60_000_000)),
            Clock::Edge if r.chance(3) => gate::MOST_TIME,
            Clock::Edge if self.now + step >= gate::MOST_TIME => self.now - r.below(2_000_000_000),
            _ => self.now + step,
        };
        self.now
    }

    /// A timer call about the deadline, mostly at it or past it.
    fn ring(&mut self) -> Call {
        let Some(deadline) = self.central.timer_us() else {
            return Call::Timer { now: self.tick() };
        };
        let r = &mut self.rng;
        let at = match r.below(10) {
            0..=5 => deadline,
            6 => deadline.saturating_sub(1),
            7 => deadline + 1,
            8 => deadline + r.below(10_000_000),
            _ => r.below(deadline + 1),
        };
        if at <= gate::MOST_TIME {
            self.now = at;
        } else {
            // A deadline past the greatest time: the clock goes back and the step ends otherwise.
            self.now = gate::MOST_TIME - self.rng.below(3_000_000_000);
        }
        Call::Timer { now: self.now }
    }

    fn connected(&mut self) -> Call {
        self.connects = false;
        let handle = if self.rng.chance(80) { 0x40 + self.rng.below(4) as u16 } else { self.rng.half() };
        Call::Connected { at: self.tick(), handle }
    }

    fn disconnected(&mut self) -> Call {
        if self.rng.chance(70) {
            self.outbox.clear();
        }
        Call::Disconnected { at: self.tick() }
    }

    fn reader(&mut self) -> Call {
        if self.plan.aged && self.rng.chance(30) {
            return self.aged_reader();
        }
        match self.rng.below(4) {
            0 => Call::TimerUs,
            1 => Call::ConnectedHandle,
            _ => {
                let next = u64::from(self.central.next_index);
                let index = match self.rng.below(8) {
                    0 => self.rng.below(next + 3),
                    1 => self.rng.next(),
                    _ => next.saturating_sub(self.rng.below(6)),
                };
                Call::Result { index: index as u32 }
            }
        }
    }

    fn next(&mut self) -> Call {
        if self.rng.chance(8) {
            return self.reader();
        }
        if self.plan.refusals && self.rng.chance(4) {
            return self.refused();
        }
        if self.connects && self.rng.chance(90) {
            return self.connected();
        }
        if self.rng.chance(self.profile.noise) {
            return self.noise();
        }
        if self.central.link.is_some() && self.rng.chance(self.profile.drop) {
            return self.disconnected();
        }
        if self.central.link.is_some()
            && let Some((start, data)) = self.outbox.pop_front()
        {
            return self.fragment(start, data);
        }
        self.helpful()
    }

    /// The call that brings the running step on.
    fn helpful(&mut self) -> Call {
        if let Some(call) = self.about_a_wait().or_else(|| self.about_a_needle()).or_else(|| self.about_a_closing()) {
            return call;
        }
        let Some(step) = self.central.running.as_ref().map(|r| r.step.clone()) else {
            return self.batch();
        };
        let (radio, link) = (self.groups.radio, self.groups.link && self.central.link.is_some());
        let keep = match self.profile.scene {
            Scene::Crowd if self.central.reports.len() < 64 => 100,
            Scene::Crowd | Scene::Scan => 98,
            _ => 70,
        };
        let queue = self.central.queue.len();
        match step {
            // Steps behind the one that holds them up, to the last place.
            Step::Connect { .. } | Step::WaitNotification { .. } | Step::Disconnect
                if self.profile.scene == Scene::Burst && queue < 64 && self.rng.chance(60) =>
            {
                self.batch()
            }
            Step::Scan { .. } if radio && self.rng.chance(keep) => self.heard(),
            Step::Connect { .. } if radio && self.rng.chance(70) => self.heard(),
            Step::Connect { .. } if self.rng.chance(60) => self.connected(),
            Step::WaitNotification { .. } if link && self.rng.chance(80) => {
                self.notify_wait();
                self.send_or(Sequence::ring)
            }
            Step::Disconnect if self.rng.chance(85) => self.disconnected(),
            Step::Disconnect => self.noise(),
            _ if link && self.rng.chance(20) => self.noise(),
            _ => self.ring(),
        }
    }

    /// A call that nothing asked for.
    fn noise(&mut self) -> Call {
        let link = self.groups.link;
        match self.rng.below(20) {
            0 => self.ring(),
            1 => Call::Timer { now: self.tick() },
            2 if self.rng.chance(40) => self.connected(),
            3 if self.rng.chance(40) => self.disconnected(),
            4 | 5 => self.batch(),
            6..=8 if self.groups.radio => self.heard(),
            9 if link && self.rng.chance(60) => self.loose_fragment(),
            10..=16 if link && self.central.link.is_some() => {
                let frame = self.unasked();
                self.post(frame);
                self.send_or(Sequence::reader)
            }
            17 if link && !self.late.is_empty() => self.comes_late(),
            _ => self.reader(),
        }
    }

    /// A frame that should have come earlier.
    fn comes_late(&mut self) -> Call {
        let at = self.rng.below(self.late.len() as u64) as usize;
        let frame = self.late.swap_remove(at);
        self.post(frame);
        self.send_or(Sequence::reader)
    }

    fn send_or(&mut self, other: fn(&mut Self) -> Call) -> Call {
        match self.outbox.pop_front() {
            Some((start, data)) => self.fragment(start, data),
            None => other(self),
        }
    }

    fn batch(&mut self) -> Call {
        let steps = self.script();
        self.coming = steps.first().filter(|_| self.central.running.is_none()).and_then(one::age);
        let now = self.tick();
        self.coming = None;
        let mut batch = Batch::new(now, steps);
        if self.rng.chance(25) {
            self.scatter(&mut batch);
        }
        Call::Batch(batch)
    }
}

/// Sequence `number` of the plan's seed, each call seen as it is made.
pub fn make(plan: Plan, number: u64, counts: &mut Counts, witness: &mut dyn Witness) -> Vec<Call> {
    let mut s = Sequence::new(plan, number, counts, witness);
    s.run();
    s.made
}

/// Sequence `number` of the plan's seed, with the oracle's lines.
pub fn record(plan: Plan, number: u64, counts: &mut Counts) -> Recorded {
    let mut lines = Lines::default();
    let calls = make(plan, number, counts, &mut lines);
    Recorded { calls, lines: lines.0 }
}
