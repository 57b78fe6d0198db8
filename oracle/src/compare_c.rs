//! Runs sequences of calls on the oracle and on the port through its C interface, in one process, and compares their answers.
//!
//!   compare_c [seed N] [count N] [total N] [calls N] [dumps N] [groups script,radio,link] [save FOLDER] [refusals] [aged] [strict] [few] [first]
//!
//! The words are those of `compare`, whose generator, gate and answers it shares. Every answer is compared, with the bytes sent;
//! at a dump the state that the words say, with the Rust's own, the five views of one report and the notification that one result
//! names; at a refusal, that nothing lent has changed.

#[path = "compare/asked.rs"]
mod asked;
#[path = "compare/c_port.rs"]
mod c_port;
#[path = "compare/exports.rs"]
mod exports;
#[path = "compare/options.rs"]
mod options;
#[path = "compare/passed.rs"]
mod passed;
mod port {
    pub type Number = u128;
}
#[path = "compare/report.rs"]
mod report;
#[allow(dead_code)]
mod sequence;
#[path = "compare/shrink.rs"]
mod shrink;
#[allow(dead_code)]
#[path = "leaf/slow.rs"]
mod slow;
#[path = "compare/state.rs"]
mod state;
#[allow(dead_code)]
mod trace;
#[path = "compare/verdict.rs"]
mod verdict;
#[path = "compare/views.rs"]
mod views;
#[path = "compare/words.rs"]
mod words;

use c_port::Port;
use options::Options;
use oracle::ble::central::Central;
use sequence::counts::Counts;
use sequence::{Witness, make};
use std::process::ExitCode;
use std::time::{Duration, Instant};
use trace::answer::{self, Answer};
use trace::{Call, one};
use verdict::{Difference, Shown};
use views::{CASES, Met};

/// How often a long run says how far it is.
const PROGRESS: Duration = Duration::from_secs(20);

/// The port beside the oracle, for one sequence after another.
struct Beside {
    port: Port,
    /// The number of the call in its sequence.
    at: usize,
    /// Answers that were equal, in all sequences, before the first that differs.
    equal: u64,
    /// What the views have met.
    met: Met,
    /// In this sequence: where it differs, and both lines.
    differs: Option<(usize, Vec<u8>, Vec<u8>)>,
}

/// The line of a call; behind a dump's those of `links` and `mode`, which it is compared with too.
fn shown(call: &Call, line: impl Fn(&Call) -> Vec<u8>) -> Vec<u8> {
    let mut text = line(call);
    if *call == Call::Dump && one::IS_THERE {
        for more in [Call::Links, Call::Mode] {
            text.push(b' ');
            text.extend(line(&more));
        }
    }
    text
}

impl Beside {
    /// The views at a dump: of one report and of one result, those behind the last too; each has its turn.
    fn viewed(&mut self, left: &Central) -> Answer {
        let (turn, memory) = (self.equal as usize, &self.port.memory);
        let i = turn % (left.reports.len() + 1);
        let index = left.results.get(turn % (left.results.len() + 1)).map_or(left.next_index, |r| r.index);
        let wrong = views::fault(memory, i, left.reports.get(i), &mut self.met);
        wrong.or_else(|| passed::fault(memory, index, left)).map_or(Answer::State, Answer::Other)
    }

    /// The port's answer to a call that the oracle has made.
    fn got(&mut self, call: &Call, answer: &Answer, left: &Central) -> Answer {
        match answer {
            Answer::Refused(_) => self.port.refusal(call),
            Answer::State if *call == Call::Dump => self.viewed(left),
            _ => self.port.answer(call),
        }
    }

    fn is_equal(&self, answer: &Answer, got: &Answer, left: &Central) -> bool {
        got == answer && (*answer != Answer::State || state::central(&self.port.memory).as_ref() == Ok(left))
    }
}

impl Witness for Beside {
    fn saw(&mut self, call: &Call, answer: &Answer, left: &Central) {
        // Behind a difference the two have different states.
        if self.differs.is_some() {
            return;
        }
        let got = self.got(call, answer, left);
        if self.is_equal(answer, &got, left) {
            self.equal += 1;
        } else {
            let wanted = shown(call, |c| answer::line(c, answer, left));
            self.differs = Some((self.at, wanted, shown(call, |c| self.port.line(c, &got))));
        }
        self.at += 1;
    }
}

fn run(o: &Options) -> (Shown, Port) {
    let (start, mut told) = (Instant::now(), Duration::ZERO);
    let mut counts = Counts::default();
    let mut beside = Beside { port: Port::new(), at: 0, equal: 0, met: Met::default(), differs: None };
    let (mut number, mut differing, mut found) = (0, 0, None);
    while number < o.count && (o.total == 0 || counts.made() < o.total) {
        (beside.at, beside.differs) = (0, None);
        let made = make(o.plan, number, &mut counts, &mut beside);
        if let Some((at, wanted, got)) = beside.differs.take() {
            differing += 1;
            let calls = beside.equal;
            found = found.or(Some(Difference { number, at, calls, made, wanted, got: Some(got) }));
            if o.first {
                break;
            }
        }
        number += 1;
        let took = start.elapsed();
        if took >= told + PROGRESS {
            told = took;
            eprintln!("{} calls, {:.0} s, differences {differing}", counts.made(), took.as_secs_f64());
        }
    }
    let views = if o.plan.groups.radio { CASES.into_iter().zip(beside.met).collect() } else { Vec::new() };
    (Shown { counts, took: start.elapsed(), views, differing, found }, beside.port)
}

fn main() -> ExitCode {
    match Options::read(std::env::args().skip(1)) {
        Ok(o) => {
            let (shown, port) = run(&o);
            verdict::give(&o, shown, port)
        }
        Err(e) => {
            eprintln!("{e}");
            ExitCode::FAILURE
        }
    }
}
