//! How a comparison ends: what it showed, and its status.

use crate::asked::Asked;
use crate::options::Options;
use crate::report;
use crate::sequence::counts::Counts;
use crate::shrink;
use crate::trace::{Call, NAMES};
use std::process::ExitCode;
use std::time::Duration;

/// A sequence whose answers differ: the number of the first call that does.
pub struct Difference {
    pub number: u64,
    pub at: usize,
    /// Answers that were equal before it, in all sequences.
    pub calls: u64,
    pub made: Vec<Call>,
    pub wanted: Vec<u8>,
    pub got: Option<Vec<u8>>,
}

/// What a run showed.
pub struct Shown {
    pub counts: Counts,
    pub took: Duration,
    /// What the views of reports have met, and how often; none where there are none.
    pub views: Vec<(&'static str, u64)>,
    /// Sequences that differ, and the first of them.
    pub differing: u64,
    pub found: Option<Difference>,
}

/// For oracle/faults: where the first difference is, in one line.
fn first(o: &Options, found: Option<Difference>, sequences: u64) -> ExitCode {
    match found {
        None => {
            println!("no difference in {sequences} sequences");
            ExitCode::SUCCESS
        }
        Some(d) => {
            let name = NAMES[usize::from(d.made[d.at].tag())];
            println!(
                "found at call {}, in sequence {} of seed {} at its call {}, {name}",
                d.calls, d.number, o.plan.seed, d.at
            );
            ExitCode::FAILURE
        }
    }
}

/// Fails on a difference, which is shown and shrunk, and on a cell that can be reached and was not, unless they are few.
pub fn give(o: &Options, shown: Shown, port: impl Asked) -> ExitCode {
    if o.first {
        return first(o, shown.found, shown.counts.sequences());
    }
    report::print(o, &shown.counts, shown.took);
    let mut empty = report::empty(&shown.counts, o.plan);
    if !shown.views.is_empty() {
        let met: Vec<String> = shown.views.iter().map(|(what, n)| format!("{what} {n}")).collect();
        println!("views have met: {}\n", met.join(", "));
    }
    empty.extend(shown.views.iter().filter(|v| v.1 == 0).map(|v| format!("a view that meets {}", v.0)));
    for cell in &empty {
        println!("never seen: {cell}");
    }
    println!("differences {}", shown.differing);
    if let Some(d) = shown.found {
        shrink::show(o, d, port);
        return ExitCode::FAILURE;
    }
    if empty.is_empty() || o.few { ExitCode::SUCCESS } else { ExitCode::FAILURE }
}
