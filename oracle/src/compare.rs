//! Runs sequences of calls on the oracle and on a player of the port and compares their answers line by line.
//!
//!   compare PORT [seed N] [count N] [total N] [calls N] [dumps N] [groups script,radio,link] [save FOLDER] [refusals] [aged] [strict] [few] [first]
//!
//! PORT is a program that plays a trace (docs/TRACE.md), or `-` for none: sequences are then only made.
//! `count` sequences of at least `calls` calls each are run, or so many that there are `total` calls, with `dumps` dumps in a
//! hundred calls. With `refusals`, calls that 01 refuses are among them; the Rust has no answer for these, and the wanted one is
//! that of gate.rs. With `aged` most waits have an age, with `strict` the mode of most sequences is strict; for both it must be
//! compiled against the extended Rust. `first` ends at the first difference, with no shrinking. The ending is 0 where there is no
//! difference and each cell that can be reached was; with `few` that is not asked.

#[path = "compare/asked.rs"]
mod asked;
#[path = "compare/options.rs"]
mod options;
#[path = "compare/port.rs"]
mod port;
#[path = "compare/report.rs"]
mod report;
#[allow(dead_code)]
mod sequence;
#[path = "compare/shrink.rs"]
mod shrink;
#[allow(dead_code)]
mod trace;
#[path = "compare/verdict.rs"]
mod verdict;
#[path = "compare/words.rs"]
mod words;

use options::Options;
use port::{Live, Stream};
use sequence::counts::Counts;
use sequence::{Recorded, record};
use std::process::ExitCode;
use std::sync::mpsc::{Receiver, sync_channel};
use std::time::Instant;
use verdict::{Difference, Shown};

/// Reads the port's lines against those expected; hands back how many sequences differ, and the first.
fn compare(port: &mut Stream, wanted: &Receiver<(u64, Recorded)>, first: bool) -> (u64, Option<Difference>) {
    let (mut differing, mut found, mut calls) = (0, None, 0);
    for (number, mut made) in wanted {
        let (mut differs, mut ended) = (None, false);
        for (at, line) in made.lines.iter().enumerate() {
            let got = port.line();
            ended = got.is_none();
            if differs.is_none() && got.as_ref() != Some(line) {
                differs = Some((at, got));
            }
            if ended || first && differs.is_some() {
                break;
            }
            calls += u64::from(differs.is_none());
        }
        let Some((at, got)) = differs else {
            continue;
        };
        differing += 1;
        if found.is_none() {
            let wanted = made.lines.swap_remove(at);
            found = Some(Difference { number, at, calls, made: made.calls, wanted, got });
        }
        if ended || first {
            break;
        }
    }
    (differing, found)
}

/// The numbers of the sequences that are made.
fn more(o: &Options, number: u64, counts: &Counts) -> bool {
    number < o.count && (o.total == 0 || counts.made() < o.total)
}

fn run(port: &str, o: &Options, counts: &mut Counts) -> Result<(u64, Option<Difference>), String> {
    let mut number = 0;
    if port == "-" {
        while more(o, number, counts) {
            record(o.plan, number, counts);
            number += 1;
        }
        return Ok((0, None));
    }
    let (mut stream, bytes) = Stream::start(port)?;
    let (send, wanted) = sync_channel::<(u64, Recorded)>(8);
    let first = o.first;
    let reader = std::thread::spawn(move || {
        let found = compare(&mut stream, &wanted, first);
        stream.stop();
        found
    });
    while more(o, number, counts) {
        let made = record(o.plan, number, counts);
        if bytes.send(made.bytes()).is_err() || send.send((number, made)).is_err() {
            break;
        }
        number += 1;
    }
    drop((bytes, send));
    reader.join().map_err(|_| "the comparison stopped".to_string())
}

fn told() -> Result<ExitCode, String> {
    let mut words = std::env::args().skip(1);
    let port = words.next().ok_or("compare PORT [WORD [VALUE]] ..: see oracle/compare")?;
    let o = Options::read(words)?;
    let start = Instant::now();
    let mut counts = Counts::default();
    let (differing, found) = run(&port, &o, &mut counts)?;
    let shown = Shown { counts, took: start.elapsed(), views: Vec::new(), differing, found };
    Ok(verdict::give(&o, shown, Live::new(&port)))
}

fn main() -> ExitCode {
    told().unwrap_or_else(|e| {
        eprintln!("{e}");
        ExitCode::FAILURE
    })
}
