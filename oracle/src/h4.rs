//! The H4 stream and the builders of the port, through its C interface, against hci.rs in one process.
//!
//!   h4 [seed N] [cuttings N] [builders N] [first]
//!
//! `cuttings` random streams of bytes (1,000,000), each cut at random, go to the port, to the extended Rust
//! (oracle/extensions/three.diff) and to the stream of docs/src: the answers, the bytes given and held, and every other byte lent must
//! be equal, and those of docs/src too but for what 02 asks. The bytes of most of them are also fed at once. `builders` random inputs
//! (1,000,000) go to the builders, and as many to what reads packets.
//!
//! The first difference is shrunk and printed, and ends the run with status 1; so does a kind of answer that never came up. With
//! `first` a run says in a line where it found one, or that it found none.

#[path = "h4/builders.rs"]
mod builders;
#[path = "h4/exports.rs"]
mod exports;
#[path = "h4/feeds.rs"]
mod feeds;
#[allow(dead_code)]
#[path = "sequence/rng.rs"]
mod rng;
#[path = "h4/streams.rs"]
mod streams;
#[path = "h4/tally.rs"]
mod tally;

use builders::Builders;
use feeds::{Beside, shrunk};
use rng::Rng;
use std::process::ExitCode;
use std::time::Instant;
use streams::Pool;

struct Options {
    seed: u64,
    cuttings: u64,
    builders: u64,
    first: bool,
}

fn options() -> Option<Options> {
    let mut o = Options { seed: 1, cuttings: 1_000_000, builders: 1_000_000, first: false };
    let mut words = std::env::args().skip(1);
    while let Some(word) = words.next() {
        match word.as_str() {
            "first" => o.first = true,
            "seed" => o.seed = words.next()?.parse().ok()?,
            "cuttings" => o.cuttings = words.next()?.parse().ok()?,
            "builders" => o.builders = words.next()?.parse().ok()?,
            _ => return None,
        }
    }
    Some(o)
}

/// Prints the difference; with `first` in a line.
fn found(first: bool, at: String, how: &str) -> ExitCode {
    if first {
        println!("found at {at}");
    } else {
        println!("h4: DIFFERENCE at {at}: {how}");
    }
    ExitCode::FAILURE
}

/// The cuttings; where the two differ, after it is told.
fn cuttings(o: &Options, beside: &mut Beside) -> Option<ExitCode> {
    let mut r = Rng::new(o.seed, 1);
    let pool = Pool::new(&mut r);
    for i in 0..o.cuttings {
        let c = streams::cutting(&mut r, &pool);
        let Err(d) = beside.run(&c) else { continue };
        let at = format!("cutting {i}, feed {}", d.feed);
        if o.first {
            return Some(found(true, at, ""));
        }
        let small = shrunk(&c);
        let how = Beside::new().run(&small).map_or_else(|d| d.how, |_| d.how);
        return Some(found(false, at, &format!("{how}\nshrunk: {small:02x?}")));
    }
    None
}

fn builders(o: &Options, builders: &mut Builders) -> Option<ExitCode> {
    let mut r = Rng::new(o.seed, 2);
    let pool = Pool::new(&mut r);
    for i in 0..o.builders {
        let how = builders.build(&mut r, &pool).or_else(|| builders.read(&mut r, &pool));
        if let Some(how) = how {
            return Some(found(o.first, format!("builder input {i}"), &how));
        }
    }
    None
}

fn main() -> ExitCode {
    let Some(o) = options() else {
        eprintln!("usage: h4 [seed N] [cuttings N] [builders N] [first]");
        return ExitCode::from(2);
    };
    let began = Instant::now();
    let (mut beside, mut built) = (Beside::new(), Builders::new());
    if let Some(code) = cuttings(&o, &mut beside).or_else(|| builders(&o, &mut built)) {
        return code;
    }
    if o.first {
        println!("no difference");
        return ExitCode::SUCCESS;
    }
    beside.tally.print();
    built.print(o.builders);
    println!("h4: {:.1} s", began.elapsed().as_secs_f64());
    let empty: Vec<String> = beside.tally.empty().into_iter().chain(built.empty()).collect();
    for cell in &empty {
        println!("h4: never, or where it can't be: {cell}");
    }
    if empty.is_empty() { ExitCode::SUCCESS } else { ExitCode::FAILURE }
}
