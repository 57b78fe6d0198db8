//! What the calls cost, as ratios to the Rust: `bench_calls [rounds N] [rows TEXT]`.
//!
//! The port's side of each row is a loop in Rattle, once of the calls on lent tables (crates/tool_bench) and once of those on a state
//! by value (crates/tool_bench_value). It is timed whole and less its set-up (the same loop of 0 calls); the Rust's side is the same
//! loop here, its set-up not timed, and so is the loop of calls through the C exports (crates/c_central). The four run in turn,
//! round after round, the order changing; what is printed is the ratio of the best times, the median of the rounds' own ratios,
//! and the best times. Times are the thread's own processor time, so that other programs count for little. Each answers one number
//! of what the calls gave and left, and all must be equal.

#[path = "bench/c.rs"]
mod c;
#[path = "bench/c_words.rs"]
mod c_words;
#[path = "bench/clock.rs"]
mod clock;
#[allow(dead_code)]
#[path = "compare/exports.rs"]
mod exports;
#[path = "bench/link.rs"]
mod link;
#[path = "bench/radio.rs"]
mod radio;
#[path = "bench/script.rs"]
mod script;
#[path = "bench/setup.rs"]
mod setup;
#[allow(dead_code)]
#[path = "compare/state.rs"]
mod state;
#[path = "bench/states.rs"]
mod states;

use clock::ran;
use oracle::ble::central::Central;
use setup::Lent;
use std::hint::black_box;

/// The port's forms of each call: in Rattle's loops, and from C.
#[derive(Clone, Copy)]
pub enum Form {
    Lent,
    ByValue,
    C,
}

const FORMS: [(&str, Form); 3] = [("lent", Form::Lent), ("by value", Form::ByValue), ("from C", Form::C)];
const SIDES: usize = 1 + FORMS.len();

/// One number of what the calls gave and left, and the nanoseconds that all took.
pub type Took = (u64, f64);

pub fn timed(f: impl FnOnce() -> u64) -> Took {
    let began = ran();
    let told = black_box(f());
    (told, ran() - began)
}

/// Times n calls of the port, less the set-up.
pub fn less_set_up(n: u32, mut f: impl FnMut(u32) -> u64) -> Took {
    let before = timed(|| f(0)).1;
    let (told, all) = timed(|| f(n));
    (told, all - before)
}

/// Times n calls of the port on each of so many states, less the set-ups.
pub fn port_states(states: u32, n: u32, mut f: impl FnMut(u32) -> u64) -> Took {
    (0..states).fold((0, 0.0), |(told, ns), _| {
        let took = less_set_up(n, &mut f);
        (took.0.wrapping_add(told), took.1 + ns)
    })
}

/// Times the Rust on each of so many states.
pub fn rust_states(states: u32, state: impl Fn() -> Central, mut f: impl FnMut(&mut Central) -> u64) -> Took {
    let mut all: Vec<Central> = (0..states).map(|_| black_box(state())).collect();
    timed(|| all.iter_mut().fold(0, |told, c| f(c).wrapping_add(told)))
}

// ---- what the loops sum

/// As after each event: nothing stays queued. How many bytes went out.
pub fn taken(c: &mut Central) -> u64 {
    let frames = black_box(c.take_frames());
    black_box(c.take_ll_requests());
    frames.iter().map(|f| f.len() as u64).sum()
}

/// One more half of a number, as crates/tool_bench/src/told.rt has it.
fn join(h: u64, half: u64) -> u64 {
    const PRIME: u64 = 4_294_967_311;
    ((h % PRIME) * 1_000_003 + half % (1 << 32)) % PRIME
}

/// What stands, as crates/tool_bench/src/told.rt has it.
pub fn told(sum: u64, c: &Central) -> u64 {
    [
        c.queue.len() as u64,
        c.results.len() as u64,
        c.characteristics.len() as u64,
        c.notifications.len() as u64,
        u64::from(c.next_index),
        c.notified,
        c.wait_from,
        c.reports.len() as u64,
        c.running.as_ref().map_or(0, |r| r.scan_requested.len()) as u64,
    ]
    .into_iter()
    .fold(sum, |h, x| join(join(h, x >> 32), x))
}

// ---- a row

/// The best time of a side, and what each round took.
struct Side {
    best: f64,
    rounds: Vec<f64>,
}

impl Side {
    const fn new() -> Side {
        Side { best: f64::MAX, rounds: Vec::new() }
    }

    fn took(&mut self, ns: f64) {
        self.best = self.best.min(ns);
        self.rounds.push(ns);
    }

    /// The median of the rounds' own ratios to another side.
    fn median_to(&self, other: &Side) -> f64 {
        let mut ratios: Vec<f64> = self.rounds.iter().zip(&other.rounds).map(|(a, b)| a / b).collect();
        ratios.sort_by(f64::total_cmp);
        ratios[ratios.len() / 2]
    }
}

/// Times the Rust and the forms of the port in turn and prints a row of each form. Which is first changes from round to round.
pub fn compare(
    name: &str,
    calls: u32,
    rounds: usize,
    mut rust: impl FnMut() -> Took,
    mut port: impl FnMut(Form) -> Took,
) {
    if word("rows").is_some_and(|text| !name.contains(&text)) {
        return;
    }
    let mut sides = [const { Side::new() }; SIDES];
    for round in 0..rounds {
        let mut told = [0; SIDES];
        for turn in 0..SIDES {
            let side = (round + turn) % SIDES;
            let took = if side == 0 { rust() } else { port(FORMS[side - 1].1) };
            told[side] = took.0;
            sides[side].took(took.1);
        }
        for (side, (form, _)) in FORMS.iter().enumerate() {
            assert_eq!(told[0], told[1 + side], "{name}, {form}: the two sides differ");
        }
    }
    let rust = &sides[0];
    for (side, (form, _)) in sides[1..].iter().zip(FORMS) {
        println!(
            "{name:48} {form:8} {:6.2} of the Rust's time (median of rounds {:.2}; {:.0} ns to {:.0} ns a call)",
            side.best / rust.best,
            side.median_to(rust),
            side.best / f64::from(calls),
            rust.best / f64::from(calls),
        );
    }
}

/// What stands behind this word.
fn word(name: &str) -> Option<String> {
    std::env::args().skip_while(|w| w != name).nth(1)
}

fn main() {
    let rounds = word("rounds").and_then(|n| n.parse().ok()).unwrap_or(200);
    let mut l = Lent::new();
    script::rows(&mut l, rounds);
    radio::rows(&mut l, rounds);
    link::rows(&mut l, rounds);
    link::searches(&mut l, rounds);
}
