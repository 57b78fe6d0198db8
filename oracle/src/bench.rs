//! What the search, its three-way form and the parameter test cost, as a ratio to the Rust: `bench [seed N] [rounds N]`.
//!
//! Both sides are called through an `extern "C"` function pointer with the same arguments, over the same inputs, in
//! turn, round after round; the best round of each counts, and beside it the median of the rounds' own ratios stands.

#[allow(dead_code)]
#[path = "leaf/inputs.rs"]
mod inputs;
#[allow(dead_code)]
#[path = "leaf/slow.rs"]
mod slow;
mod port {
    pub type Number = u128;
}

use inputs::{Case, Random};
use oracle::ble::central::{Uuid, ad_lists_service};
use std::hint::black_box;
use std::time::Instant;

type Search = extern "C" fn(*const u8, usize, u64, u64) -> bool;
type Presence = extern "C" fn(*const u8, usize, *const u8, usize, u64, u64) -> u32;
type Params = extern "C" fn(u16, u16, u16, u16) -> bool;

unsafe extern "C" {
    safe fn barleyrope_lists_service(data: *const u8, len: usize, low: u64, high: u64) -> bool;
    safe fn barleyrope_service_presence(data: *const u8, len: usize, response: *const u8, response_len: usize, low: u64, high: u64) -> u32;
    safe fn barleyrope_params_good(min: u16, max: u16, latency: u16, timeout: u16) -> bool;
}

#[inline(never)]
extern "C" fn rust_search(data: *const u8, len: usize, low: u64, high: u64) -> bool {
    // SAFETY: `search` below passes a slice's own pointer and length.
    let data = unsafe { std::slice::from_raw_parts(data, len) };
    ad_lists_service(data, Uuid((u128::from(high) << 64 | u128::from(low)).to_le_bytes()))
}

#[inline(never)]
extern "C" fn rust_params(min: u16, max: u16, latency: u16, timeout: u16) -> bool {
    oracle::rule::params_good(min, max, latency, timeout)
}

/// How many inputs had the answer yes, and the nanoseconds that one call took.
fn search(call: Search, cases: &[Case]) -> (usize, f64) {
    let call = black_box(call);
    let began = Instant::now();
    let mut yes = 0;
    for c in cases {
        let c = black_box(c);
        yes += usize::from(call(c.data.as_ptr(), c.data.len(), c.uuid as u64, (c.uuid >> 64) as u64));
    }
    (black_box(yes), began.elapsed().as_nanos() as f64 / cases.len() as f64)
}

/// The same of the three-way search, with no scan response.
fn presences(call: Presence, cases: &[Case]) -> (usize, f64) {
    const LISTED: u32 = 1;
    let call = black_box(call);
    let began = Instant::now();
    let mut yes = 0;
    for c in cases {
        let c = black_box(c);
        yes += usize::from(call(c.data.as_ptr(), c.data.len(), std::ptr::null(), 0, c.uuid as u64, (c.uuid >> 64) as u64) == LISTED);
    }
    (black_box(yes), began.elapsed().as_nanos() as f64 / cases.len() as f64)
}

fn params(call: Params, cases: &[[u16; 4]]) -> (usize, f64) {
    let call = black_box(call);
    let began = Instant::now();
    let mut yes = 0;
    for c in cases {
        let [min, max, latency, timeout] = *black_box(c);
        yes += usize::from(call(min, max, latency, timeout));
    }
    (black_box(yes), began.elapsed().as_nanos() as f64 / cases.len() as f64)
}

/// Times both sides in turn. The order changes from round to round.
fn compare(name: &str, inputs: usize, rounds: usize, mut rust: impl FnMut() -> (usize, f64), mut port: impl FnMut() -> (usize, f64)) {
    let (mut best_rust, mut best_port, mut ratios) = (f64::MAX, f64::MAX, Vec::new());
    let mut hits = 0;
    for round in 0..rounds {
        let (r, p) = if round % 2 == 0 {
            let r = rust();
            (r, port())
        } else {
            let p = port();
            (rust(), p)
        };
        assert_eq!(r.0, p.0, "{name}: the two sides differ");
        hits = r.0;
        best_rust = best_rust.min(r.1);
        best_port = best_port.min(p.1);
        ratios.push(p.1 / r.1);
    }
    ratios.sort_by(f64::total_cmp);
    println!(
        "{name:40} {:5.2} of the Rust's time (median of rounds {:.2}; {best_port:.1} ns to {best_rust:.1} ns; {inputs} inputs, {hits} yes)",
        best_port / best_rust,
        ratios[ratios.len() / 2],
    );
}

fn option(name: &str, default: u64) -> u64 {
    let words: Vec<String> = std::env::args().collect();
    let given = words.iter().position(|w| w == name).and_then(|i| words.get(i + 1)).and_then(|n| n.parse().ok());
    given.unwrap_or(default)
}

const INPUTS: usize = 20_000;
/// What one legacy advertisement holds.
const LEGACY: usize = 31;

fn searches(seed: u64, keep: fn(&Case) -> bool) -> Vec<Case> {
    let mut r = Random::new(seed);
    let mut cases = Vec::with_capacity(INPUTS);
    let mut i = 0;
    while cases.len() < INPUTS {
        let mut c = Case::default();
        inputs::search(&mut r, i, &mut c);
        i += 1;
        if keep(&c) {
            cases.push(c);
        }
    }
    cases
}

/// A head's usual payload: flags, a list and a name; a quarter of them list the service.
fn usual(seed: u64) -> Vec<Case> {
    let mut r = Random::new(seed);
    (0..INPUTS)
        .map(|_| {
            let [lo, hi] = r.of(&[0x180Fu16, 0x180A, 0x1810, 0xFEED]).to_le_bytes();
            let mut data = vec![2, 1, 6, 7, 3, 0x0A, 0x18, 0x12, 0x18, lo, hi, 8, 9];
            data.extend(b"Bay 042");
            Case {
                data,
                uuid: slow::short(r.of(&[0x180F, 0x1810])),
                ..Case::default()
            }
        })
        .collect()
}

fn main() {
    let (seed, rounds) = (option("seed", 1), option("rounds", 200) as usize);
    for (name, cases) in [
        ("search, usual payloads", usual(seed)),
        ("search, mixed up to 31 bytes", searches(seed, |c| c.data.len() <= LEGACY)),
        ("search, mixed of any length", searches(seed, |_| true)),
    ] {
        compare(name, INPUTS, rounds, || search(rust_search, &cases), || search(barleyrope_lists_service, &cases));
        compare(&format!("three-way {name}"), INPUTS, rounds, || search(rust_search, &cases), || presences(barleyrope_service_presence, &cases));
    }
    let mut r = Random::new(seed);
    let mut c = Case::default();
    let cases: Vec<_> = (0..INPUTS as u64)
        .map(|i| {
            inputs::params(&mut r, i, &mut c);
            c.params()
        })
        .collect();
    compare("parameter test", INPUTS, rounds, || params(rust_params, &cases), || params(barleyrope_params_good, &cases));
}
