//! What a feed of the H4 stream costs a byte, as a ratio to the Rust: `bench_h4 [rounds N]`.
//!
//! The port's export and the Rust's `feed` take the same bytes, packets of one size end to end, in feeds of one size; the Rust's packets
//! are dropped, as the port's output is written over. Both run in turn, round after round, the order changing; what is printed is the
//! ratio of the best times and the median of the rounds' own ratios. Times are the thread's own processor time. Both answer how many
//! packets and bytes came, which must be equal. The last rows are one feed of all bytes, in two sizes ten times apart.

#[path = "bench/clock.rs"]
mod clock;
#[allow(dead_code)]
#[path = "h4/exports.rs"]
mod exports;

use clock::ran;
use exports::Stream;
use oracle::ble::hci::{H4Stream, acl};
use std::hint::black_box;

/// Packets and bytes that came, and the nanoseconds that it took.
type Took = ((u64, u64), f64);

#[inline(never)]
fn rust(bytes: &[u8], feed: usize) -> Took {
    let mut stream = H4Stream::new();
    let began = ran();
    let mut came = (0, 0);
    for part in bytes.chunks(feed) {
        let packets = black_box(stream.feed(black_box(part))).expect("good packets");
        came.0 += packets.len() as u64;
        came.1 += packets.iter().map(|p| p.len() as u64).sum::<u64>();
    }
    (came, ran() - began)
}

#[inline(never)]
fn port(bytes: &[u8], feed: usize, out: &mut [u8]) -> Took {
    let mut stream = Stream::new();
    let began = ran();
    let mut came = (0, 0);
    for part in bytes.chunks(feed) {
        let told = black_box(stream.feed(black_box(part), out));
        assert_eq!(told[0], 0, "refused");
        came.0 += told[1];
        came.1 += told[2];
    }
    (came, ran() - began)
}

/// So many bytes of packets of a size.
fn packets(size: usize, total: usize) -> Vec<u8> {
    let data: Vec<u8> = (5..size).map(|i| i as u8).collect();
    acl(64, 2, &data).repeat(total / size)
}

fn row(name: &str, size: usize, feed: usize, total: usize, rounds: usize) {
    let bytes = packets(size, total);
    let mut out = vec![0; feed + exports::HELD];
    let (mut best, mut ratios) = ([f64::MAX; 2], Vec::new());
    for round in 0..rounds {
        let took = if round % 2 == 0 {
            let r = rust(&bytes, feed);
            (r, port(&bytes, feed, &mut out))
        } else {
            let p = port(&bytes, feed, &mut out);
            (rust(&bytes, feed), p)
        };
        assert_eq!(took.0.0, took.1.0, "{name}: the two sides differ");
        best = [best[0].min(took.0.1), best[1].min(took.1.1)];
        ratios.push(took.1.1 / took.0.1);
    }
    ratios.sort_by(f64::total_cmp);
    println!(
        "{name:48} {:6.2} of the Rust's time (median of rounds {:.2}; {:.3} ns to {:.3} ns a byte)",
        best[1] / best[0],
        ratios[ratios.len() / 2],
        best[1] / bytes.len() as f64,
        best[0] / bytes.len() as f64,
    );
}

fn main() {
    let words: Vec<String> = std::env::args().collect();
    let given = words.iter().position(|w| w == "rounds").and_then(|i| words.get(i + 1)).and_then(|n| n.parse().ok());
    let rounds = given.unwrap_or(200);
    for size in [5, 27, 251] {
        for feed in [1, 64, 4096] {
            let s = if feed == 1 { "" } else { "s" };
            row(&format!("h4 feed, packets of {size}, feeds of {feed} byte{s}"), size, feed, 100_000, rounds);
        }
    }
    for total in [10_000, 100_000] {
        row(&format!("h4 feed, packets of 27, one feed of {total} bytes"), 27, total, total, rounds);
    }
}
