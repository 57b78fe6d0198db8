//! How many bytes the port's search compares, beside joining the values and searching them from left to right: `comparisons [seed N]
//! [count N]`. `search` is the port's own text, with counters (oracle/comparisons).

#[allow(dead_code)]
#[path = "sequence/rng.rs"]
mod rng;

use rng::Rng;
use search::count::{differ, taken};
use search::notifications::{Age, Wanted};
use search::state_places::{MAX_VALUE, NOTIFICATIONS_AT};
use search::time::Micros;
use search::words::{NOTIFICATION, SIZE};
use search::words_notification::is_found;
use std::process::ExitCode;

const KEPT: usize = 32;
/// The handle that is waited for.
const OWN: u16 = 1;

/// What is kept, and what is looked for.
struct Input {
    kept: Vec<(u16, Vec<u8>)>,
    needle: Vec<u8>,
}

/// What each of the two did.
#[derive(Default)]
struct Cost {
    in_place: u64,
    /// Of which so many times the words of a notification.
    read: u64,
    joining: u64,
    /// Bytes that joining copies.
    copied: u64,
    found: bool,
}

fn in_place(input: &Input) -> bool {
    let (mut tables, mut store) = ([0; SIZE], vec![0; NOTIFICATIONS_AT + KEPT * MAX_VALUE]);
    for (i, (handle, value)) in input.kept.iter().enumerate() {
        tables[NOTIFICATION + i] = u64::from(*handle) | (value.len() as u64) << 56;
        store[NOTIFICATIONS_AT + i * MAX_VALUE..][..value.len()].copy_from_slice(value);
    }
    store[..input.needle.len()].copy_from_slice(&input.needle);
    let wanted = Wanted { handle: OWN, age: Age::Any, link: None, now: Micros(0) };
    is_found(&tables, input.kept.len(), 0, wanted, &store, 0, input.needle.len())
}

/// At each place from left to right, each byte from left to right up to the first that differs.
fn by_joining(joined: &[u8], needle: &[u8]) -> bool {
    joined.windows(needle.len()).any(|w| w.iter().zip(needle).all(|(a, b)| !differ(*a, *b)))
}

fn cost(input: &Input) -> Cost {
    let own = input.kept.iter().filter(|(handle, _)| *handle == OWN);
    let joined: Vec<u8> = own.flat_map(|(_, value)| value.iter().copied()).collect();
    taken();
    let found = in_place(input);
    let (in_place, read) = taken();
    assert_eq!(found, by_joining(&joined, &input.needle), "the two searches differ");
    Cost { in_place, read, joining: taken().0, copied: joined.len() as u64, found }
}

fn letters(r: &mut Rng, n: usize, of: &[u8]) -> Vec<u8> {
    (0..n).map(|_| *r.pick(of)).collect()
}

/// Values of one letter, two or three, of any length, and a needle that is a piece of them, nearly one, or of the same letters.
fn random(r: &mut Rng) -> Input {
    let of = &b"FRE"[..r.size(1, 3)];
    let most = *r.pick(&[1, 3, 20, MAX_VALUE]);
    let kept: Vec<(u16, Vec<u8>)> = (0..r.size(0, KEPT))
        .map(|_| {
            let (handle, n) = (if r.chance(20) { OWN + 1 } else { OWN }, r.size(0, most));
            (handle, letters(r, n, of))
        })
        .collect();
    let joined: Vec<u8> = kept.iter().filter(|k| k.0 == OWN).flat_map(|k| k.1.iter().copied()).collect();
    let n = if r.flip() { r.size(1, MAX_VALUE) } else { r.size(1, 12) };
    let mut needle = if joined.len() >= n && r.chance(70) {
        let at = r.size(0, joined.len() - n);
        joined[at..at + n].to_vec()
    } else {
        letters(r, n, of)
    };
    if r.flip() {
        needle[n - 1] = b'!';
    }
    Input { kept, needle }
}

/// Equal bytes, and a needle with another in its last place.
fn worst(each: usize, needle: usize) -> Input {
    let mut needle = vec![b'A'; needle];
    *needle.last_mut().expect("a byte") = b'B';
    Input { kept: vec![(OWN, vec![b'A'; each]); KEPT], needle }
}

fn option(name: &str, default: u64) -> u64 {
    std::env::args().skip_while(|w| w != name).nth(1).and_then(|n| n.parse().ok()).unwrap_or(default)
}

fn main() -> ExitCode {
    let (mut all, mut found, mut more) = (Cost::default(), 0u64, 0u64);
    let count = option("count", 20_000);
    let mut see = |c: &Cost| more += u64::from(c.in_place > c.joining);
    for i in 0..count {
        let c = cost(&random(&mut Rng::new(option("seed", 1), i)));
        see(&c);
        all.in_place += c.in_place;
        all.read += c.read;
        all.joining += c.joining;
        all.copied += c.copied;
        found += u64::from(c.found);
    }
    println!(
        "{count} searches, {found} of them found: {} bytes compared in place, {} by joining",
        all.in_place, all.joining
    );
    println!("joining copies {} bytes, in place {} notifications are read", all.copied, all.read);
    for each in [1, MAX_VALUE] {
        for needle in 1..=MAX_VALUE {
            let c = cost(&worst(each, needle));
            see(&c);
            if [2, 4, 8, 16, 32, 61, 122, MAX_VALUE].contains(&needle) && needle <= KEPT * each {
                let Cost { in_place, joining, copied, read, .. } = c;
                println!(
                    "equal bytes, 32 of {each}, a needle of {needle}: {in_place} bytes compared in place, {joining} by joining; \
                     {copied} copied, {read} read"
                );
            }
        }
    }
    println!("searches that compare more in place: {more}");
    if more == 0 { ExitCode::SUCCESS } else { ExitCode::FAILURE }
}
