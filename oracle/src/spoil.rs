//! Spoilt traces: whatever the bytes are, a player answers each record that can be read, says in one line what
//! can't be, and ends by itself (docs/TRACE.md). And one trace live: each record is answered before the next is there.
//!
//!   spoil PORT [SEED [COUNT]]

#[path = "compare/asked.rs"]
mod asked;
#[allow(dead_code)]
#[path = "compare/port.rs"]
mod port;
#[allow(dead_code)]
mod sequence;
#[allow(dead_code)]
mod trace;

use asked::Asked;
use sequence::counts::Counts;
use sequence::rng::Rng;
use sequence::{Groups, Plan, record};
use std::io::{Read, Write};
use std::process::{Command, ExitCode, Stdio};
use trace::{HEADER, MOST_FRAGMENT, MOST_STEPS, MOST_VALUES, NAMES, STEP, TAGS, one};

/// How each line begins, and the status that a player ends with if it has one to give; else that is 0.
fn wanted(bytes: &[u8]) -> (Vec<&'static str>, i32) {
    let (mut from, mut lines) = (bytes, Vec::new());
    loop {
        match trace::next(&mut from) {
            Ok(None) => return (lines, 0),
            Ok(Some(call)) => lines.push(NAMES[usize::from(call.tag())]),
            Err(bad) => {
                lines.push(bad.line());
                return (lines, 1);
            }
        }
    }
}

fn run(port: &str, bytes: &[u8]) -> Result<(Vec<String>, Option<i32>), String> {
    let mut child = Command::new(port)
        .stdin(Stdio::piped())
        .stdout(Stdio::piped())
        .spawn()
        .map_err(|e| format!("{port} can't be started: {e}"))?;
    let (mut to, mut from) = (child.stdin.take().expect("piped"), child.stdout.take().expect("piped"));
    let bytes = bytes.to_vec();
    // A player that has ended reads no more: that is no error.
    let writer = std::thread::spawn(move || to.write_all(&bytes).is_ok());
    let mut text = Vec::new();
    from.read_to_end(&mut text).map_err(|e| e.to_string())?;
    let _ = writer.join();
    let status = child.wait().map_err(|e| e.to_string())?;
    Ok((String::from_utf8_lossy(&text).lines().map(str::to_owned).collect(), status.code()))
}

fn header(tag: u8, len: u32) -> Vec<u8> {
    let mut out = vec![tag];
    out.extend_from_slice(&len.to_le_bytes());
    out
}

fn filled(tag: u8, len: usize) -> Vec<u8> {
    let mut out = header(tag, len as u32);
    out.resize(HEADER + len, 0);
    out
}

/// A batch of this count with these step records and so many bytes of values.
fn batch(count: u32, steps: &[[u8; STEP]], values: usize) -> Vec<u8> {
    let mut out = filled(trace::tag::BATCH, 12 + steps.len() * STEP + values);
    out[HEADER + 8..HEADER + 12].copy_from_slice(&count.to_le_bytes());
    for (i, s) in steps.iter().enumerate() {
        let at = HEADER + 12 + i * STEP;
        out[at..at + STEP].copy_from_slice(s);
    }
    out
}

fn step(kind: u8, flag: u8, random: u8) -> [u8; STEP] {
    let mut s = [0; STEP];
    s[..3].copy_from_slice(&[kind, flag, random]);
    s
}

/// The borders of the format.
fn borders() -> Vec<Vec<u8>> {
    let mut all = vec![Vec::new(), vec![0], header(0, 0)[..4].to_vec(), header(TAGS as u8, 0), header(255, u32::MAX)];
    for tag in 0..TAGS as u8 {
        for len in [0, 1, 3, 4, 5, 7, 8, 9, 10, 11, 12, 14, 15, 17, 18, 270, 271, 273, 274] {
            all.push(filled(tag, len));
        }
        all.push(header(tag, u32::MAX));
        all.push(header(tag, 70_000));
        all.push(header(tag, 8));
    }
    all.extend([filled(7, 9 + MOST_FRAGMENT), filled(7, 10 + MOST_FRAGMENT)]);
    for kind in 0..=13 {
        for (flag, random) in [(0, 0), (1, 0), (1, 1), (1, 2), (2, 0), (3, 0), (255, 255)] {
            all.push(batch(1, &[step(kind, flag, random)], 0));
        }
    }
    let full = [step(11, 0, 0); MOST_STEPS];
    all.extend([batch(0, &[], MOST_VALUES), batch(0, &[], MOST_VALUES + 1), batch(1, &[], 0), batch(2, &full[..1], 0)]);
    all.extend([batch(64, &full, MOST_VALUES), batch(64, &full, MOST_VALUES + 1), batch(65, &full, 0)]);
    all.extend([batch(u32::MAX, &full, 0), batch(u32::MAX, &full[..63], 0)]);
    for flag in [1, 2, 255] {
        for (tag, at) in [(5, 16), (5, 17), (6, 14), (7, 8)] {
            let mut r = filled(tag, 18);
            r[HEADER + at] = flag;
            all.push(r);
        }
    }
    all
}

fn spoil(rng: &mut Rng, mut bytes: Vec<u8>) -> Vec<u8> {
    match rng.below(5) {
        0 => bytes.truncate(rng.size(0, bytes.len())),
        1 => {
            for _ in 0..rng.within(1, 20) {
                let at = rng.size(0, bytes.len() - 1);
                bytes[at] = rng.byte();
            }
        }
        2 => {
            let (at, n) = (rng.size(0, bytes.len()), rng.size(1, 9));
            bytes.splice(at..at, rng.bytes(n));
        }
        3 => {
            let at = rng.size(0, bytes.len() - 1);
            let to = (at + rng.size(1, 9)).min(bytes.len());
            bytes.drain(at..to);
        }
        _ => {
            let n = rng.size(0, 400);
            bytes = rng.bytes(n);
            // A tag that there is, so that more is read than that.
            if let Some(b) = bytes.first_mut() {
                *b %= TAGS as u8;
            }
            bytes.iter_mut().skip(2).take(3).for_each(|b| *b = 0);
        }
    }
    bytes
}

fn main() -> ExitCode {
    let words: Vec<String> = std::env::args().skip(1).collect();
    let Some(port) = words.first() else {
        eprintln!("spoil PORT [SEED [COUNT]]");
        return ExitCode::FAILURE;
    };
    let number = |i: usize, or: u64| words.get(i).and_then(|w| w.parse().ok()).unwrap_or(or);
    let (seed, count) = (number(1, 1), number(2, 300));
    let groups = Groups { radio: true, link: true };
    let plan = Plan { seed, groups, refusals: true, aged: one::IS_THERE, strict: one::IS_THERE, calls: 60, dumps: 2 };
    let (mut rng, mut counts) = (Rng::new(seed, 1 << 40), Counts::default());
    let mut all = borders();
    for i in 0..count {
        let bytes = record(plan, i, &mut counts).bytes();
        all.push(spoil(&mut rng, bytes));
    }
    let mut lines = 0;
    for (i, bytes) in all.iter().enumerate() {
        let (wanted, status) = wanted(bytes);
        let (got, ended) = match run(port, bytes) {
            Ok(x) => x,
            Err(e) => {
                eprintln!("{e}");
                return ExitCode::FAILURE;
            }
        };
        let fits = |(w, g): (&&str, &String)| {
            if w.starts_with("bad") { w == g } else { g.split(' ').next() == Some(w) }
        };
        if got.len() != wanted.len() || !wanted.iter().zip(&got).all(fits) || ended != Some(0) && ended != Some(status)
        {
            let _ = std::fs::write("target/spoilt.trace", bytes);
            println!("spoilt trace {i}: {} lines for {}, status {ended:?} for {status}", got.len(), wanted.len());
            println!("  last wanted: {:?}, last: {:?}\nwritten to target/spoilt.trace", wanted.last(), got.last());
            return ExitCode::FAILURE;
        }
        lines += got.len();
    }
    println!("spoilt traces {}, lines {lines}: each answered or told", all.len());
    let (mut live, calls) = (port::Live::new(port), record(plan, count, &mut counts).calls);
    for (i, call) in calls.iter().enumerate() {
        if live.ask(call).is_none() {
            println!("live: record {i} of {} is not answered", calls.len());
            return ExitCode::FAILURE;
        }
    }
    println!("live records {}: each answered before the next", calls.len());
    ExitCode::SUCCESS
}
