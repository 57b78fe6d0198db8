//! Named attacks: each file of tests/attacks has calls as a hostile head brings them about, and the lines that the library must
//! answer. They are played on the port and on the Rust, where that has an answer.
//!
//!   attacks PORT FILE..
//!
//! PORT is a program that plays a trace (docs/TRACE.md), or `-` for none: the Rust alone is then asked. A line that is expected must
//! be the port's and the Rust's; where none is, the two must be equal, and so must their states at the end. Ends with 1 at the first
//! difference.

#[allow(dead_code)]
#[path = "compare/asked.rs"]
mod asked;
mod attack {
    pub mod file;
}
#[allow(dead_code)]
#[path = "compare/port.rs"]
mod port;
#[allow(dead_code)]
mod trace;

use attack::file::{self, Turn};
use oracle::ble::central::Central;
use port::Stream;
use std::process::ExitCode;
use std::sync::mpsc::SyncSender;
use trace::Call;
use trace::answer;

/// How much of a line is shown.
const SHOWN: usize = 600;

/// The port's program, in which all attacks are played one after another.
struct Port(Option<(Stream, SyncSender<Vec<u8>>)>);

impl Port {
    fn start(path: &str) -> Result<Port, String> {
        Ok(Port(if path == "-" { None } else { Some(Stream::start(path)?) }))
    }

    fn send(&self, turns: &[Turn]) {
        let mut bytes = Vec::new();
        turns.iter().flat_map(|t| &t.calls).for_each(|call| call.put(&mut bytes));
        if let Some((_, to)) = &self.0 {
            // A program that has ended gives no line: that is told there.
            let _ = to.send(bytes);
        }
    }

    fn line(&mut self) -> Option<String> {
        let (from, _) = self.0.as_mut()?;
        Some(from.line().map_or("(nothing)".into(), |l| String::from_utf8_lossy(&l).into_owned()))
    }
}

fn judged(central: &mut Central, call: &Call) -> String {
    let answer = answer::judge(central, call).0;
    String::from_utf8_lossy(&answer::line(call, &answer, central)).into_owned()
}

/// Whether the words of `part` stand in the line one after another.
fn has(line: &str, part: &str) -> bool {
    format!(" {line} ").contains(&format!(" {part} "))
}

/// Whether these are all lines that the turn expects, or equal where it expects none.
fn is_good(turn: &Turn, lines: &[&String]) -> bool {
    let whole = |l: &&String| turn.line.as_ref().is_none_or(|w| w == *l);
    let parts = |l: &&String| turn.parts.iter().all(|p| has(l, p));
    lines.iter().all(|l| whole(l) && parts(l)) && lines.windows(2).all(|w| w[0] == w[1])
}

fn cut(line: &str) -> String {
    let mut text: String = line.chars().take(SHOWN).collect();
    if text.len() < line.len() {
        text += " ..";
    }
    text
}

fn difference(turn: &Turn, i: usize, port: Option<String>, rust: Option<String>) -> String {
    let mut text = turn.text.clone();
    if turn.calls.len() > 1 {
        text += &format!(" (turn {i})");
    }
    let wanted = turn.line.iter().map(|l| ("wanted", l));
    let parts = turn.parts.iter().map(|p| ("wanted in it", p));
    let got = port.iter().map(|l| ("the port", l)).chain(rust.iter().map(|l| ("the Rust", l)));
    for (who, line) in wanted.chain(parts).chain(got) {
        text += &format!("\n  {who:12}  {}", cut(line));
    }
    text
}

/// Plays one file, and hands back what it showed.
fn play(path: &str, port: &mut Port) -> Result<String, String> {
    let text = std::fs::read_to_string(path).map_err(|e| format!("{path}: {e}"))?;
    let attack = file::read(&text).map_err(|(at, why)| format!("{path}:{at}: {why}"))?;
    port.send(&attack.turns);
    let (mut central, mut calls, mut said, mut alone) = (Central::default(), 0, 0, 0);
    for turn in &attack.turns {
        for (i, call) in turn.calls.iter().enumerate() {
            let by_port = port.line();
            let by_rust = turn.rust.then(|| judged(&mut central, call));
            let lines: Vec<&String> = by_port.iter().chain(&by_rust).collect();
            if !is_good(turn, &lines) {
                return Err(format!("{path}:{}: {}", turn.number, difference(turn, i, by_port, by_rust)));
            }
            calls += 1;
            said += usize::from(turn.line.is_some() || !turn.parts.is_empty());
            alone += usize::from(!turn.rust);
        }
    }
    let name = path.rsplit('/').next().unwrap_or(path).trim_end_matches(".attack");
    let mut told = format!("{name}: {calls} calls, {said} with an expected line");
    if alone > 0 {
        told += &format!(", {alone} that the Rust has no answer to");
    }
    Ok(told)
}

fn all(mut words: impl Iterator<Item = String>) -> Result<usize, String> {
    let mut port = Port::start(&words.next().ok_or("attacks PORT FILE..")?)?;
    let mut count = 0;
    for path in words {
        println!("{}", play(&path, &mut port)?);
        count += 1;
    }
    if let Some((stream, _)) = port.0.as_mut() {
        stream.stop();
    }
    if count == 0 { Err("no file is named".into()) } else { Ok(count) }
}

fn main() -> ExitCode {
    match all(std::env::args().skip(1)) {
        Ok(count) => {
            println!("attacks {count}: each answered as its file says");
            ExitCode::SUCCESS
        }
        Err(why) => {
            println!("{why}");
            ExitCode::FAILURE
        }
    }
}
