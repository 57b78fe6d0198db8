//! The files of tests/attacks: calls in words, and behind each what its line must be (docs/TRACE.md, 'Attacks').

use crate::trace::{Batch, Call, four, one};
use oracle::ble::central::{Step, Target, Uuid};
use std::str::{FromStr, SplitWhitespace};

/// A line of a file that makes calls, and what is said of their answers.
pub struct Turn {
    pub number: usize,
    pub text: String,
    /// One, or those of a `repeat`.
    pub calls: Vec<Call>,
    /// The whole line of each.
    pub line: Option<String>,
    /// What stands in the line of each.
    pub parts: Vec<String>,
    /// Whether the Rust has an answer.
    pub rust: bool,
}

pub struct Attack {
    pub turns: Vec<Turn>,
}

type Words<'a> = SplitWhitespace<'a>;

fn word<'a>(w: &mut Words<'a>, what: &str) -> Result<&'a str, String> {
    w.next().ok_or(format!("{what} is missing"))
}

fn number<T: FromStr>(w: &mut Words, what: &str) -> Result<T, String> {
    let text = word(w, what)?;
    text.parse().map_err(|_| format!("{text} is no {what}"))
}

/// The next word must be this one.
fn named(w: &mut Words, name: &str) -> Result<(), String> {
    let got = word(w, name)?;
    if got == name { Ok(()) } else { Err(format!("{got} stands where {name} is wanted")) }
}

fn flag(w: &mut Words, no: &str, yes: &str) -> Result<bool, String> {
    let got = word(w, yes)?;
    if got == no || got == yes { Ok(got == yes) } else { Err(format!("{got} is neither {no} nor {yes}")) }
}

fn uuid(w: &mut Words) -> Result<Uuid, String> {
    let text = word(w, "UUID")?;
    Uuid::parse(text).ok_or(format!("{text} is no UUID"))
}

/// Hex digits; `41*3` is `414141`.
fn expanded(word: &str) -> Option<String> {
    let Some((digits, times)) = word.rsplit_once('*') else {
        return Some(word.to_owned());
    };
    let (before, last) = digits.split_at_checked(digits.len().checked_sub(2)?)?;
    Some(format!("{before}{}", last.repeat(times.parse().ok()?)))
}

/// All words that are left.
fn bytes<'a>(words: &mut impl Iterator<Item = &'a str>) -> Result<Vec<u8>, String> {
    let mut all = Vec::new();
    for text in words {
        let wrong = || format!("{text} is no byte");
        let digits = expanded(text).filter(|d| d.is_ascii() && d.len() % 2 == 0).ok_or_else(wrong)?;
        for at in (0..digits.len()).step_by(2) {
            all.push(u8::from_str_radix(&digits[at..at + 2], 16).map_err(|_| wrong())?);
        }
    }
    Ok(all)
}

/// `random` or `public`, and the address as a line has it; with `+` behind it, one more in each turn.
fn address(w: &mut Words, turn: u64) -> Result<([u8; 6], bool), String> {
    let (random, text) = (flag(w, "public", "random")?, word(w, "address")?);
    let (digits, step) = text.strip_suffix('+').map_or((text, 0), |d| (d, turn));
    let n = u64::from_str_radix(digits, 16).ok().filter(|_| digits.len() == 12);
    let n = n.ok_or(format!("{text} is no address"))? + step;
    Ok((n.to_le_bytes()[..6].try_into().expect("6 bytes"), random))
}

fn connect(w: &mut Words) -> Result<Step, String> {
    let (interval, latency, timeout) = (number(w, "interval")?, number(w, "latency")?, number(w, "timeout")?);
    let within_ms = number(w, "time")?;
    let target = match word(w, "target")? {
        "any" => Target::Any,
        "address" => {
            let (address, random) = address(w, 0)?;
            Target::Address { address, random }
        }
        "service" => Target::Service(uuid(w)?),
        other => return Err(format!("{other} is no target")),
    };
    Ok(Step::Connect { target, interval, latency, timeout, within_ms })
}

/// `UUID MS BYTES`, and of an aged one `aged MS` behind them.
fn wait_notification(w: &mut Words) -> Result<Step, String> {
    let (characteristic, within_ms) = (uuid(w)?, number(w, "time")?);
    let mut is_aged = false;
    let contains = bytes(&mut w.by_ref().take_while(|text| {
        is_aged = *text == "aged";
        !is_aged
    }))?;
    let age_ms = if is_aged { Some(number(w, "age")?) } else { None };
    Ok(one::wait(characteristic, contains, within_ms, age_ms))
}

fn step(text: &str) -> Result<Step, String> {
    let w = &mut text.split_whitespace();
    let made = match word(w, "step")? {
        "scan" => Step::Scan { ms: number(w, "time")? },
        "connect" => connect(w)?,
        "exchange_mtu" => Step::ExchangeMtu { mtu: number(w, "MTU")? },
        "discover_services" => Step::DiscoverServices,
        "discover_characteristics" => Step::DiscoverCharacteristics { service: uuid(w)? },
        "subscribe" => Step::Subscribe { characteristic: uuid(w)?, indicate: flag(w, "notify", "indicate")? },
        "write" => Step::Write { characteristic: uuid(w)?, value: bytes(w)?, with_response: true },
        "write_command" => Step::Write { characteristic: uuid(w)?, value: bytes(w)?, with_response: false },
        "read" => Step::Read { characteristic: uuid(w)? },
        "wait_notification" => wait_notification(w)?,
        "wait" => Step::Wait { ms: number(w, "time")? },
        "disconnect" => Step::Disconnect,
        other => return Err(format!("{other} is no step")),
    };
    w.next().map_or(Ok(made), |more| Err(format!("{more} is too much")))
}

fn batch(now: u64, w: &mut Words) -> Result<Call, String> {
    let text = w.collect::<Vec<_>>().join(" ");
    let steps: Result<Vec<Step>, String> = text.split(',').map(step).collect();
    Ok(Call::Batch(Batch::new(now, steps?)))
}

/// A call, as it is in this turn of a `repeat`: `later` microseconds later.
fn call(text: &str, turn: u64, later: u64) -> Result<Call, String> {
    let w = &mut text.split_whitespace();
    let name = word(w, "call")?;
    let time = |w: &mut Words| number::<u64>(w, "time").map(|at| at + later);
    let made = match name {
        "batch" => {
            let now = time(w)?;
            batch(now, w)?
        }
        "timer" => Call::Timer { now: time(w)? },
        "connected" => Call::Connected { at: time(w)?, handle: number(w, "handle")? },
        "disconnected" => Call::Disconnected { at: time(w)? },
        "advertising" => {
            let at = time(w)?;
            named(w, "channel")?;
            let channel = number(w, "channel")?;
            named(w, "type")?;
            let pdu = number(w, "PDU type")?;
            let (address, random) = address(w, turn)?;
            let to_central = flag(w, "data", "to_us")?;
            if to_central {
                named(w, "data")?;
            }
            Call::Advertising { at, channel, pdu, address, random, to_central, data: bytes(w)? }
        }
        "scan_response" => {
            let (at, (address, random)) = (time(w)?, address(w, turn)?);
            named(w, "data")?;
            Call::ScanResponse { at, address, random, data: bytes(w)? }
        }
        "fragment" => Call::Fragment { at: time(w)?, start: flag(w, "more", "start")?, data: bytes(w)? },
        "att" => {
            let (at, pdu) = (time(w)?, bytes(w)?);
            let mut data = (pdu.len() as u16).to_le_bytes().to_vec();
            data.extend_from_slice(&[4, 0]);
            data.extend_from_slice(&pdu);
            Call::Fragment { at, start: true, data }
        }
        "timer_us" => Call::TimerUs,
        "connected_handle" => Call::ConnectedHandle,
        "result" => Call::Result { index: number(w, "index")? },
        "dump" => Call::Dump,
        "links" => Call::Links,
        "fresh_with" => Call::FreshWith { options: u64::from(flag(w, "old", "strict")?) * four::STRICT },
        "mode" => Call::Mode,
        "passed_on" => Call::PassedOn { index: number(w, "index")? },
        other => return Err(format!("{other} is no call")),
    };
    w.next().map_or(Ok(made), |more| Err(format!("{more} is too much")))
}

/// One call, or `repeat COUNT [every MICROSECONDS] CALL`.
fn calls(text: &str) -> Result<Vec<Call>, String> {
    let Some(rest) = text.strip_prefix("repeat ") else {
        return Ok(vec![call(text, 0, 0)?]);
    };
    let parted = |text: &str| text.split_once(' ').map(|(a, b)| (a.to_owned(), b.to_owned()));
    let short = "a repeat needs a count and a call";
    let (count, mut rest) = parted(rest).ok_or(short)?;
    let count: u64 = count.parse().map_err(|_| format!("{count} is no count"))?;
    let mut every = 0;
    if let Some(timed) = rest.strip_prefix("every ") {
        let (time, behind) = parted(timed).ok_or(short)?;
        every = time.parse().map_err(|_| format!("{time} is no time"))?;
        rest = behind;
    }
    (0..count).map(|i| call(&rest, i, i * every)).collect()
}

/// A line that is wanted, with its repeated bytes written out.
fn wanted(text: &str) -> Result<String, String> {
    let words: Option<Vec<String>> = text.split_whitespace().map(expanded).collect();
    Ok(words.ok_or("a repetition can't be read")?.join(" "))
}

/// The lines that count, with those that begin with a space joined to the one before; a comment ends at the line's end.
fn joined(text: &str) -> Vec<(usize, String)> {
    let mut all: Vec<(usize, String)> = Vec::new();
    for (i, line) in text.lines().enumerate() {
        let said = if line.starts_with('#') { "" } else { line.split_once(" #").map_or(line, |(a, _)| a) };
        match all.last_mut() {
            _ if said.trim().is_empty() => {}
            Some((_, before)) if said.starts_with(' ') => *before += &format!(" {}", said.trim()),
            _ => all.push((i + 1, said.trim().to_owned())),
        }
    }
    all
}

pub fn read(text: &str) -> Result<Attack, (usize, String)> {
    let fresh =
        Turn { number: 1, text: "fresh".into(), calls: vec![Call::Fresh], line: None, parts: Vec::new(), rust: true };
    let (mut turns, mut rust) = (vec![fresh], true);
    for (at, line) in joined(text) {
        let last = turns.last_mut().expect("the first");
        let mut said = || -> Result<Option<Turn>, String> {
            if line == "port alone" {
                rust = false;
            } else if let Some(whole) = line.strip_prefix("> ") {
                if last.line.replace(wanted(whole)?).is_some() {
                    return Err("a second line for one call".into());
                }
            } else if let Some(part) = line.strip_prefix("~ ") {
                last.parts.push(wanted(part)?);
            } else {
                let calls = calls(&line)?;
                return Ok(Some(Turn { number: at, text: line.clone(), calls, line: None, parts: Vec::new(), rust }));
            }
            Ok(None)
        };
        let more = said().map_err(|why| (at, why))?;
        turns.extend(more);
    }
    // Whoever wrote it has said what is done to the library, what it does, and the rule.
    let names_a_rule = |l: &str| l.starts_with("# 01, ") || l.starts_with("# 02, ");
    if !text.lines().take_while(|l| l.starts_with("# ")).any(names_a_rule) {
        return Err((1, "it begins with no comment that names a rule of 01 or 02 ('# 01, ..')".into()));
    }
    if turns.iter().all(|t| t.line.is_none() && t.parts.is_empty()) {
        return Err((1, "it expects nothing".into()));
    }
    turns.push(Turn {
        number: text.lines().count(),
        text: "dump, at the end".into(),
        calls: vec![Call::Dump],
        line: None,
        parts: Vec::new(),
        rust,
    });
    Ok(Attack { turns })
}
