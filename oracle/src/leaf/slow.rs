//! Where a matched body and a name stand, and why a service that is not listed may be there, which the Rust does not tell: computed another way than the port does, with
//! the structures taken apart first and every UUID widened to its number.
pub use super::port::Number;

const BASE: Number = 0x0000_0000_0000_1000_8000_0080_5F9B_34FB;

pub fn short(v: u32) -> Number {
    BASE + (Number::from(v) << 96)
}

/// The kind, the start and the length of each structure's body.
pub fn structures(data: &[u8]) -> Vec<(u8, usize, usize)> {
    let mut all = Vec::new();
    let mut rest = data;
    while let [len, tail @ ..] = rest {
        let len = usize::from(*len);
        if len == 0 || tail.len() < len {
            break;
        }
        all.push((tail[0], data.len() - tail.len() + 1, len - 1));
        rest = &tail[len..];
    }
    all
}

pub fn width(kind: u8) -> usize {
    match kind {
        2..=3 => 2,
        4..=5 => 4,
        6..=7 => 16,
        _ => 0,
    }
}

fn lists(kind: u8, body: &[u8], uuid: Number) -> bool {
    let wide = |u: &[u8]| {
        let v = u.iter().rev().fold(0, |n: Number, b| n << 8 | Number::from(*b));
        if u.len() == 16 { v } else { short(v as u32) }
    };
    match width(kind) {
        0 => false,
        w => (0..body.len() / w).any(|i| wide(&body[i * w..(i + 1) * w]) == uuid),
    }
}

/// The kind and the place of the first structure that lists the UUID.
pub fn listed(data: &[u8], uuid: Number) -> Option<(u8, (usize, usize))> {
    structures(data)
        .into_iter()
        .find(|&(kind, start, count)| lists(kind, &data[start..start + count], uuid))
        .map(|(kind, start, count)| (kind, (start, count)))
}

/// The place of the first structure that is a name, if one is there.
pub fn named(data: &[u8]) -> Option<(usize, usize)> {
    structures(data).into_iter().find(|(kind, _, _)| matches!(kind, 8 | 9)).map(|(_, start, count)| (start, count))
}

/// Why a service that is not listed may be there all the same (02, Five).
#[derive(Clone, Copy, Debug, PartialEq)]
pub enum Cause {
    Incomplete16,
    Incomplete32,
    Incomplete128,
    Overrun,
}

/// The causes in data, each once: a list of kind 02, 04 or 06 was read; the reading stopped on an overrun.
pub fn causes(data: &[u8]) -> Vec<Cause> {
    let read = structures(data);
    let mut all: Vec<Cause> = [(2, Cause::Incomplete16), (4, Cause::Incomplete32), (6, Cause::Incomplete128)]
        .into_iter()
        .filter(|(kind, _)| read.iter().any(|s| s.0 == *kind))
        .map(|(_, cause)| cause)
        .collect();
    // Behind the last structure stands the end of the data, a zero, or a length that has too little behind it.
    let end = read.last().map_or(0, |(_, start, count)| start + count);
    if data.get(end).is_some_and(|len| *len != 0) {
        all.push(Cause::Overrun);
    }
    all
}
