//! Calls and answers for a person's eyes.

use crate::trace::{Batch, Call, NAMES, answer};

fn text(line: &[u8]) -> String {
    String::from_utf8_lossy(line).into_owned()
}

fn hex(bytes: &[u8]) -> String {
    if bytes.len() > 300 {
        return format!("{}.. ({} bytes)", hex(&bytes[..64]), bytes.len());
    }
    bytes.iter().map(|b| format!("{b:02x}")).collect()
}

/// The line as it is, or its two ends.
pub fn brief(line: Option<&[u8]>) -> String {
    match line {
        None => "(no answer)".into(),
        Some(l) if l.len() > 800 => format!("{} .. {}", text(&l[..400]), text(&l[l.len() - 200..])),
        Some(l) => text(l),
    }
}

/// Where two lines part: the words about it, and the part of a dump that it is in.
pub fn contrast(wanted: &[u8], got: Option<&[u8]>) -> String {
    let (a, b) = (text(wanted), text(got.unwrap_or_default()));
    let (a, b): (Vec<&str>, Vec<&str>) = (a.split(' ').collect(), b.split(' ').collect());
    let at = (0..a.len().max(b.len())).find(|i| a.get(*i) != b.get(*i)).unwrap_or(0);
    let part = a[..at.min(a.len())]
        .iter()
        .rposition(|w| w.len() > 1 && w.bytes().all(|c| c.is_ascii_lowercase() || c == b'_') && *w != "none");
    let place = part.map_or(String::new(), |p| format!(", {} words behind `{}`", at - p, a[p]));
    let about = |w: &[&str]| w[at.saturating_sub(3).min(w.len())..w.len().min(at + 4)].join(" ");
    format!("word {at}{place}: oracle .. {} .., port .. {} ..", about(&a), about(&b))
}

pub fn call(c: &Call) -> String {
    let name = NAMES[usize::from(c.tag())];
    match c {
        Call::Batch(Batch { now, steps, .. }) => {
            let mut out = format!("batch at {now}, steps {}", steps.len());
            for s in steps {
                out += &format!("\n      {}", text(&answer::step(s)));
            }
            out
        }
        Call::Timer { now } => format!("timer at {now}"),
        Call::Connected { at, handle } => format!("connected at {at}, handle {handle}"),
        Call::Disconnected { at } => format!("disconnected at {at}"),
        Call::Advertising { at, channel, pdu, address, random, to_central, data } => format!(
            "advertising at {at}, channel {channel}, PDU {pdu}, address {}, random {random}, to central {to_central}, data {}",
            hex(address),
            hex(data)
        ),
        Call::ScanResponse { at, address, random, data } => {
            format!("scan_response at {at}, address {}, random {random}, data {}", hex(address), hex(data))
        }
        Call::Fragment { at, start, data } => {
            format!("fragment at {at}, {}, data {}", if *start { "start" } else { "continuation" }, hex(data))
        }
        Call::Result { index } | Call::PassedOn { index } => format!("{name} {index}"),
        Call::FreshWith { options } => format!("{name} {options}"),
        _ => name.into(),
    }
}
