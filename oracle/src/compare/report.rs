//! What a run showed, and what it ought to have shown.

use crate::options::Options;
use crate::sequence::Plan;
use crate::sequence::checks::{AGES, READ, WAYS};
use crate::sequence::closings;
use crate::sequence::counts::{Counts, KINDS, STATUSES, seen};
use crate::sequence::searches::{self, FINDS, LENGTHS};
use crate::trace::{NAMES, gate, tag};
use std::time::Duration;

const OK: usize = 0;
const TIMEOUT: usize = 1;
const NOT_CONNECTED: usize = 2;
const NOT_FOUND: usize = 3;
const ATT_ERROR: usize = 4;
const TOO_LONG: usize = 5;
const DISCONNECTED: usize = 6;
const TABLE_FULL: usize = 7;
const BEARER_CLOSED: usize = 8;

const WAIT_NOTIFICATION: usize = 8;

/// Why a step of this kind never ends with this status, or none where it can (docs/TRACE.md).
pub fn unreachable(kind: usize, status: usize, plan: Plan) -> Option<&'static str> {
    let att = closings::ATT.contains(&kind);
    let finds = (4..=8).contains(&kind);
    let linked = (2..=8).contains(&kind);
    match status {
        TIMEOUT if matches!(kind, 0 | 9) => return Some("its deadline ends it Ok"),
        TIMEOUT if kind == 10 => return Some("it has no deadline"),
        TIMEOUT if kind >= 11 => return Some("it ends as it starts"),
        NOT_CONNECTED if matches!(kind, 0 | 1 | 9 | 11 | 12) => return Some("it needs no link"),
        NOT_FOUND if !finds => return Some("it looks nothing up"),
        ATT_ERROR if !att => return Some("it sends no request"),
        TOO_LONG if kind != 6 => return Some("it sends no value"),
        DISCONNECTED if kind == 10 => return Some("a disconnect ends it Ok"),
        DISCONNECTED if !linked => return Some("it outlasts the link or ends as it starts"),
        TABLE_FULL => return Some("the Rust's tables grow"),
        BEARER_CLOSED if !plan.strict => return Some("in strict mode alone"),
        BEARER_CLOSED if !att => return Some("it sends no ATT"),
        _ => {}
    }
    if plan.groups.link {
        return None;
    }
    // With no fragments the tables stay empty and nothing is answered.
    match (kind, status) {
        (2..=8, OK) | (_, ATT_ERROR | TOO_LONG) => Some("no answers without fragments"),
        (4, NOT_FOUND) => Some("no answers without fragments"),
        (5..=8, TIMEOUT | DISCONNECTED) => Some("it ends as it starts while the tables are empty"),
        _ => None,
    }
}

/// Cells and limits that should have been reached and were not; with aged waits or in strict mode theirs alone, since a run without
/// asks for the others.
pub fn empty(c: &Counts, plan: Plan) -> Vec<String> {
    let mut out = if plan.aged { empty_of_aged(c, plan) } else { empty_kinds(c, plan) };
    if plan.strict {
        out.extend(empty_of_strict(c, plan));
    }
    if !plan.aged && !plan.strict {
        out.extend(empty_limits(c, plan));
    }
    out
}

/// Kinds of step that never ended with a status that they can end with.
fn empty_kinds(c: &Counts, plan: Plan) -> Vec<String> {
    let mut out = Vec::new();
    for (kind, name) in KINDS.iter().enumerate() {
        for (status, word) in STATUSES.iter().enumerate() {
            if c.ended[kind][status] == 0 && unreachable(kind, status, plan).is_none() {
                out.push(format!("{name} ended {word}"));
            }
        }
    }
    out
}

fn empty_limits(c: &Counts, plan: Plan) -> Vec<String> {
    let (mut out, groups) = (Vec::new(), plan.groups);
    let mut limit = |reached: bool, what: &str| {
        if !reached {
            out.push(what.to_string());
        }
    };
    let m = &c.most;
    limit(m.waiting == 64, "64 waiting steps");
    limit(m.refused > 0, "a full queue");
    limit(m.index > 64, "more than 64 results");
    limit(m.time == 1 << 62, "a step that ends at 2^62");
    if plan.refusals {
        limit(c.refused[3] > 0 && c.refused[4] > 0, "refusals 3 and 4");
        limit(!groups.radio || c.refused[6] > 0 && c.refused[8] > 0, "refusals 6 and 8");
        limit(!groups.link || c.refused[7] > 0, "refusal 7");
    }
    if groups.radio {
        limit(m.reports == 64 && c.dropped_reports > 0, "more than 64 advertisers");
        limit(m.keys == 128, "128 scan keys");
        limit((0..=6).all(|p| c.pdus[p]), "every advertising PDU type");
    }
    if groups.link {
        limit(m.services == 32, "32 services");
        limit(m.characteristics == 64, "64 characteristics");
        limit(m.held == 251, "251 held bytes");
        limit(m.mtu == 247, "MTU 247");
        limit(m.read == 246, "a read of 246 bytes");
        limit(m.frames == 65, "65 frames in a call");
        limit(c.dropped_notifications > 0, "more than 32 notifications");
        limit(c.old_waits > 0, "a wait that passes on a notification of an earlier link");
        limit(c.updates > 0, "a parameter update");
        limit(seen(&c.opcodes) == 256, "every ATT opcode");
        limit(seen(&c.signals) == 256, "every signaling code");
        limit(seen(&c.error_codes) == 256, "every ATT error code");
        limit(c.searches.found.len() == gate::MOST_VALUE, "a needle of every length from 1 to 244, found");
        out.extend(empty_of_searches(c));
    }
    out
}

/// Of the searches of waits.
fn empty_of_searches(c: &Counts) -> Vec<String> {
    let mut out = Vec::new();
    for ((find, what), by_length) in FINDS.iter().zip(&c.searches.finds) {
        for (length, n) in by_length.iter().enumerate() {
            if *n == 0 && !searches::unreachable(*find, length) {
                out.push(format!("a needle of {} {what}", LENGTHS[length]));
            }
        }
    }
    out
}

/// Of aged waits.
fn empty_of_aged(c: &Counts, plan: Plan) -> Vec<String> {
    let mut out = Vec::new();
    for (age, ended) in AGES.iter().zip(&c.aged.ended) {
        for (status, word) in STATUSES.iter().enumerate() {
            if ended[status] == 0 && unreachable(WAIT_NOTIFICATION, status, plan).is_none() {
                out.push(format!("a wait aged {age} that ended {word}"));
            }
        }
    }
    if plan.groups.link {
        let never = |(what, n): (&&str, &u64)| (*n == 0).then(|| what.to_string());
        out.extend(WAYS.iter().zip(&c.aged.ways).filter_map(never).map(|way| format!("an aged wait {way}")));
        out.extend(READ.iter().zip(&c.aged.read).filter_map(never).map(|what| format!("passed_on of {what}")));
        out.extend(empty_of_searches(c));
    }
    out
}

/// Of strict mode.
fn empty_of_strict(c: &Counts, plan: Plan) -> Vec<String> {
    if !plan.groups.link {
        return Vec::new();
    }
    let (mut out, s) = (Vec::new(), &c.closings);
    for kind in closings::ATT {
        for (n, what) in [(s.closed[kind], "awaited"), (s.left_open[kind], "not awaited")] {
            out.extend((n == 0).then(|| format!("{} timed out, its request {what}", KINDS[kind])));
        }
    }
    let ways = closings::WAYS.iter().zip(&s.ways);
    out.extend(ways.filter(|(_, n)| **n == 0).map(|(way, _)| format!("strict mode: {way}")));
    out
}

/// One line of a table by statuses: a dot where there can be nothing.
fn row(name: &str, kind: usize, ended: &[u64], plan: Plan) {
    print!("{name:24}");
    for (status, n) in ended.iter().enumerate() {
        let cell = if *n == 0 && unreachable(kind, status, plan).is_some() { ".".into() } else { n.to_string() };
        print!("{cell:>13}");
    }
    println!();
}

fn print_searches(c: &Counts) {
    println!("searches of waits, by the needle's length (a dot: can't be):");
    print!("  {:44}", "");
    for length in LENGTHS {
        print!("{length:>12}");
    }
    println!();
    for ((find, what), by_length) in FINDS.iter().zip(&c.searches.finds) {
        print!("  {what:44}");
        for (length, n) in by_length.iter().enumerate() {
            let cell = if *n == 0 && searches::unreachable(*find, length) { ".".into() } else { n.to_string() };
            print!("{cell:>12}");
        }
        println!();
    }
    println!("lengths of needles that were found: {} of {}\n", c.searches.found.len(), gate::MOST_VALUE);
}

fn print_aged(c: &Counts, plan: Plan) {
    println!("aged waits ended:");
    for (age, ended) in AGES.iter().zip(&c.aged.ended) {
        row(age, WAIT_NOTIFICATION, ended, plan);
    }
    println!("decided as a notification came, or as the wait began:");
    for (way, n) in WAYS.iter().zip(&c.aged.ways) {
        println!("  {way:56}{n:>9}");
    }
    let read: Vec<String> = READ.iter().zip(&c.aged.read).map(|(what, n)| format!("{what} {n}")).collect();
    println!("passed_on of: {}\n", read.join(", "));
}

fn print_strict(c: &Counts) {
    println!("{:24}{:>22}{:>22}", "strict mode: timed out", "its request awaited", "not awaited");
    for kind in closings::ATT {
        println!("{:24}{:>22}{:>22}", KINDS[kind], c.closings.closed[kind], c.closings.left_open[kind]);
    }
    println!("on a closed bearer, and about one:");
    for (way, n) in closings::WAYS.iter().zip(&c.closings.ways) {
        println!("  {way:56}{n:>9}");
    }
    println!();
}

pub fn print(o: &Options, c: &Counts, took: Duration) {
    let calls = c.made();
    println!(
        "seed {}, sequences {}, calls {calls}, dumps {}, {:.1} s",
        o.plan.seed,
        c.sequences(),
        c.calls[usize::from(tag::DUMP)],
        took.as_secs_f64()
    );
    for tag in 1..=10 {
        print!("{}{} {}", if tag == 1 { "" } else { ", " }, NAMES[tag], c.calls[tag]);
    }
    for tag in [tag::PASSED_ON, tag::LINKS, tag::FRESH_WITH, tag::MODE].map(usize::from) {
        if c.calls[tag] > 0 {
            print!(", {} {}", NAMES[tag], c.calls[tag]);
        }
    }
    println!("\nnot made, since refused or for want of a table place: {}", c.withheld);
    if o.plan.refusals {
        println!("refused: {}", (3..=8).map(|n| format!("{n}: {}", c.refused[n])).collect::<Vec<_>>().join(", "));
    }
    println!("\nsteps ended (a dot: can't be):");
    print!("{:24}", "");
    for word in STATUSES {
        print!("{word:>13}");
    }
    println!();
    for (kind, name) in KINDS.iter().enumerate() {
        row(name, kind, &c.ended[kind], o.plan);
    }
    let m = &c.most;
    println!("ended and dropped in one call: {}", c.unseen);
    println!(
        "most: waiting {}, steps {}, refused {}, frames in a call {}, bytes {}, reports {}, keys {}, services {}, \
         characteristics {}, held {}, MTU {}, read {}, notified {}",
        m.waiting,
        m.index,
        m.refused,
        m.frames,
        m.written,
        m.reports,
        m.keys,
        m.services,
        m.characteristics,
        m.held,
        m.mtu,
        m.read,
        m.notified
    );
    println!(
        "kinds seen: ATT opcodes {}, signaling codes {}, ATT error codes {}, advertising PDU types {}; oldest gone: \
         reports {}, notifications {}; parameter updates {}; waits passed on an earlier link's notification {}\n",
        seen(&c.opcodes),
        seen(&c.signals),
        seen(&c.error_codes),
        seen(&c.pdus),
        c.dropped_reports,
        c.dropped_notifications,
        c.updates,
        c.old_waits
    );
    if o.plan.groups.link {
        print_searches(c);
    }
    if o.plan.aged {
        print_aged(c, o.plan);
    }
    if o.plan.strict {
        print_strict(c);
    }
}
