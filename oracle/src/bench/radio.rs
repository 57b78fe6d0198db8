//! Advertisements, and a round of three calls.

use crate::c;
use crate::c_words;
use crate::exports::Memory;
use crate::setup::{DATA, Lent, WORDS};
use crate::states::{known, running, unlisted};
use crate::{Form, Took, compare, less_set_up, timed, told};
use oracle::ble::central::{AdvAction, Central, Notification, Service, Step, StepResult, StepStatus, Target};
use std::hint::black_box;

unsafe extern "C" {
    fn lent_advertising(
        n: u32,
        row: u8,
        half: bool,
        tables: *mut [u64; WORDS],
        store: *mut u8,
        store_len: usize,
        data: *const u8,
        len: usize,
    ) -> u64;
    fn value_advertising(
        n: u32,
        row: u8,
        half: bool,
        store: *mut u8,
        store_len: usize,
        data: *const u8,
        len: usize,
    ) -> u64;
    fn lent_mixed(
        n: u32,
        tables: *mut [u64; WORDS],
        store: *mut u8,
        store_len: usize,
        out: *mut u8,
        out_len: usize,
        data: *const u8,
        len: usize,
    ) -> u64;
    fn value_mixed(
        n: u32,
        store: *mut u8,
        store_len: usize,
        out: *mut u8,
        out_len: usize,
        data: *const u8,
        len: usize,
    ) -> u64;
}

/// A scan response of one long service and a name.
const RESPONSE: [u8; 31] =
    *b"\x11\x07\x9E\xCA\xDC\x24\x0E\xE5\xA9\xE0\x93\xF3\xA3\xB5\x01\x00\x40\x6E\x0C\x08A long name";

/// The reports' bytes in the store, of 62 each.
const REPORTS_AT: usize = 39_663;

const CALLS: u32 = 10_000;

#[derive(Clone, Copy)]
enum Row {
    Known,
    Missed,
    Connect,
}

impl Row {
    fn advertisers(self) -> u32 {
        if matches!(self, Row::Missed) { 100 } else { 64 }
    }

    fn step(self) -> Step {
        if matches!(self, Row::Connect) {
            let target = Target::Service(unlisted());
            return Step::Connect { target, interval: 24, latency: 0, timeout: 100, within_ms: 60_000 };
        }
        Step::Scan { ms: 60_000 }
    }
}

fn address(who: u32) -> [u8; 6] {
    let [a, b, c, d] = who.to_le_bytes();
    [a, b, c, d, 0xAA, 0]
}

fn after(who: u32, advertisers: u32) -> u32 {
    if who + 1 < advertisers { who + 1 } else { 0 }
}

/// Half of each table, as crates/tool_bench has it.
fn half_full(c: &mut Central) {
    c.queue = vec![Step::Scan { ms: 0 }; 32];
    c.results = vec![StepResult { index: 0, at_us: 0, status: StepStatus::Ok, value: Vec::new() }; 32];
    c.services = vec![Service::default(); 16];
    c.characteristics = known(32);
    c.notifications = vec![Notification::default(); 16];
    c.notified = 16;
}

/// A state that has heard the advertisers of a row.
fn listening(row: Row, half: bool) -> Central {
    let mut c = Central { next_index: 1, running: running(row.step(), 60_000_000, 0), ..Central::default() };
    if half {
        half_full(&mut c);
    }
    for who in 0..row.advertisers() {
        c.on_advertising(1, 37, 0, address(who), true, &DATA, false);
    }
    if matches!(row, Row::Connect) {
        for who in 0..row.advertisers() {
            c.on_scan_response(2, address(who), true, &RESPONSE);
        }
    }
    c
}

/// The same in the port's store.
fn lend_reports(l: &mut Lent) {
    for block in l.store[REPORTS_AT..].chunks_mut(DATA.len() + RESPONSE.len()) {
        block.copy_from_slice(&[DATA, RESPONSE].concat());
    }
}

fn advertise(c: &mut Central, at: u32, who: u32) -> u64 {
    match c.on_advertising(u64::from(at), 37, 0, address(who), true, &DATA, false) {
        AdvAction::None => 1,
        AdvAction::ScanRequest => 2,
        AdvAction::Connect { .. } => 3,
    }
}

#[inline(never)]
fn rust_round(c: &mut Central, advertisers: u32) -> u64 {
    let (mut sum, mut who) = (0, 0);
    for i in 0..CALLS {
        sum += advertise(c, i, who);
        who = after(who, advertisers);
    }
    told(sum, c)
}

/// An advertisement, a scan response and a timer call, in turn.
#[inline(never)]
fn rust_mixed(c: &mut Central, advertisers: u32) -> u64 {
    let (mut sum, mut who) = (0, 0);
    for i in 0..CALLS {
        sum += advertise(c, i, who);
        c.on_scan_response(u64::from(i), address(who), true, &DATA);
        c.on_timer(u64::from(i));
        who = after(who, advertisers);
    }
    told(sum, c)
}

fn rust(row: Row, half: bool, round: fn(&mut Central, u32) -> u64) -> Took {
    let mut c = black_box(listening(row, half));
    timed(|| round(&mut c, row.advertisers()))
}

fn port_round(l: &mut Lent, form: Form, n: u32, row: Row, half: bool) -> u64 {
    let (store, size) = (l.store.as_mut_ptr(), l.store.len());
    let (data, len) = (DATA.as_ptr(), DATA.len());
    // SAFETY: each pointer goes with the length of its own slice.
    unsafe {
        match form {
            Form::Lent => lent_advertising(n, row as u8, half, &mut *l.tables, store, size, data, len),
            Form::ByValue => value_advertising(n, row as u8, half, store, size, data, len),
            Form::C => unreachable!("on a state of its own"),
        }
    }
}

fn port_mixed(l: &mut Lent, form: Form, n: u32) -> u64 {
    let (store, size) = (l.store.as_mut_ptr(), l.store.len());
    let (out, room) = (l.out.as_mut_ptr(), l.out.len());
    let (data, len) = (DATA.as_ptr(), DATA.len());
    // SAFETY: each pointer goes with the length of its own slice.
    unsafe {
        match form {
            Form::Lent => lent_mixed(n, &mut *l.tables, store, size, out, room, data, len),
            Form::ByValue => value_mixed(n, store, size, out, room, data, len),
            Form::C => unreachable!("on a state of its own"),
        }
    }
}

fn c_advertise(m: &mut Memory, at: u32, who: u32) -> u64 {
    let seen = (37, 0, c_words::number_of(&address(who), true));
    m.on_advertising(u64::from(at), seen, &DATA, false)[1] + 1
}

#[inline(never)]
fn c_round(m: &mut Memory, advertisers: u32) -> u64 {
    let (mut sum, mut who) = (0, 0);
    for i in 0..CALLS {
        sum += c_advertise(m, i, who);
        who = after(who, advertisers);
    }
    sum
}

#[inline(never)]
fn c_mixed(m: &mut Memory, advertisers: u32) -> u64 {
    let (mut sum, mut who) = (0, 0);
    for i in 0..CALLS {
        sum += c_advertise(m, i, who);
        m.on_scan_response(u64::from(i), c_words::number_of(&address(who), true), &DATA);
        m.on_timer(u64::from(i));
        who = after(who, advertisers);
    }
    sum
}

fn from_c(row: Row, half: bool, round: fn(&mut Memory, u32) -> u64) -> Took {
    c::states(1, || listening(row, half), |m| round(m, row.advertisers()))
}

pub fn rows(l: &mut Lent, rounds: usize) {
    let rounds = rounds / 5;
    for (name, row) in [
        ("advertising, 64 known", Row::Known),
        ("advertising, 100, each a miss", Row::Missed),
        ("advertising, Connect, no match", Row::Connect),
    ] {
        for (tables, half) in [("tables empty", false), ("tables half full", true)] {
            let port = |form| match form {
                Form::C => from_c(row, half, c_round),
                _ => {
                    lend_reports(l);
                    less_set_up(CALLS, |n| port_round(l, form, n, row, half))
                }
            };
            compare(&format!("{name}, {tables}"), CALLS, rounds, || rust(row, half, rust_round), port);
        }
    }
    let port = |form| match form {
        Form::C => from_c(Row::Known, false, c_mixed),
        _ => less_set_up(CALLS, |n| port_mixed(l, form, n)),
    };
    compare(
        "mixed: advertising, scan response, timer",
        3 * CALLS,
        rounds,
        || rust(Row::Known, false, rust_mixed),
        port,
    );
}
