//! The stack that each call from C needs. All that C lends lies elsewhere: the state, the store, the buffers, the batch's words, what
//! the call tells.

use crate::c_words::{batch_words, memory};
use crate::exports::Memory;
use crate::painted::Rows;
use crate::setup::{CALLS_A_SET_UP, DATA, Talk};
use crate::states::{ENDS_AT_ONCE, begun, linked, running, step, unlisted, waiting};
use oracle::ble::central::{Central, Step, Target};

/// The most that a call may need.
const MOST: usize = 14_336;

const NOW: u64 = 1000;

fn connecting() -> Central {
    let target = Target::Service(unlisted());
    let connect = Step::Connect { target, interval: 24, latency: 0, timeout: 100, within_ms: 60_000 };
    Central { running: running(connect, 60_000_000, 0), ..begun() }
}

/// Waits stand behind a step that this call ends; each looks at all that is kept.
fn before_waits(c: Central) -> Central {
    let link = c.running.is_some().then(|| linked(Talk::GoesOn).link).flatten();
    Central {
        running: c.running,
        link,
        queue: vec![step(Talk::GoesOn); CALLS_A_SET_UP as usize],
        ..linked(Talk::GoesOn)
    }
}

fn refusal(told: [u64; 8]) -> u8 {
    told[0] as u8
}

/// Calls that may check a wait; each does so once.
fn with_a_wait(rows: &mut Rows) {
    let ends = batch_words(&vec![ENDS_AT_ONCE; CALLS_A_SET_UP as usize]);
    let mut m = memory(&begun());
    rows.row("push_steps from C, 64 steps that end at once", MOST, &mut || {
        refusal(m.push_steps(NOW, &ends, CALLS_A_SET_UP as usize, &[]))
    });
    let waits = batch_words(&vec![step(Talk::GoesOn); CALLS_A_SET_UP as usize]);
    let mut m = memory(&Central { running: None, ..linked(Talk::GoesOn) });
    rows.row("push_steps from C, a wait is checked", MOST, &mut || {
        refusal(m.push_steps(NOW, &waits, CALLS_A_SET_UP as usize, &Talk::GoesOn.needle()))
    });
    for (does, timed, met) in [
        ("", waiting(), connecting()),
        (", a wait is checked", before_waits(waiting()), Central { link: None, ..before_waits(connecting()) }),
    ] {
        let mut m = memory(&timed);
        rows.row(&format!("on_timer from C{does}"), MOST, &mut || refusal(m.on_timer(NOW)));
        let mut m = memory(&met);
        rows.row(&format!("on_connected from C{does}"), MOST, &mut || refusal(m.on_connected(64, NOW)));
    }
    for (name, talk) in [
        ("a wait ends", Talk::Ends),
        ("a wait goes on", Talk::GoesOn),
        ("a Read ends", Talk::Reads),
        ("discovery's answer", Talk::Discovers),
    ] {
        let (mut m, frame) = (memory(&linked(talk)), talk.frame());
        rows.row(&format!("on_fragment from C, {name}"), MOST, &mut || refusal(m.on_fragment(NOW, true, &frame)));
    }
}

/// Calls that check no wait, the readers and the views.
fn without_a_wait(rows: &mut Rows) {
    const ADVERTISER: u64 = 99;
    let mut m = memory(&linked(Talk::Ends));
    rows.row("on_disconnected from C", MOST, &mut || refusal(m.on_disconnected(NOW)));
    let mut m = memory(&connecting());
    rows.row("on_advertising from C", MOST, &mut || refusal(m.on_advertising(NOW, (37, 0, ADVERTISER), &DATA, false)));
    rows.row("on_scan_response from C", MOST, &mut || refusal(m.on_scan_response(NOW, ADVERTISER, &DATA)));
    reading(rows, &m);
}

fn reading(rows: &mut Rows, m: &Memory) {
    rows.row("timer_us from C", MOST, &mut || refusal(m.timer_us()));
    rows.row("connected_handle from C", MOST, &mut || refusal(m.connected_handle()));
    rows.row("result from C", MOST, &mut || refusal(m.result(1)));
    rows.row("passed_on from C", MOST, &mut || refusal(m.passed_on(1)));
    rows.row("report from C", MOST, &mut || m.report(63)[0] as u8);
    rows.row("report_data from C", MOST, &mut || refusal(m.report_data(63)));
    rows.row("report_response from C", MOST, &mut || refusal(m.report_response(63)));
    rows.row("report_body from C", MOST, &mut || refusal(m.report_body(63, 1, 2)));
    rows.row("report_presence from C", MOST, &mut || refusal(m.report_presence(63, 1, 2)));
}

pub fn rows(rows: &mut Rows) {
    with_a_wait(rows);
    without_a_wait(rows);
}
