//! The stack that each call on lent tables needs (crates/tool_stack). The caller's tables, store and bytes are not on it; its core, and
//! its batch of steps, which go by value, are.

use crate::painted::Rows;
use crate::setup::{DATA, Lent, Talk, WORDS, lend_values};

unsafe extern "C" {
    fn stack_lay_connecting(tables: *mut [u64; WORDS]);
    fn stack_lay_timed(tables: *mut [u64; WORDS]);
    fn stack_lay_talking(tables: *mut [u64; WORDS], row: u8);
    fn stack_push_steps(
        checks: bool,
        tables: *mut [u64; WORDS],
        store: *mut u8,
        store_len: usize,
        out: *mut u8,
        out_len: usize,
        values: *const u8,
        len: usize,
    ) -> u8;
    fn stack_on_timer(
        checks: bool,
        tables: *mut [u64; WORDS],
        store: *mut u8,
        store_len: usize,
        out: *mut u8,
        out_len: usize,
    ) -> u8;
    fn stack_on_connected(
        checks: bool,
        tables: *mut [u64; WORDS],
        store: *mut u8,
        store_len: usize,
        out: *mut u8,
        out_len: usize,
    ) -> u8;
    fn stack_on_disconnected(tables: *mut [u64; WORDS], store: *mut u8, store_len: usize) -> u8;
    fn stack_on_fragment(
        row: u8,
        tables: *mut [u64; WORDS],
        store: *mut u8,
        store_len: usize,
        out: *mut u8,
        out_len: usize,
        frame: *const u8,
        len: usize,
    ) -> u8;
    fn stack_on_advertising(
        tables: *mut [u64; WORDS],
        store: *mut u8,
        store_len: usize,
        data: *const u8,
        len: usize,
    ) -> u8;
    fn stack_on_scan_response(
        tables: *mut [u64; WORDS],
        store: *mut u8,
        store_len: usize,
        data: *const u8,
        len: usize,
    ) -> u8;
    fn stack_timer_us(tables: *const [u64; WORDS], store: *const u8, store_len: usize) -> u8;
    fn stack_connected_handle(tables: *const [u64; WORDS], store: *const u8, store_len: usize) -> u8;
    fn stack_result(tables: *const [u64; WORDS], store: *const u8, store_len: usize, index: u32) -> u8;
    fn stack_passed_on(tables: *const [u64; WORDS], store: *const u8, store_len: usize, index: u32) -> u8;
}

/// The most that a call may need.
const MOST: usize = 12_288;

/// The same where a batch of 64 steps, by value and with its copies, lies on the stack that is measured.
const MOST_WITH_A_BATCH: usize = 17_408;

/// What a wait looks for in the lent values.
const SOUGHT: [u8; 4] = *b"full";

/// Calls that may check a wait; each does so once.
fn with_a_wait(rows: &mut Rows, l: &mut Lent) {
    let tables: *mut [u64; WORDS] = &mut *l.tables;
    for (checks, does) in [(false, ""), (true, ", a wait is checked")] {
        lend_values(l, Talk::GoesOn);
        let (store, size) = (l.store.as_mut_ptr(), l.store.len());
        let (out, room) = (l.out.as_mut_ptr(), l.out.len());
        let (values, len) = (SOUGHT.as_ptr(), SOUGHT.len());
        // SAFETY: each pointer goes with the length of its own slice.
        let lay = |lay: unsafe extern "C" fn(*mut [u64; WORDS])| unsafe {
            if checks { stack_lay_talking(tables, Talk::Ends as u8) } else { lay(tables) }
        };
        let ends = if checks { does } else { ", 64 steps that end at once" };
        lay(stack_lay_timed);
        rows.row(&format!("push_steps{ends}"), MOST_WITH_A_BATCH, &mut || unsafe {
            stack_push_steps(checks, tables, store, size, out, room, values, len)
        });
        lay(stack_lay_timed);
        rows.row(&format!("on_timer{does}"), MOST, &mut || unsafe {
            stack_on_timer(checks, tables, store, size, out, room)
        });
        lay(stack_lay_connecting);
        rows.row(&format!("on_connected{does}"), MOST, &mut || unsafe {
            stack_on_connected(checks, tables, store, size, out, room)
        });
    }
}

fn fragments(rows: &mut Rows, l: &mut Lent) {
    for (name, talk) in [
        ("on_fragment, a wait ends", Talk::Ends),
        ("on_fragment, a wait goes on", Talk::GoesOn),
        ("on_fragment, a Read ends", Talk::Reads),
        ("on_fragment, discovery's answer", Talk::Discovers),
    ] {
        lend_values(l, talk);
        let frame = talk.frame();
        let (tables, store, out) = (&mut *l.tables, &mut l.store, &mut l.out);
        // SAFETY: each pointer goes with the length of its own slice.
        unsafe { stack_lay_talking(tables, talk as u8) };
        rows.row(name, MOST, &mut || unsafe {
            stack_on_fragment(
                talk as u8,
                tables,
                store.as_mut_ptr(),
                store.len(),
                out.as_mut_ptr(),
                out.len(),
                frame.as_ptr(),
                frame.len(),
            )
        });
    }
}

/// Calls that check no wait.
fn without_a_wait(rows: &mut Rows, l: &mut Lent) {
    let tables: *mut [u64; WORDS] = &mut *l.tables;
    let (store, size) = (l.store.as_mut_ptr(), l.store.len());
    let (data, len) = (DATA.as_ptr(), DATA.len());
    // SAFETY: each pointer goes with the length of its own slice.
    unsafe {
        stack_lay_talking(tables, Talk::Ends as u8);
        rows.row("on_disconnected", MOST, &mut || stack_on_disconnected(tables, store, size));
        stack_lay_connecting(tables);
        rows.row("on_advertising", MOST, &mut || stack_on_advertising(tables, store, size, data, len));
        rows.row("on_scan_response", MOST, &mut || stack_on_scan_response(tables, store, size, data, len));
        rows.row("timer_us", MOST, &mut || stack_timer_us(tables, store, size));
        rows.row("connected_handle", MOST, &mut || stack_connected_handle(tables, store, size));
        rows.row("result", MOST, &mut || stack_result(tables, store, size, 1));
        rows.row("passed_on", MOST, &mut || stack_passed_on(tables, store, size, 1));
    }
}

pub fn rows(rows: &mut Rows, l: &mut Lent) {
    with_a_wait(rows, l);
    fragments(rows, l);
    without_a_wait(rows, l);
}
