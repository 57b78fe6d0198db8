//! Fragments on a link.

use crate::c;
use crate::exports::Memory;
use crate::setup::{CALLS_A_SET_UP, Lent, Search, Talk, WORDS, lend, lend_values};
use crate::states::{linked, searching};
use crate::{Form, compare, port_states, rust_states, taken, told};
use oracle::ble::central::Central;

unsafe extern "C" {
    fn lent_fragments(
        n: u32,
        row: u8,
        start: bool,
        tables: *mut [u64; WORDS],
        store: *mut u8,
        store_len: usize,
        out: *mut u8,
        out_len: usize,
        fragment: *const u8,
        len: usize,
    ) -> u64;
    fn value_fragments(
        n: u32,
        row: u8,
        start: bool,
        store: *mut u8,
        store_len: usize,
        out: *mut u8,
        out_len: usize,
        fragment: *const u8,
        len: usize,
    ) -> u64;
    fn lent_searches(
        n: u32,
        each: u8,
        needle: u8,
        tables: *mut [u64; WORDS],
        store: *mut u8,
        store_len: usize,
        out: *mut u8,
        out_len: usize,
        fragment: *const u8,
        len: usize,
    ) -> u64;
    fn value_searches(
        n: u32,
        each: u8,
        needle: u8,
        store: *mut u8,
        store_len: usize,
        out: *mut u8,
        out_len: usize,
        fragment: *const u8,
        len: usize,
    ) -> u64;
}

#[inline(never)]
fn rust_fragments(c: &mut Central, n: u32, start: bool, fragment: &[u8]) -> u64 {
    let mut sum = 0;
    for i in 0..n {
        c.on_fragment(start, fragment, u64::from(i));
        sum += taken(c);
    }
    told(sum, c)
}

fn port_fragments(l: &mut Lent, form: Form, n: u32, talk: Talk, start: bool, fragment: &[u8]) -> u64 {
    let (store, size) = (l.store.as_mut_ptr(), l.store.len());
    let (out, room) = (l.out.as_mut_ptr(), l.out.len());
    let (data, len) = (fragment.as_ptr(), fragment.len());
    let row = talk as u8;
    // SAFETY: each pointer goes with the length of its own slice.
    unsafe {
        match form {
            Form::Lent => lent_fragments(n, row, start, &mut *l.tables, store, size, out, room, data, len),
            Form::ByValue => value_fragments(n, row, start, store, size, out, room, data, len),
            Form::C => unreachable!("on states of its own"),
        }
    }
}

fn port_searches(l: &mut Lent, form: Form, n: u32, s: Search, frame: &[u8]) -> u64 {
    let (store, size) = (l.store.as_mut_ptr(), l.store.len());
    let (out, room) = (l.out.as_mut_ptr(), l.out.len());
    let (data, len) = (frame.as_ptr(), frame.len());
    // SAFETY: each pointer goes with the length of its own slice.
    unsafe {
        match form {
            Form::Lent => lent_searches(n, s.each, s.needle, &mut *l.tables, store, size, out, room, data, len),
            Form::ByValue => value_searches(n, s.each, s.needle, store, size, out, room, data, len),
            Form::C => unreachable!("on states of its own"),
        }
    }
}

#[inline(never)]
fn c_fragments(m: &mut Memory, n: u32, start: bool, fragment: &[u8]) -> u64 {
    (0..n).map(|i| m.on_fragment(u64::from(i), start, fragment)[2]).sum()
}

pub fn rows(l: &mut Lent, rounds: usize) {
    for (name, talk, start, n, states) in [
        ("a notification that ends a wait, 32 kept", Talk::Ends, true, CALLS_A_SET_UP, 10),
        ("a notification that ends none, 32 kept", Talk::GoesOn, true, 500, 1),
        ("a read response", Talk::Reads, true, CALLS_A_SET_UP, 10),
        ("a discovery answer, 20 characteristics", Talk::Discovers, true, 500, 1),
        ("a dropped continuation", Talk::GoesOn, false, 500, 1),
    ] {
        let frame = talk.frame();
        let rust = || rust_states(states, || linked(talk), |c| rust_fragments(c, n, start, &frame));
        let port = |form| match form {
            Form::C => c::states(states, || linked(talk), |m| c_fragments(m, n, start, &frame)),
            _ => port_states(states, n, |n| {
                lend_values(l, talk);
                port_fragments(l, form, n, talk, start, &frame)
            }),
        };
        compare(name, n * states, rounds, rust, port);
    }
}

/// The worst case of a search, in small values and in large ones, by the needle's length.
const SEARCHES: [(Search, u32); 8] = [
    (Search { each: 1, needle: 2 }, 500),
    (Search { each: 1, needle: 8 }, 500),
    (Search { each: 1, needle: 16 }, 500),
    (Search { each: 1, needle: 32 }, 500),
    (Search { each: 244, needle: 4 }, 50),
    (Search { each: 244, needle: 61 }, 10),
    (Search { each: 244, needle: 122 }, 10),
    (Search { each: 244, needle: 244 }, 10),
];

pub fn searches(l: &mut Lent, rounds: usize) {
    for (search, n) in SEARCHES {
        let (needle, heard, frame) = (search.needle(), search.heard(), search.frame());
        let rust = || rust_states(1, || searching(search), |c| rust_fragments(c, n, true, &frame));
        let port = |form| match form {
            Form::C => c::states(1, || searching(search), |m| c_fragments(m, n, true, &frame)),
            _ => port_states(1, n, |n| {
                lend(l, &needle, &heard);
                port_searches(l, form, n, search, &frame)
            }),
        };
        let name = format!("equal bytes, 32 kept of {}, a needle of {}", search.each, search.needle);
        compare(&name, n, rounds, rust, port);
    }
}
