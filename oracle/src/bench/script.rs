//! Batches, timer calls and links.

use crate::c;
use crate::c_words;
use crate::exports::Memory;
use crate::setup::{CALLS_A_SET_UP, Lent, WORDS};
use crate::states::{ENDS_AT_ONCE, WAIT, waiting};
use crate::{Form, compare, less_set_up, port_states, rust_states, taken, timed, told};
use oracle::ble::central::{Central, Step};
use std::hint::black_box;

unsafe extern "C" {
    fn lent_batches(
        n: u32,
        ends: bool,
        tables: *mut [u64; WORDS],
        store: *mut u8,
        store_len: usize,
        out: *mut u8,
        out_len: usize,
        values: *const u8,
        len: usize,
    ) -> u64;
    fn value_batches(
        n: u32,
        ends: bool,
        store: *mut u8,
        store_len: usize,
        out: *mut u8,
        out_len: usize,
        values: *const u8,
        len: usize,
    ) -> u64;
    fn lent_timers(
        n: u32,
        tables: *mut [u64; WORDS],
        store: *mut u8,
        store_len: usize,
        out: *mut u8,
        out_len: usize,
    ) -> u64;
    fn value_timers(n: u32, store: *mut u8, store_len: usize, out: *mut u8, out_len: usize) -> u64;
    fn lent_links(
        n: u32,
        tables: *mut [u64; WORDS],
        store: *mut u8,
        store_len: usize,
        out: *mut u8,
        out_len: usize,
    ) -> u64;
    fn value_links(n: u32, store: *mut u8, store_len: usize, out: *mut u8, out_len: usize) -> u64;
}

const HANDLE: u16 = 64;

/// Each batch on a fresh state. It is handed over, so each has its own.
#[inline(never)]
fn rust_batches(batches: Vec<Vec<Step>>) -> u64 {
    batches.into_iter().enumerate().fold(0, |sum, (i, steps)| {
        let mut c = black_box(Central::default());
        c.push_steps(steps, i as u64);
        taken(&mut c);
        sum + (c.queue.len() + c.results.len()) as u64
    })
}

#[inline(never)]
fn rust_timers(c: &mut Central) -> u64 {
    for i in 1..=CALLS_A_SET_UP {
        c.on_timer(u64::from(i) * 1000);
        taken(c);
    }
    told(0, c)
}

/// Each link comes, and goes again.
#[inline(never)]
fn rust_links(c: &mut Central, n: u32) -> u64 {
    (0..u64::from(n)).fold(0, |sum, at| {
        c.on_connected(HANDLE, at);
        let handle = c.link.as_ref().map_or(0, |l| u64::from(l.handle));
        taken(c);
        c.on_disconnected(at);
        taken(c);
        sum + handle + c.results.len() as u64
    })
}

fn port_batches(l: &mut Lent, form: Form, n: u32, ends: bool) -> u64 {
    let (store, size) = (l.store.as_mut_ptr(), l.store.len());
    let (out, room) = (l.out.as_mut_ptr(), l.out.len());
    let values = [].as_ptr();
    // SAFETY: each pointer goes with the length of its own slice.
    unsafe {
        match form {
            Form::Lent => lent_batches(n, ends, &mut *l.tables, store, size, out, room, values, 0),
            Form::ByValue => value_batches(n, ends, store, size, out, room, values, 0),
            Form::C => unreachable!("on words of its own"),
        }
    }
}

/// Each batch on a fresh core: where no place is in use, what the tables have is not read.
#[inline(never)]
fn c_batches(m: &mut Memory, n: u32, steps: &[u64]) -> u64 {
    (0..u64::from(n)).fold(0, |sum, i| {
        m.core.fill(0);
        m.push_steps(i, steps, 64, &[]);
        sum + m.core[27] + m.core[28]
    })
}

#[inline(never)]
fn c_timers(m: &mut Memory) -> u64 {
    for i in 1..=CALLS_A_SET_UP {
        m.on_timer(u64::from(i) * 1000);
    }
    0
}

fn port_timers(l: &mut Lent, form: Form, n: u32) -> u64 {
    let (store, size) = (l.store.as_mut_ptr(), l.store.len());
    let (out, room) = (l.out.as_mut_ptr(), l.out.len());
    // SAFETY: each pointer goes with the length of its own slice.
    unsafe {
        match form {
            Form::Lent => lent_timers(n, &mut *l.tables, store, size, out, room),
            Form::ByValue => value_timers(n, store, size, out, room),
            Form::C => unreachable!("on states of its own"),
        }
    }
}

fn port_links(l: &mut Lent, form: Form, n: u32) -> u64 {
    let (store, size) = (l.store.as_mut_ptr(), l.store.len());
    let (out, room) = (l.out.as_mut_ptr(), l.out.len());
    // SAFETY: each pointer goes with the length of its own slice.
    unsafe {
        match form {
            Form::Lent => lent_links(n, &mut *l.tables, store, size, out, room),
            Form::ByValue => value_links(n, store, size, out, room),
            Form::C => unreachable!("on words of its own"),
        }
    }
}

#[inline(never)]
fn c_links(m: &mut Memory, n: u32) -> u64 {
    (0..u64::from(n)).fold(0, |sum, at| {
        m.on_connected(HANDLE, at);
        let handle = m.core[18];
        m.on_disconnected(at);
        sum + handle + m.core[28]
    })
}

pub fn rows(l: &mut Lent, rounds: usize) {
    const BATCHES: u32 = 40;
    for (name, step, ends) in
        [("a batch of 64 waits", WAIT, false), ("a batch of 64 steps that end at once", ENDS_AT_ONCE, true)]
    {
        let rust = || {
            let batches = vec![vec![step.clone(); 64]; BATCHES as usize];
            timed(|| rust_batches(batches))
        };
        let (mut memory, words) = (Memory::new(), c_words::batch_words(&vec![step.clone(); 64]));
        let port = |form| match form {
            Form::C => timed(|| c_batches(&mut memory, BATCHES, &words)),
            _ => less_set_up(BATCHES, |n| port_batches(l, form, n, ends)),
        };
        compare(name, BATCHES, rounds, rust, port);
    }
    const STATES: u32 = 10;
    let rust = || rust_states(STATES, waiting, rust_timers);
    let port = |form| match form {
        Form::C => c::states(STATES, waiting, c_timers),
        _ => port_states(STATES, CALLS_A_SET_UP, |n| port_timers(l, form, n)),
    };
    compare("a timer call that ends a step", CALLS_A_SET_UP * STATES, rounds, rust, port);
    const LINKS: u32 = 1_000;
    let (mut central, mut memory) = (Central::default(), Memory::new());
    let rust = || timed(|| rust_links(&mut central, LINKS));
    let port = |form| match form {
        Form::C => timed(|| c_links(&mut memory, LINKS)),
        _ => less_set_up(LINKS, |n| port_links(l, form, n)),
    };
    compare("a link that comes and goes, nothing runs", 2 * LINKS, rounds, rust, port);
}
