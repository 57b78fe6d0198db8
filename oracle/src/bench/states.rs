//! States of the Rust that calls are made on, as crates/tool_bench has them.

use crate::setup::{CALLS_A_SET_UP, HEARD, KEPT, Search, Talk};
use oracle::ble::central::{
    AdvReport, Central, CentralLink, Characteristic, Notification, Running, Service, Step, Uuid,
};

pub const WAIT: Step = Step::Wait { ms: 1 };
pub const ENDS_AT_ONCE: Step = Step::Capture { enabled: true };

/// A UUID that no one lists.
pub fn unlisted() -> Uuid {
    let mut uuid = [0; 16];
    (uuid[0], uuid[8]) = (1, 2);
    Uuid(uuid)
}

pub fn known(count: u16) -> Vec<Characteristic> {
    let one = |n| Characteristic { declaration: n, value_handle: n, uuid: unlisted(), ..Characteristic::default() };
    (1..=count).map(one).collect()
}

pub fn running(step: Step, deadline_us: u64, phase: u8) -> Option<Running> {
    Some(Running { index: 0, step, deadline_us: Some(deadline_us), phase, cursor: 1, scan_requested: Vec::new() })
}

/// As crates/tool_bench/src/begin.rt has it of every state.
pub fn begun() -> Central {
    Central { next_index: 1, reports: vec![AdvReport::default(); 64], ..Central::default() }
}

/// A wait runs until 1 ms, and 64 more wait.
pub fn waiting() -> Central {
    Central { running: running(WAIT, 1000, 0), queue: vec![WAIT; CALLS_A_SET_UP as usize], ..begun() }
}

fn wait(contains: Vec<u8>) -> Step {
    Step::WaitNotification { characteristic: unlisted(), contains, within_ms: 60_000 }
}

pub fn step(talk: Talk) -> Step {
    match talk {
        Talk::Reads => Step::Read { characteristic: unlisted() },
        Talk::Discovers => Step::DiscoverCharacteristics { service: unlisted() },
        _ => wait(talk.needle().to_vec()),
    }
}

fn kept(value: Vec<u8>) -> Vec<Notification> {
    vec![Notification { at_us: 0, handle: 1, value, indication: false }; KEPT]
}

fn pending(talk: Talk) -> Option<u8> {
    match talk {
        Talk::Reads => Some(0x0A),
        Talk::Discovers => Some(0x08),
        _ => None,
    }
}

/// What comes on a link, as crates/tool_bench/src/row.rt has it.
pub fn linked(talk: Talk) -> Central {
    let queued = if matches!(talk, Talk::Ends | Talk::Reads) { CALLS_A_SET_UP as usize } else { 0 };
    Central {
        queue: vec![step(talk); queued],
        running: running(step(talk), 60_000_000, u8::from(talk == Talk::Discovers)),
        link: Some(CentralLink { handle: 64, mtu: 247, pending: pending(talk), ..CentralLink::default() }),
        services: vec![Service { start: 1, end: 255, uuid: unlisted() }],
        characteristics: known(if talk == Talk::Discovers { 0 } else { 20 }),
        notifications: kept(HEARD.to_vec()),
        notified: KEPT as u64,
        wait_from: if talk == Talk::Ends { KEPT as u64 } else { 0 },
        ..begun()
    }
}

/// A wait that looks at all that is kept.
pub fn searching(search: Search) -> Central {
    Central {
        running: running(wait(search.needle()), 60_000_000, 0),
        notifications: kept(search.heard()),
        ..linked(Talk::GoesOn)
    }
}
