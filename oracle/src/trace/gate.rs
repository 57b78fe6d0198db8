//! What 01 refuses, and steps that end for want of a table place: the Rust has no answer for these. The
//! refusals are restated here from 01's table, from 3 on: with a fresh state to begin with and what a player
//! lends, 1 and 2 don't come up. Nor does 5 of a fragment or of a connected call: no trace is so long that
//! `notified`, or the count of links of request One, comes to 2^62.

use super::{Batch, Call, kind};
use oracle::ble::central::{Central, Step};

pub const MOST_TIME: u64 = 1 << 62;
pub const MOST_MTU: u16 = 247;
pub const MOST_VALUE: usize = 244;
pub const MOST_ADVERTISED: usize = 31;
pub const MOST_KEYS: usize = 128;
pub const MOST_HELD: usize = 251;
pub const MOST_SERVICES: usize = 32;
pub const MOST_CHARACTERISTICS: usize = 64;
/// Beside 01's numbers: the step would end with the added status.
pub const TABLE_FULL: u8 = 100;

fn time(call: &Call) -> u64 {
    match call {
        Call::Batch(Batch { now, .. }) | Call::Timer { now } => *now,
        Call::Connected { at, .. }
        | Call::Disconnected { at }
        | Call::Advertising { at, .. }
        | Call::ScanResponse { at, .. }
        | Call::Fragment { at, .. } => *at,
        _ => 0,
    }
}

/// The bytes that would be held with this fragment; none where it is dropped.
pub fn held(c: &Central, start: bool, data: usize) -> Option<usize> {
    let link = c.link.as_ref()?;
    match (start, link.rx.len()) {
        (true, _) => Some(data),
        (false, 0) => None,
        (false, n) => Some(n + data),
    }
}

/// A scannable PDU of an advertiser that got no request yet, in a scan that keeps all the keys it can.
pub fn keys_full(c: &Central, pdu: u8, address: &[u8; 6], random: bool) -> bool {
    let Some(r) = c.running.as_ref().filter(|r| matches!(r.step, Step::Scan { .. })) else {
        return false;
    };
    matches!(pdu, 0 | 6)
        && r.scan_requested.len() >= MOST_KEYS
        && !r.scan_requested.iter().any(|k| k[0] == u8::from(random) && k[1..] == address[..])
}

/// Whether an answer needs a place that isn't there. The script behind it is left away, since a step
/// that it starts may clear the tables in the same call.
fn table_full(c: &Central, start: bool, data: &[u8], at: u64) -> bool {
    let discovers = matches!(
        c.running.as_ref().map(|r| &r.step),
        Some(Step::DiscoverServices | Step::DiscoverCharacteristics { .. })
    );
    // One answer has at most 40 entries.
    if !discovers || c.services.len() + 40 <= MOST_SERVICES && c.characteristics.len() + 40 <= MOST_CHARACTERISTICS {
        return false;
    }
    let mut alone = Central {
        running: c.running.clone(),
        link: c.link.clone(),
        services: c.services.clone(),
        characteristics: c.characteristics.clone(),
        ..Central::default()
    };
    alone.on_fragment(start, data, at);
    alone.services.len() > MOST_SERVICES || alone.characteristics.len() > MOST_CHARACTERISTICS
}

fn accepted(b: &Batch) -> bool {
    let good = |(step, (place, len)): (&Step, &(u32, u32))| {
        let inside = u64::from(*place) + u64::from(*len) <= b.values.len() as u64;
        match kind(step) {
            6 | 8 => inside && *len as usize <= MOST_VALUE,
            _ => !matches!(step, Step::ExchangeMtu { mtu } if *mtu > MOST_MTU),
        }
    };
    b.count as usize <= super::MOST_STEPS && b.steps.iter().zip(&b.parts).all(good)
}

/// The refusal that 01 gives, 0 for none.
pub fn refusal(c: &Central, call: &Call) -> u8 {
    if time(call) > MOST_TIME {
        return 3;
    }
    match call {
        Call::Batch(b) => {
            if !accepted(b) {
                return 4;
            }
            let sum = u64::from(c.next_index) + (c.queue.len() + b.steps.len()) as u64;
            if sum > u64::from(u32::MAX) { 5 } else { 0 }
        }
        Call::Advertising { data, .. } | Call::ScanResponse { data, .. } if data.len() > MOST_ADVERTISED => 6,
        Call::Advertising { pdu, address, random, .. } if keys_full(c, *pdu, address, *random) => 8,
        Call::Fragment { at, start, data } => match held(c, *start, data.len()) {
            Some(n) if n > MOST_HELD => 7,
            Some(_) if table_full(c, *start, data, *at) => TABLE_FULL,
            _ => 0,
        },
        _ => 0,
    }
}
