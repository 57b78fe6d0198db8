//! A state of the Rust in the words and bytes that C lends.

use crate::exports::{Memory, STEP};
use crate::state;
use oracle::ble::central::{Central, Running, Step, StepStatus, Target, Uuid};

/// Places in the store, and the room that each value has, as state.rs reads them.
const WAITING_AT: usize = 244;
const RESULTS_AT: usize = 15_860;
const NOTIFICATIONS_AT: usize = 31_604;
const HELD_AT: usize = 39_412;
const REPORTS_AT: usize = 39_663;
const MAX_VALUE: usize = 244;
const MAX_RESULT_VALUE: usize = 246;
const MAX_DATA: usize = 31;

/// An address as a number: 48 bits, and one more if it is random.
pub fn number_of(address: &[u8], random: bool) -> u64 {
    address.iter().rev().fold(u64::from(random), |n, b| n << 8 | u64::from(*b))
}

fn halves(uuid: &Uuid) -> [u64; 2] {
    let n = u128::from_le_bytes(uuid.0);
    [n as u64, (n >> 64) as u64]
}

/// A step that the rows have, and its value.
fn apart(step: &Step) -> ([u64; STEP], &[u8]) {
    let mut w = [0; STEP];
    let uuid = |w: &mut [u64; STEP], u| [w[4], w[5]] = halves(u);
    let value: &[u8] = match step {
        Step::Scan { ms } => {
            w[2] = u64::from(*ms);
            &[]
        }
        Step::Connect { target: Target::Service(u), interval, latency, timeout, within_ms } => {
            [w[0], w[2], w[6]] = [1, u64::from(*within_ms), 2];
            [w[7], w[8], w[9]] = [u64::from(*latency), u64::from(*timeout), u64::from(*interval)];
            uuid(&mut w, u);
            &[]
        }
        Step::DiscoverCharacteristics { service } => {
            w[0] = 4;
            uuid(&mut w, service);
            &[]
        }
        Step::Read { characteristic } => {
            w[0] = 7;
            uuid(&mut w, characteristic);
            &[]
        }
        Step::WaitNotification { characteristic, contains, within_ms } => {
            [w[0], w[2]] = [8, u64::from(*within_ms)];
            uuid(&mut w, characteristic);
            contains
        }
        Step::Wait { ms } => {
            [w[0], w[2]] = [9, u64::from(*ms)];
            &[]
        }
        Step::Capture { enabled } => {
            [w[0], w[1]] = [11, u64::from(*enabled)];
            &[]
        }
        other => panic!("no row has a {other:?}"),
    };
    w[11] = value.len() as u64;
    (w, value)
}

/// The words of a batch, none of whose steps has a value.
pub fn batch_words(steps: &[Step]) -> Vec<u64> {
    steps.iter().flat_map(|s| apart(s).0).collect()
}

fn put(m: &mut Memory, at: usize, value: &[u8]) {
    m.store[at..at + value.len()].copy_from_slice(value);
}

fn put_running(m: &mut Memory, r: &Running) {
    let (w, value) = apart(&r.step);
    m.core[..7].copy_from_slice(&[
        r.deadline_us.unwrap_or(0),
        u64::from(r.index),
        u64::from(r.cursor),
        value.len() as u64,
        u64::from(r.phase),
        1,
        u64::from(r.deadline_us.is_some()),
    ]);
    m.core[7..17].copy_from_slice(&w[..10]);
    put(m, 0, value);
    m.core[33] = r.scan_requested.len() as u64;
    for (i, k) in r.scan_requested.iter().enumerate() {
        m.tables[928 + i] = number_of(&k[1..], k[0] == 1);
    }
}

fn put_waiting(m: &mut Memory, i: usize, step: &Step) {
    let (w, value) = apart(step);
    m.tables[i] = w[0] | w[1] << 8 | w[2] << 16 | (w[3] + w[11]) << 48;
    m.tables[64 + i] = w[4];
    m.tables[128 + i] = w[5];
    m.tables[192 + i] = w[6] | w[7] << 16 | w[8] << 32 | w[9] << 48;
    put(m, WAITING_AT + MAX_VALUE * i, value);
}

/// What was heard.
fn put_heard(m: &mut Memory, c: &Central) {
    for (i, r) in c.reports.iter().enumerate() {
        let response = r.scan_response.as_deref();
        let lens = [r.data.len() as u64, response.map_or(0, <[u8]>::len) as u64];
        m.tables[736 + i] = number_of(&r.address, r.random);
        m.tables[800 + i] = r.at_us;
        m.tables[864 + i] = u64::from(r.channel)
            | u64::from(r.pdu_type) << 8
            | lens[0] << 16
            | lens[1] << 24
            | u64::from(response.is_none()) << 32;
        put(m, REPORTS_AT + 2 * MAX_DATA * i, &r.data);
        put(m, REPORTS_AT + 2 * MAX_DATA * i + MAX_DATA, response.unwrap_or_default());
    }
    for (i, n) in c.notifications.iter().enumerate() {
        m.tables[672 + i] = n.at_us;
        m.tables[704 + i] = u64::from(n.handle) | u64::from(n.indication) << 16 | (n.value.len() as u64) << 56;
        put(m, NOTIFICATIONS_AT + MAX_VALUE * i, &n.value);
    }
}

/// What was discovered, and the results.
fn put_known(m: &mut Memory, c: &Central) {
    for (i, r) in c.results.iter().enumerate() {
        assert_eq!(r.status, StepStatus::Ok, "no row has another result");
        m.tables[256 + i] = r.at_us;
        m.tables[320 + i] = u64::from(r.index) | (r.value.len() as u64) << 56;
        put(m, RESULTS_AT + MAX_RESULT_VALUE * i, &r.value);
    }
    for (i, s) in c.services.iter().enumerate() {
        [m.tables[384 + i], m.tables[416 + i]] = halves(&s.uuid);
        m.tables[448 + i] = u64::from(s.start) | u64::from(s.end) << 16;
    }
    for (i, d) in c.characteristics.iter().enumerate() {
        [m.tables[480 + i], m.tables[544 + i]] = halves(&d.uuid);
        m.tables[608 + i] = u64::from(d.properties)
            | u64::from(d.cccd.is_some()) << 8
            | u64::from(d.cccd.unwrap_or(0)) << 16
            | u64::from(d.value_handle) << 32
            | u64::from(d.declaration) << 48;
    }
}

/// The state in words and store.
pub fn memory(c: &Central) -> Memory {
    let mut m = Memory::new();
    if let Some(r) = &c.running {
        put_running(&mut m, r);
    }
    if let Some(l) = &c.link {
        m.core[17..23].copy_from_slice(&[
            l.rx.len() as u64,
            u64::from(l.handle),
            u64::from(l.mtu),
            u64::from(l.pending.unwrap_or(0)),
            u64::from(l.terminating),
            1,
        ]);
        put(&mut m, HELD_AT, &l.rx);
    }
    for (i, step) in c.queue.iter().enumerate() {
        put_waiting(&mut m, i, step);
    }
    put_heard(&mut m, c);
    put_known(&mut m, c);
    m.core[23..27].copy_from_slice(&[u64::from(c.next_index), c.refused_steps, c.notified, c.wait_from]);
    let counts = [c.queue.len(), c.results.len(), c.services.len(), c.characteristics.len(), c.notifications.len()];
    for (word, n) in m.core[27..32].iter_mut().zip(counts) {
        *word = n as u64;
    }
    m.core[32] = c.reports.len() as u64;
    assert_eq!(state::central(&m).as_ref(), Ok(c), "the words say another state");
    m
}
