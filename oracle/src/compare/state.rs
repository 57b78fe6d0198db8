//! The state that the words and the store say, as the Rust has it: the layout of crates/c_core/specs/Layout.antt,
//! crates/words/specs/Words.antt and Tables.antt, and crates/state_places.

use crate::exports::Memory;
#[cfg(extended)]
use oracle::ble::central::Options;
use oracle::ble::central::{
    AdvReport, Central, CentralLink, Characteristic, Notification, Running, Service, Step, StepResult, StepStatus,
    Target, Uuid,
};

/// Rows of the tables.
const STEP: usize = 0;
const STEP_LOW: usize = 64;
const STEP_HIGH: usize = 128;
const STEP_CONNECT: usize = 192;
const RESULT_TIME: usize = 256;
const RESULT: usize = 320;
const SERVICE_LOW: usize = 384;
const SERVICE_HIGH: usize = 416;
const SERVICE: usize = 448;
const CHARACTERISTIC_LOW: usize = 480;
const CHARACTERISTIC_HIGH: usize = 544;
const CHARACTERISTIC: usize = 608;
const NOTIFICATION_TIME: usize = 672;
const NOTIFICATION: usize = 704;
const REPORT_WHO: usize = 736;
const REPORT_TIME: usize = 800;
const REPORT: usize = 864;
const KEY: usize = 928;
#[cfg(extended)]
const NOTIFICATION_LINK: usize = 1_056;
#[cfg(extended)]
const RESULT_HEARD: usize = 1_088;

/// Places in the store, and the room that each value has.
const RUNNING_AT: usize = 0;
const WAITING_AT: usize = 244;
const RESULTS_AT: usize = 15_860;
pub const NOTIFICATIONS_AT: usize = 31_604;
const HELD_AT: usize = 39_412;
pub const REPORTS_AT: usize = 39_663;
pub const MAX_VALUE: usize = 244;
const MAX_RESULT_VALUE: usize = 246;
pub const MAX_DATA: usize = 31;

/// A step taken apart.
struct Flat {
    kind: u64,
    flag: bool,
    ms: u32,
    mtu: u16,
    uuid: Uuid,
    low: u64,
    aim: u64,
    latency: u16,
    timeout: u16,
    interval: u16,
    value: Vec<u8>,
}

/// The byte and the 16 bits that begin at a bit.
fn byte(x: u64, bit: u32) -> u8 {
    (x >> bit) as u8
}

fn half(x: u64, bit: u32) -> u16 {
    (x >> bit) as u16
}

fn uuid(low: u64, high: u64) -> Uuid {
    Uuid((u128::from(high) << 64 | u128::from(low)).to_le_bytes())
}

/// An address and whether it is random.
fn address(number: u64) -> ([u8; 6], bool) {
    let b = number.to_le_bytes();
    ([b[0], b[1], b[2], b[3], b[4], b[5]], number >> 48 != 0)
}

/// A status by its number and code; none for one that the Rust has not.
pub fn status(number: u8, code: u8) -> Option<StepStatus> {
    Some(match (number, code) {
        (0, 0) => StepStatus::Ok,
        (1, 0) => StepStatus::Timeout,
        (2, 0) => StepStatus::NotConnected,
        (3, 0) => StepStatus::NotFound,
        (4, code) => StepStatus::AttError(code),
        (5, 0) => StepStatus::TooLong,
        (6, 0) => StepStatus::Disconnected,
        #[cfg(extended)]
        (8, 0) => StepStatus::BearerClosed,
        _ => return None,
    })
}

fn target(f: &Flat) -> Target {
    match f.aim {
        0 => Target::Any,
        1 => {
            let (address, random) = address(f.low);
            Target::Address { address, random }
        }
        _ => Target::Service(f.uuid),
    }
}

fn step(f: Flat) -> Result<Step, String> {
    Ok(match f.kind {
        0 => Step::Scan { ms: f.ms },
        1 => Step::Connect {
            target: target(&f),
            interval: f.interval,
            latency: f.latency,
            timeout: f.timeout,
            within_ms: f.ms,
        },
        2 => Step::ExchangeMtu { mtu: f.mtu },
        3 => Step::DiscoverServices,
        4 => Step::DiscoverCharacteristics { service: f.uuid },
        5 => Step::Subscribe { characteristic: f.uuid, indicate: f.flag },
        6 => Step::Write { characteristic: f.uuid, value: f.value, with_response: f.flag },
        7 => Step::Read { characteristic: f.uuid },
        8 if f.flag && !cfg!(extended) => return Err("an aged wait".into()),
        // The age has the bits of a Connect's latency and timeout.
        8 => Step::WaitNotification {
            characteristic: f.uuid,
            contains: f.value,
            within_ms: f.ms,
            #[cfg(extended)]
            age_ms: f.flag.then_some(u32::from(f.latency) | u32::from(f.timeout) << 16),
        },
        9 => Step::Wait { ms: f.ms },
        10 => Step::Disconnect,
        11 => Step::Capture { enabled: f.flag },
        12 => Step::CaptureSecrets { secrets: f.flag },
        kind => return Err(format!("a step of kind {kind}")),
    })
}

impl Memory {
    /// Bytes of the store.
    fn bytes(&self, at: usize, len: usize) -> Result<Vec<u8>, String> {
        at.checked_add(len)
            .and_then(|end| self.store.get(at..end))
            .map(<[u8]>::to_vec)
            .ok_or(format!("{len} bytes at {at} of the store"))
    }

    /// So many of a table's places, the count being a word of the core.
    fn each<T>(&self, count: usize, most: usize, f: impl Fn(usize) -> Result<T, String>) -> Result<Vec<T>, String> {
        let n = self.core[count] as usize;
        if n > most {
            return Err(format!("word {count} of the core counts {n}"));
        }
        (0..n).map(f).collect()
    }

    fn waiting(&self, i: usize) -> Result<Step, String> {
        let t = &self.tables;
        let (a, low, high, d) = (t[STEP + i], t[STEP_LOW + i], t[STEP_HIGH + i], t[STEP_CONNECT + i]);
        let carries = matches!(byte(a, 0), 6 | 8);
        step(Flat {
            kind: u64::from(byte(a, 0)),
            flag: byte(a, 8) & 1 == 1,
            ms: (a >> 16) as u32,
            mtu: half(a, 48),
            uuid: uuid(low, high),
            low,
            aim: u64::from(byte(d, 0)),
            latency: half(d, 16),
            timeout: half(d, 32),
            interval: half(d, 48),
            value: if carries { self.bytes(WAITING_AT + MAX_VALUE * i, byte(a, 48).into())? } else { Vec::new() },
        })
    }

    fn running(&self) -> Result<Option<Running>, String> {
        let w = &self.core;
        if w[5] & 1 == 0 {
            return Ok(None);
        }
        let carries = matches!(w[7], 6 | 8);
        let step = step(Flat {
            kind: w[7],
            flag: w[8] & 1 == 1,
            ms: w[9] as u32,
            mtu: w[10] as u16,
            uuid: uuid(w[11], w[12]),
            low: w[11],
            aim: w[13],
            latency: w[14] as u16,
            timeout: w[15] as u16,
            interval: w[16] as u16,
            value: if carries { self.bytes(RUNNING_AT, w[3] as u8 as usize)? } else { Vec::new() },
        })?;
        let key = |i| {
            let ([a, b, c, d, e, f], random) = address(self.tables[KEY + i]);
            Ok([u8::from(random), a, b, c, d, e, f])
        };
        Ok(Some(Running {
            index: w[1] as u32,
            step,
            deadline_us: (w[6] & 1 == 1).then_some(w[0]),
            phase: w[4] as u8,
            cursor: w[2] as u16,
            scan_requested: self.each(33, 128, key)?,
        }))
    }

    fn link(&self) -> Result<Option<CentralLink>, String> {
        let w = &self.core;
        if w[22] & 1 == 0 {
            return Ok(None);
        }
        Ok(Some(CentralLink {
            handle: w[18] as u16,
            mtu: w[19] as u16,
            rx: self.bytes(HELD_AT, w[17] as usize)?,
            pending: Some(w[20] as u8).filter(|p| *p != 0),
            terminating: w[21] & 1 == 1,
            ..CentralLink::default()
        }))
    }

    fn kept_result(&self, i: usize) -> Result<StepResult, String> {
        let x = self.tables[RESULT + i];
        Ok(StepResult {
            index: x as u32,
            at_us: self.tables[RESULT_TIME + i],
            status: status(byte(x, 32), byte(x, 40)).ok_or(format!("result {i} has the status {}", byte(x, 32)))?,
            value: self.bytes(RESULTS_AT + MAX_RESULT_VALUE * i, byte(x, 56).into())?,
            #[cfg(extended)]
            heard: self.tables[RESULT_HEARD + i],
        })
    }

    fn kept_report(&self, i: usize) -> Result<AdvReport, String> {
        let x = self.tables[REPORT + i];
        let (address, random) = address(self.tables[REPORT_WHO + i]);
        let at = REPORTS_AT + 2 * MAX_DATA * i;
        let response =
            if byte(x, 32) & 1 == 1 { None } else { Some(self.bytes(at + MAX_DATA, usize::from(byte(x, 24) % 32))?) };
        Ok(AdvReport {
            at_us: self.tables[REPORT_TIME + i],
            channel: byte(x, 0),
            pdu_type: byte(x, 8),
            address,
            random,
            data: self.bytes(at, usize::from(byte(x, 16) % 32))?,
            scan_response: response,
        })
    }

    fn service(&self, i: usize) -> Result<Service, String> {
        let t = &self.tables;
        let x = t[SERVICE + i];
        Ok(Service { start: half(x, 0), end: half(x, 16), uuid: uuid(t[SERVICE_LOW + i], t[SERVICE_HIGH + i]) })
    }

    fn characteristic(&self, i: usize) -> Result<Characteristic, String> {
        let t = &self.tables;
        let x = t[CHARACTERISTIC + i];
        Ok(Characteristic {
            declaration: half(x, 48),
            properties: byte(x, 0),
            value_handle: half(x, 32),
            uuid: uuid(t[CHARACTERISTIC_LOW + i], t[CHARACTERISTIC_HIGH + i]),
            cccd: (byte(x, 8) & 1 == 1).then_some(half(x, 16)),
        })
    }

    fn notification(&self, i: usize) -> Result<Notification, String> {
        let x = self.tables[NOTIFICATION + i];
        Ok(Notification {
            at_us: self.tables[NOTIFICATION_TIME + i],
            handle: half(x, 0),
            indication: byte(x, 16) & 1 == 1,
            value: self.bytes(NOTIFICATIONS_AT + MAX_VALUE * i, byte(x, 56).into())?,
            #[cfg(extended)]
            link: self.tables[NOTIFICATION_LINK + i],
        })
    }
}

/// All that is kept.
pub fn central(m: &Memory) -> Result<Central, String> {
    Ok(Central {
        next_index: m.core[23] as u32,
        queue: m.each(27, 64, |i| m.waiting(i))?,
        running: m.running()?,
        results: m.each(28, 64, |i| m.kept_result(i))?,
        reports: m.each(32, 64, |i| m.kept_report(i))?,
        link: m.link()?,
        services: m.each(29, 32, |i| m.service(i))?,
        characteristics: m.each(30, 64, |i| m.characteristic(i))?,
        notifications: m.each(31, 32, |i| m.notification(i))?,
        notified: m.core[25],
        wait_from: m.core[26],
        refused_steps: m.core[24],
        #[cfg(extended)]
        links: m.core[34],
        #[cfg(extended)]
        options: Options { strict: m.core[36] & 1 == 1 },
        #[cfg(extended)]
        closed: m.core[35] & 1 == 1,
    })
}
