//! Traces of calls: the records of docs/TRACE.md, to bytes and back.

pub mod answer;
pub mod four;
pub mod gate;
pub mod one;

use oracle::ble::central::{Step, Target, Uuid};
use std::io::{ErrorKind, Read};

/// The tag of each record, and with it the call's number in counts.
pub mod tag {
    pub const FRESH: u8 = 0;
    pub const BATCH: u8 = 1;
    pub const TIMER: u8 = 2;
    pub const CONNECTED: u8 = 3;
    pub const DISCONNECTED: u8 = 4;
    pub const ADVERTISING: u8 = 5;
    pub const SCAN_RESPONSE: u8 = 6;
    pub const FRAGMENT: u8 = 7;
    pub const TIMER_US: u8 = 8;
    pub const CONNECTED_HANDLE: u8 = 9;
    pub const RESULT: u8 = 10;
    pub const DUMP: u8 = 11;
    pub const LINKS: u8 = 12;
    pub const PASSED_ON: u8 = 13;
    pub const FRESH_WITH: u8 = 14;
    pub const MODE: u8 = 15;
}

/// How many records there are: the last four are of requests One and Four.
pub const TAGS: usize = if one::IS_THERE { NAMES.len() } else { 12 };

/// The word that a record's answer begins with, by tag.
pub const NAMES: [&str; 16] = [
    "fresh",
    "batch",
    "timer",
    "connected",
    "disconnected",
    "advertising",
    "scan_response",
    "fragment",
    "timer_us",
    "connected_handle",
    "result",
    "dump",
    "links",
    "passed_on",
    "fresh_with",
    "mode",
];

pub const HEADER: usize = 5;
pub const STEP: usize = 40;
/// Steps that a batch record can hold.
pub const MOST_STEPS: usize = 64;
/// Bytes of values that a batch record can lend.
pub const MOST_VALUES: usize = 16_384;
pub const MOST_DATA: usize = 255;
pub const MOST_FRAGMENT: usize = 65_535;

#[derive(Clone, Debug, PartialEq)]
pub struct Batch {
    pub now: u64,
    /// The number handed to the call: that of the steps, but where too many are tried.
    pub count: u32,
    /// Each with its value inside, as the Rust has it; empty where that isn't inside the lent bytes.
    pub steps: Vec<Step>,
    /// Place and length of each step's value in `values`.
    pub parts: Vec<(u32, u32)>,
    pub values: Vec<u8>,
}

#[derive(Clone, Debug, PartialEq)]
pub enum Call {
    Fresh,
    Batch(Batch),
    Timer { now: u64 },
    Connected { at: u64, handle: u16 },
    Disconnected { at: u64 },
    Advertising { at: u64, channel: u8, pdu: u8, address: [u8; 6], random: bool, to_central: bool, data: Vec<u8> },
    ScanResponse { at: u64, address: [u8; 6], random: bool, data: Vec<u8> },
    Fragment { at: u64, start: bool, data: Vec<u8> },
    TimerUs,
    ConnectedHandle,
    Result { index: u32 },
    Dump,
    Links,
    PassedOn { index: u32 },
    FreshWith { options: u64 },
    Mode,
}

/// Why a trace can't be read further.
#[derive(Clone, Copy, Debug, PartialEq)]
pub enum Bad {
    /// The input ends inside a record.
    Cut,
    /// No record has this tag.
    Tag,
    /// No record of this tag is so long or so short.
    Length,
    /// A kind, target or flag that is none.
    Field,
}

impl Bad {
    pub fn line(self) -> &'static str {
        match self {
            Bad::Cut => "bad cut",
            Bad::Tag => "bad tag",
            Bad::Length => "bad length",
            Bad::Field => "bad field",
        }
    }
}

pub fn kind(step: &Step) -> u8 {
    match step {
        Step::Scan { .. } => 0,
        Step::Connect { .. } => 1,
        Step::ExchangeMtu { .. } => 2,
        Step::DiscoverServices => 3,
        Step::DiscoverCharacteristics { .. } => 4,
        Step::Subscribe { .. } => 5,
        Step::Write { .. } => 6,
        Step::Read { .. } => 7,
        Step::WaitNotification { .. } => 8,
        Step::Wait { .. } => 9,
        Step::Disconnect => 10,
        Step::Capture { .. } => 11,
        Step::CaptureSecrets { .. } => 12,
    }
}

/// The bytes that a step carries, in no other than Write and WaitNotification.
pub fn value(step: &Step) -> &[u8] {
    match step {
        Step::Write { value, .. } => value,
        Step::WaitNotification { contains, .. } => contains,
        _ => &[],
    }
}

impl Batch {
    /// The values one after another.
    pub fn new(now: u64, steps: Vec<Step>) -> Batch {
        let (mut parts, mut values) = (Vec::new(), Vec::new());
        for step in &steps {
            let len = value(step).len() as u32;
            parts.push((if len == 0 { 0 } else { values.len() as u32 }, len));
            values.extend_from_slice(value(step));
        }
        Batch { now, count: steps.len() as u32, steps, parts, values }
    }
}

fn put_step(out: &mut Vec<u8>, step: &Step, (place, len): (u32, u32)) {
    let mut r = [0u8; STEP];
    r[0] = kind(step);
    let ms = |r: &mut [u8; STEP], ms: u32| r[4..8].copy_from_slice(&ms.to_le_bytes());
    let uuid = |r: &mut [u8; STEP], u: &Uuid| r[16..32].copy_from_slice(&u.0);
    match step {
        Step::Scan { ms: t } | Step::Wait { ms: t } => ms(&mut r, *t),
        Step::Connect { target, interval, latency, timeout, within_ms } => {
            ms(&mut r, *within_ms);
            r[8..10].copy_from_slice(&interval.to_le_bytes());
            r[10..12].copy_from_slice(&latency.to_le_bytes());
            r[12..14].copy_from_slice(&timeout.to_le_bytes());
            match target {
                Target::Any => {}
                Target::Address { address, random } => {
                    r[1] = 1;
                    r[2] = u8::from(*random);
                    r[16..22].copy_from_slice(address);
                }
                Target::Service(u) => {
                    r[1] = 2;
                    uuid(&mut r, u);
                }
            }
        }
        Step::ExchangeMtu { mtu } => r[8..10].copy_from_slice(&mtu.to_le_bytes()),
        Step::DiscoverServices | Step::Disconnect => {}
        Step::DiscoverCharacteristics { service } => uuid(&mut r, service),
        Step::Subscribe { characteristic, indicate } => {
            r[1] = u8::from(*indicate);
            uuid(&mut r, characteristic);
        }
        Step::Write { characteristic, with_response, .. } => {
            r[1] = u8::from(*with_response);
            uuid(&mut r, characteristic);
        }
        Step::Read { characteristic } => uuid(&mut r, characteristic),
        Step::WaitNotification { characteristic, within_ms, .. } => {
            ms(&mut r, *within_ms);
            uuid(&mut r, characteristic);
            if let Some(age_ms) = one::age(step) {
                r[1] = 1;
                r[8..12].copy_from_slice(&age_ms.to_le_bytes());
            }
        }
        Step::Capture { enabled } => r[1] = u8::from(*enabled),
        Step::CaptureSecrets { secrets } => r[1] = u8::from(*secrets),
    }
    r[32..36].copy_from_slice(&place.to_le_bytes());
    r[36..40].copy_from_slice(&len.to_le_bytes());
    out.extend_from_slice(&r);
}

impl Call {
    /// It begins a sequence.
    pub fn is_fresh(&self) -> bool {
        matches!(self, Call::Fresh | Call::FreshWith { .. })
    }

    pub fn tag(&self) -> u8 {
        match self {
            Call::Fresh => tag::FRESH,
            Call::Batch(_) => tag::BATCH,
            Call::Timer { .. } => tag::TIMER,
            Call::Connected { .. } => tag::CONNECTED,
            Call::Disconnected { .. } => tag::DISCONNECTED,
            Call::Advertising { .. } => tag::ADVERTISING,
            Call::ScanResponse { .. } => tag::SCAN_RESPONSE,
            Call::Fragment { .. } => tag::FRAGMENT,
            Call::TimerUs => tag::TIMER_US,
            Call::ConnectedHandle => tag::CONNECTED_HANDLE,
            Call::Result { .. } => tag::RESULT,
            Call::Dump => tag::DUMP,
            Call::Links => tag::LINKS,
            Call::PassedOn { .. } => tag::PASSED_ON,
            Call::FreshWith { .. } => tag::FRESH_WITH,
            Call::Mode => tag::MODE,
        }
    }

    pub fn put(&self, out: &mut Vec<u8>) {
        let at = out.len();
        out.extend_from_slice(&[self.tag(), 0, 0, 0, 0]);
        match self {
            Call::Fresh | Call::TimerUs | Call::ConnectedHandle | Call::Dump | Call::Links | Call::Mode => {}
            Call::FreshWith { options } => out.extend_from_slice(&options.to_le_bytes()),
            Call::Batch(b) => {
                out.extend_from_slice(&b.now.to_le_bytes());
                out.extend_from_slice(&b.count.to_le_bytes());
                for (step, part) in b.steps.iter().zip(&b.parts) {
                    put_step(out, step, *part);
                }
                out.extend_from_slice(&b.values);
            }
            Call::Timer { now } => out.extend_from_slice(&now.to_le_bytes()),
            Call::Connected { at, handle } => {
                out.extend_from_slice(&at.to_le_bytes());
                out.extend_from_slice(&handle.to_le_bytes());
            }
            Call::Disconnected { at } => out.extend_from_slice(&at.to_le_bytes()),
            Call::Advertising { at, channel, pdu, address, random, to_central, data } => {
                out.extend_from_slice(&at.to_le_bytes());
                out.extend_from_slice(&[*channel, *pdu]);
                out.extend_from_slice(address);
                out.extend_from_slice(&[u8::from(*random), u8::from(*to_central)]);
                out.extend_from_slice(data);
            }
            Call::ScanResponse { at, address, random, data } => {
                out.extend_from_slice(&at.to_le_bytes());
                out.extend_from_slice(address);
                out.push(u8::from(*random));
                out.extend_from_slice(data);
            }
            Call::Fragment { at, start, data } => {
                out.extend_from_slice(&at.to_le_bytes());
                out.push(u8::from(*start));
                out.extend_from_slice(data);
            }
            Call::Result { index } | Call::PassedOn { index } => out.extend_from_slice(&index.to_le_bytes()),
        }
        let len = (out.len() - at - HEADER) as u32;
        out[at + 1..at + HEADER].copy_from_slice(&len.to_le_bytes());
    }
}

/// The least and the greatest body of each record, by tag.
const BODY: [(usize, usize); 16] = [
    (0, 0),
    (12, 12 + MOST_STEPS * STEP + MOST_VALUES),
    (8, 8),
    (10, 10),
    (8, 8),
    (18, 18 + MOST_DATA),
    (15, 15 + MOST_DATA),
    (9, 9 + MOST_FRAGMENT),
    (0, 0),
    (0, 0),
    (4, 4),
    (0, 0),
    (0, 0),
    (4, 4),
    (8, 8),
    (0, 0),
];

fn number(b: &[u8]) -> u64 {
    b.iter().rev().fold(0, |n, x| n << 8 | u64::from(*x))
}

fn flag(b: u8) -> Result<bool, Bad> {
    if b > 1 { Err(Bad::Field) } else { Ok(b == 1) }
}

/// The age of a wait, which without the extension can't be read.
fn get_age(r: &[u8]) -> Result<Option<u32>, Bad> {
    match flag(r[1])? {
        true if !one::IS_THERE => Err(Bad::Field),
        aged => Ok(aged.then_some(number(&r[8..12]) as u32)),
    }
}

fn get_step(r: &[u8], values: &[u8]) -> Result<Step, Bad> {
    let ms = number(&r[4..8]) as u32;
    let half = |at: usize| number(&r[at..at + 2]) as u16;
    let uuid = Uuid(r[16..32].try_into().expect("16 bytes"));
    let (place, len) = (number(&r[32..36]) as usize, number(&r[36..40]) as usize);
    let value = || values.get(place..place + len).map(<[u8]>::to_vec).unwrap_or_default();
    Ok(match r[0] {
        0 => Step::Scan { ms },
        1 => Step::Connect {
            target: match r[1] {
                0 => Target::Any,
                1 => Target::Address { address: r[16..22].try_into().expect("6 bytes"), random: flag(r[2])? },
                2 => Target::Service(uuid),
                _ => return Err(Bad::Field),
            },
            interval: half(8),
            latency: half(10),
            timeout: half(12),
            within_ms: ms,
        },
        2 => Step::ExchangeMtu { mtu: half(8) },
        3 => Step::DiscoverServices,
        4 => Step::DiscoverCharacteristics { service: uuid },
        5 => Step::Subscribe { characteristic: uuid, indicate: flag(r[1])? },
        6 => Step::Write { characteristic: uuid, value: value(), with_response: flag(r[1])? },
        7 => Step::Read { characteristic: uuid },
        8 => one::wait(uuid, value(), ms, get_age(r)?),
        9 => Step::Wait { ms },
        10 => Step::Disconnect,
        11 => Step::Capture { enabled: flag(r[1])? },
        12 => Step::CaptureSecrets { secrets: flag(r[1])? },
        _ => return Err(Bad::Field),
    })
}

fn get_batch(b: &[u8]) -> Result<Call, Bad> {
    let count = number(&b[8..12]) as usize;
    let here = count.min(MOST_STEPS);
    let values = 12 + here * STEP;
    if b.len() < values || b.len() - values > MOST_VALUES {
        return Err(Bad::Length);
    }
    let (mut steps, mut parts) = (Vec::new(), Vec::new());
    for r in b[12..values].chunks_exact(STEP) {
        steps.push(get_step(r, &b[values..])?);
        parts.push((number(&r[32..36]) as u32, number(&r[36..40]) as u32));
    }
    let (now, values) = (number(&b[..8]), b[values..].to_vec());
    Ok(Call::Batch(Batch { now, count: count as u32, steps, parts, values }))
}

fn get(tag: u8, b: &[u8]) -> Result<Call, Bad> {
    let time = || number(&b[..8]);
    Ok(match tag {
        tag::FRESH => Call::Fresh,
        tag::BATCH => get_batch(b)?,
        tag::TIMER => Call::Timer { now: time() },
        tag::CONNECTED => Call::Connected { at: time(), handle: number(&b[8..10]) as u16 },
        tag::DISCONNECTED => Call::Disconnected { at: time() },
        tag::ADVERTISING => Call::Advertising {
            at: time(),
            channel: b[8],
            pdu: b[9],
            address: b[10..16].try_into().expect("6 bytes"),
            random: flag(b[16])?,
            to_central: flag(b[17])?,
            data: b[18..].to_vec(),
        },
        tag::SCAN_RESPONSE => Call::ScanResponse {
            at: time(),
            address: b[8..14].try_into().expect("6 bytes"),
            random: flag(b[14])?,
            data: b[15..].to_vec(),
        },
        tag::FRAGMENT => Call::Fragment { at: time(), start: flag(b[8])?, data: b[9..].to_vec() },
        tag::TIMER_US => Call::TimerUs,
        tag::CONNECTED_HANDLE => Call::ConnectedHandle,
        tag::RESULT => Call::Result { index: number(b) as u32 },
        tag::DUMP => Call::Dump,
        tag::LINKS => Call::Links,
        tag::PASSED_ON => Call::PassedOn { index: number(b) as u32 },
        tag::FRESH_WITH => Call::FreshWith { options: number(b) },
        tag::MODE => Call::Mode,
        _ => return Err(Bad::Tag),
    })
}

/// Fills `to` as far as the input goes.
fn fill(from: &mut impl Read, to: &mut [u8]) -> usize {
    let mut n = 0;
    while n < to.len() {
        match from.read(&mut to[n..]) {
            Ok(0) => break,
            Ok(more) => n += more,
            Err(e) if e.kind() == ErrorKind::Interrupted => {}
            Err(_) => break,
        }
    }
    n
}

/// The next record, or none at the end of the input.
pub fn next(from: &mut impl Read) -> Result<Option<Call>, Bad> {
    let mut head = [0u8; HEADER];
    match fill(from, &mut head) {
        0 => return Ok(None),
        HEADER => {}
        _ => return Err(Bad::Cut),
    }
    let len = number(&head[1..]) as usize;
    let &(least, most) = BODY[..TAGS].get(usize::from(head[0])).ok_or(Bad::Tag)?;
    if len < least || len > most {
        return Err(Bad::Length);
    }
    let mut body = vec![0u8; len];
    if fill(from, &mut body) < len {
        return Err(Bad::Cut);
    }
    get(head[0], &body).map(Some)
}
