//! The views of a kept report through the C interface, beside the Rust's report: the calls of a trace read none. Every word that a
//! view tells is computed here once more: the places by the layout of the store, the body, and why a service is unknown, by leaf/slow.rs.

use crate::c_port::{halves, number_of};
use crate::exports::{Memory, Seen, Told};
use crate::slow::{self, Cause, Number};
use crate::state::{MAX_DATA, REPORTS_AT};
use oracle::ble::central::{AdvReport, Uuid, ad_lists_service};

/// A service that some advertisers of a sequence list.
const LISTED: u16 = 0x180F;

/// What a view can come upon.
#[derive(Clone, Copy)]
enum Case {
    BehindTheLast,
    NoResponse,
    EmptyResponse,
    Response,
    InData,
    InResponse,
    InBoth,
    Nowhere,
    By2,
    By4,
    By16,
    Absent,
    Listed,
    Incomplete16,
    Incomplete32,
    Incomplete128,
    Overrun,
}

pub const CASES: [&str; 17] = [
    "a place behind the last report",
    "no scan response",
    "an empty scan response",
    "a scan response",
    "a service in the data",
    "a service in the scan response alone",
    "a service in both",
    "a service in neither",
    "a list of 2 bytes each",
    "a list of 4 bytes each",
    "a list of 16 bytes each",
    "a service that is absent",
    "one that is listed",
    "one that is unknown by kind 02",
    "by kind 04",
    "by kind 06",
    "by an overrun",
];

/// How often each was met.
pub type Met = [u64; CASES.len()];

/// A part of the store by its place and length.
type Span = (usize, usize);

/// Where the data of report `i` stands, and its scan response.
fn spans(i: usize, r: &AdvReport) -> (Span, Option<Span>) {
    let at = REPORTS_AT + 2 * MAX_DATA * i;
    ((at, r.data.len()), r.scan_response.as_ref().map(|s| (at + MAX_DATA, s.len())))
}

fn there(m: &Memory, (at, len): Span, wanted: &[u8]) -> bool {
    m.store.get(at..at + len) == Some(wanted)
}

fn seen_words(i: usize, r: &AdvReport) -> Seen {
    let (data, response) = spans(i, r);
    let (at, len) = response.unwrap_or_default();
    [
        0,
        1,
        r.at_us,
        r.channel.into(),
        r.pdu_type.into(),
        number_of(&r.address, r.random),
        data.0 as u64,
        data.1 as u64,
        u64::from(response.is_some()),
        at as u64,
        len as u64,
        0,
    ]
}

fn span_words(span: Option<Span>) -> Told {
    match span {
        None => [0; 8],
        Some((at, len)) => [0, 1, at as u64, len as u64, 0, 0, 0, 0],
    }
}

/// The last UUID of each list, as the structure has it.
fn last_of_each(data: &[u8]) -> Vec<Uuid> {
    let last = |(kind, start, count): (u8, usize, usize)| {
        let (width, body) = (slow::width(kind), &data[start..start + count]);
        let u = if width == 0 { None } else { body.chunks_exact(width).next_back() }?;
        let n = u.iter().rev().fold(0, |n: Number, b| n << 8 | Number::from(*b));
        Some(Uuid((if width == 16 { n } else { slow::short(n as u32) }).to_le_bytes()))
    };
    slow::structures(data).into_iter().filter_map(last).collect()
}

/// Where the body stands that lists the service: of the data, or else of the scan response.
fn body(i: usize, r: &AdvReport, uuid: Uuid, met: &mut Met) -> Result<Option<Span>, String> {
    let number = Number::from_le_bytes(uuid.0);
    let ((data_at, _), response) = spans(i, r);
    let answer = r.scan_response.as_deref().unwrap_or_default();
    let (first, second) = (slow::listed(&r.data, number), slow::listed(answer, number));
    if [first.is_some(), second.is_some()] != [ad_lists_service(&r.data, uuid), ad_lists_service(answer, uuid)] {
        return Err("the Rust and the slow search differ".into());
    }
    let case = match (first, second) {
        (Some(_), Some(_)) => Case::InBoth,
        (Some(_), None) => Case::InData,
        (None, Some(_)) => Case::InResponse,
        (None, None) => Case::Nowhere,
    };
    met[case as usize] += 1;
    let found = first.map(|f| (data_at, f)).or(second.zip(response).map(|(f, (at, _))| (at, f)));
    if let Some((_, (kind, _))) = found {
        met[match slow::width(kind) {
            2 => Case::By2,
            4 => Case::By4,
            _ => Case::By16,
        } as usize] += 1;
    }
    Ok(found.map(|(at, (_, (start, count)))| (at + start, count)))
}

/// What the report tells of the service: listed by the Rust, else unknown by any cause, else absent (02, Five).
fn presence(r: &AdvReport, uuid: Uuid, met: &mut Met) -> Told {
    let answer = r.scan_response.as_deref().unwrap_or_default();
    let causes = [slow::causes(&r.data), slow::causes(answer)].concat();
    if ad_lists_service(&r.data, uuid) || ad_lists_service(answer, uuid) {
        met[Case::Listed as usize] += 1;
        return [0, 1, 1, 0, 0, 0, 0, 0];
    }
    if causes.is_empty() {
        met[Case::Absent as usize] += 1;
        return [0, 1, 0, 0, 0, 0, 0, 0];
    }
    for cause in causes {
        met[match cause {
            Cause::Incomplete16 => Case::Incomplete16,
            Cause::Incomplete32 => Case::Incomplete32,
            Cause::Incomplete128 => Case::Incomplete128,
            Cause::Overrun => Case::Overrun,
        } as usize] += 1;
    }
    [0, 1, 2, 0, 0, 0, 0, 0]
}

fn same<const N: usize>(what: &str, told: [u64; N], wanted: [u64; N]) -> Result<(), String> {
    if told == wanted { Ok(()) } else { Err(format!("{what} told {told:?} and not {wanted:?}")) }
}

fn compared(m: &Memory, i: usize, wanted: Option<&AdvReport>, met: &mut Met) -> Result<(), String> {
    let of_180f = Uuid::from_u16(LISTED);
    let (low, high) = halves(&of_180f);
    let Some(r) = wanted else {
        met[Case::BehindTheLast as usize] += 1;
        same("report", m.report(i), [0; 12])?;
        same("report_data", m.report_data(i), [0; 8])?;
        same("report_response", m.report_response(i), [0; 8])?;
        same("report_presence", m.report_presence(i, low, high), [0; 8])?;
        return same("report_body", m.report_body(i, low, high), [0; 8]);
    };
    met[match r.scan_response.as_deref() {
        None => Case::NoResponse,
        Some([]) => Case::EmptyResponse,
        Some(_) => Case::Response,
    } as usize] += 1;
    let (data, response) = spans(i, r);
    same("report", m.report(i), seen_words(i, r))?;
    same("report_data", m.report_data(i), span_words(Some(data)))?;
    same("report_response", m.report_response(i), span_words(response))?;
    let answer = r.scan_response.as_deref().unwrap_or_default();
    if !there(m, data, &r.data) || !there(m, response.unwrap_or_default(), answer) {
        return Err("other bytes stand there".into());
    }
    let mut asked = vec![of_180f];
    asked.extend(last_of_each(&r.data));
    asked.extend(last_of_each(answer));
    for uuid in asked {
        let (low, high) = halves(&uuid);
        same("report_body", m.report_body(i, low, high), span_words(body(i, r, uuid, met)?))?;
        same("report_presence", m.report_presence(i, low, high), presence(r, uuid, met))?;
    }
    Ok(())
}

/// What is wrong with the views of report `i`, if anything; `wanted` is the Rust's, none behind the last.
pub fn fault(m: &Memory, i: usize, wanted: Option<&AdvReport>, met: &mut Met) -> Option<String> {
    compared(m, i, wanted, met).err().map(|why| format!("report {i}: {why}"))
}
