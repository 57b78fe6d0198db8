//! The leaves of the Rust, as the oracle has them.
use super::port::Number;
use oracle::ble::central::{Central, LlRequest, Uuid, ad_lists_service, ad_local_name, cid};

fn number(uuid: Uuid) -> Number {
    u128::from_le_bytes(uuid.0)
}

pub fn uuid(n: Number) -> Uuid {
    Uuid(n.to_le_bytes())
}

pub fn parse(text: &str) -> Option<Number> {
    Uuid::parse(text).map(number)
}

pub fn from_att(bytes: &[u8]) -> Option<Number> {
    Uuid::from_att(bytes).map(number)
}

pub fn to_att(n: Number) -> Vec<u8> {
    uuid(n).to_att()
}

pub fn lists_service(data: &[u8], n: Number) -> bool {
    ad_lists_service(data, uuid(n))
}

pub fn local_name(data: &[u8]) -> Option<String> {
    ad_local_name(data)
}

/// The parameter rule stands in the middle of `on_signaling`, so it is asked by a request on a link: a whole L2CAP
/// frame in, the response frame and the link request out.
pub struct Params {
    central: Central,
}

impl Params {
    pub fn new() -> Params {
        let mut central = Central::default();
        central.on_connected(1, 0);
        Params { central }
    }

    /// Whether the request was granted, or what was wrong with the answer.
    pub fn good(&mut self, p: [u16; 4]) -> Result<bool, String> {
        let mut frame = [0; 16];
        frame[0] = 12;
        frame[2] = cid::SIGNALING as u8;
        frame[4..8].copy_from_slice(&[0x12, 0x07, 8, 0]);
        for (i, v) in p.iter().enumerate() {
            frame[8 + 2 * i..10 + 2 * i].copy_from_slice(&v.to_le_bytes());
        }
        self.central.on_fragment(true, &frame, 0);
        let frames = self.central.take_frames();
        let asked = self.central.take_ll_requests();
        let answer = |r: u8| vec![vec![6, 0, 5, 0, 0x13, 7, 2, 0, r, 0]];
        let update = LlRequest::Update {
            interval: p[1],
            latency: p[2],
            timeout: p[3],
        };
        if frames == answer(0) && asked == [update] {
            Ok(true)
        } else if frames == answer(1) && asked.is_empty() {
            Ok(false)
        } else {
            Err(format!("frames {frames:02x?}, link requests {asked:?}"))
        }
    }
}
