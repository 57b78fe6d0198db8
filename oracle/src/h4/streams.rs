//! Random streams of bytes, each cut into feeds: good packets of all five kinds and every length, stated lengths over 1,024, undefined
//! indicators, noise; and streams in a state that no feed left.

use crate::rng::Rng;
use oracle::ble::hci::{H4_ACL, H4_COMMAND, H4_EVENT, H4_ISO, H4_SCO, LONGEST_PACKET, Serial};

/// How much output is lent, against what is held and fed.
#[derive(Clone, Copy, Debug, PartialEq)]
pub enum Room {
    Exact,
    Spare(usize),
    /// Under it, where that can be; the same bytes are then fed again, with room.
    Short(usize),
}

#[derive(Clone, Debug)]
pub struct Feed {
    pub bytes: Vec<u8>,
    pub room: Room,
    /// The stream is reset before it.
    pub reset: bool,
}

/// The stream before, the words that C has of it, and the feeds.
#[derive(Clone, Debug)]
pub struct Cutting {
    pub before: Serial,
    pub words: [u64; 2],
    pub feeds: Vec<Feed>,
}

/// Bytes to take payloads from.
pub struct Pool(Vec<u8>);

impl Pool {
    const SIZE: usize = 1 << 16;

    pub fn new(r: &mut Rng) -> Pool {
        Pool(r.bytes(Pool::SIZE))
    }

    /// Any `n` bytes.
    pub fn some(&self, r: &mut Rng, n: usize) -> &[u8] {
        let at = r.size(0, Pool::SIZE - n);
        &self.0[at..at + n]
    }
}

const KINDS: [u8; 5] = [H4_COMMAND, H4_ACL, H4_SCO, H4_EVENT, H4_ISO];

/// More of a body than this is not sent where the stated length is over the longest: the stream is lost by then.
const LOST_BODY: usize = 40;

fn payload_size(r: &mut Rng, wide: bool) -> usize {
    match (r.below(100), wide) {
        (0..45, _) => r.size(0, 8),
        (45..75, _) => r.size(0, 40),
        (75..90, _) => r.size(0, 255),
        (_, false) => r.size(252, 255),
        (90..94, true) => r.size(LONGEST_PACKET - 7, LONGEST_PACKET - 3),
        (94..97, true) => r.size(256, LONGEST_PACKET),
        (97..99, true) => r.size(LONGEST_PACKET, LONGEST_PACKET + 80),
        _ => r.size(0, 0xFFFF),
    }
}

/// One good packet, but for a stated length over the longest.
fn packet(r: &mut Rng, pool: &Pool, to: &mut Vec<u8>) {
    let kind = *r.pick(&KINDS);
    let size = payload_size(r, matches!(kind, H4_ACL | H4_ISO));
    let [lo, hi] = (size as u16).to_le_bytes();
    let [a, b] = r.half().to_le_bytes();
    match kind {
        H4_EVENT => to.extend([kind, a, lo]),
        H4_ACL => to.extend([kind, a, b, lo, hi]),
        // The two bits above the length are reserved.
        H4_ISO => to.extend([kind, a, b, lo, hi % 0x40 | r.byte() & 0xC0]),
        _ => to.extend([kind, a, b, lo]),
    }
    let size = if kind == H4_ISO { size % 0x4000 } else { size };
    let sent = if size > LONGEST_PACKET { r.size(0, LOST_BODY) } else { size };
    to.extend_from_slice(pool.some(r, sent));
}

fn undefined(r: &mut Rng) -> u8 {
    match r.byte() {
        1..=5 => 0,
        b => b,
    }
}

/// All bytes, and where packets begin.
fn stream(r: &mut Rng, pool: &Pool) -> (Vec<u8>, Vec<usize>) {
    let (mut bytes, mut starts) = (Vec::new(), vec![0]);
    if r.chance(2) {
        let n = r.size(0, 100);
        bytes.extend_from_slice(pool.some(r, n));
        return (bytes, starts);
    }
    let packets = r.size(1, 5);
    let bad = if r.chance(12) { r.size(0, packets) } else { usize::MAX };
    for i in 0..packets {
        if i == bad {
            bytes.push(undefined(r));
        }
        packet(r, pool, &mut bytes);
        starts.push(bytes.len());
    }
    if bad == packets {
        bytes.push(undefined(r));
    }
    if r.chance(40) {
        let from = starts[starts.len() - 2];
        bytes.truncate(r.size(from, bytes.len()));
    }
    (bytes, starts)
}

/// Where the bytes are cut, rising.
fn cuts(r: &mut Rng, len: usize, starts: &[usize]) -> Vec<usize> {
    let mut at = Vec::new();
    match r.below(5) {
        0 => {}
        // Feeds of about one size: single bytes, unless that would be many.
        1 => {
            let most = if len <= 60 { 1 } else { *r.pick(&[16, 64, 300]) };
            let mut from = 0;
            while from < len {
                from += r.size(1, most);
                at.push(from.min(len));
            }
        }
        2 => at.extend((0..r.size(1, 3)).map(|_| r.size(0, len))),
        // About the border of a packet, or within its header.
        _ => at.extend((0..r.size(1, 4)).map(|_| (r.pick(starts) + r.size(0, 6)).saturating_sub(1).min(len))),
    }
    if r.chance(10) {
        at.push(*at.last().unwrap_or(&0));
    }
    at.sort_unstable();
    at
}

fn room(r: &mut Rng, short: u64) -> Room {
    match r.below(100) {
        n if n < short => Room::Short(r.size(1, 20)),
        94.. => Room::Spare(r.size(1, 300)),
        _ => Room::Exact,
    }
}

/// A stream that no feed left: whole packets in what is held, a lost one with bytes, a count over the longest.
fn odd(r: &mut Rng, pool: &Pool) -> (Serial, [u64; 2]) {
    let mut held = Vec::new();
    for _ in 0..r.size(0, 3) {
        packet(r, pool, &mut held);
    }
    held.truncate(LONGEST_PACKET);
    let lost = *r.pick(&[0, 0, 0, 9, 10]);
    let mut words = [held.len() as u64, u64::from(lost)];
    // Any word but 0 and 9 says 10.
    if lost == 10 && r.flip() {
        words[1] = *r.pick(&[1, 8, 11, 9 + (1 << 32), u64::MAX]);
    }
    if r.chance(30) {
        held = vec![0; LONGEST_PACKET + 1];
        words[0] = *r.pick(&[1025, 1026, 1 << 32, u64::MAX]);
    }
    (Serial { held, lost }, words)
}

pub fn cutting(r: &mut Rng, pool: &Pool) -> Cutting {
    // Of an odd stream more feeds have no room, since refusal 1 comes before 2.
    let (before, words, short) = if r.chance(3) {
        let (before, words) = odd(r, pool);
        (before, words, 20)
    } else {
        (Serial::default(), [0; 2], 2)
    };
    let (bytes, starts) = stream(r, pool);
    let mut ends = cuts(r, bytes.len(), &starts);
    ends.push(bytes.len());
    let resets = if r.chance(20) { 25 } else { 0 };
    let mut feeds = Vec::with_capacity(ends.len());
    let mut from = 0;
    for to in ends {
        feeds.push(Feed { bytes: bytes[from..to].to_vec(), room: room(r, short), reset: r.chance(resets) });
        from = to;
    }
    Cutting { before, words, feeds }
}
