//! The builders against those of docs/src, with room and without; and what reads packets: their length, the parts of an ACL packet, the
//! fragment that it is.

use crate::exports::{self, Build};
use crate::rng::Rng;
use crate::streams::Pool;
use oracle::ble::hci::{self, LONGEST_EVENT, LONGEST_PACKET, refusal};

const SEAL: u8 = 0xA5;
const OUTPUT: usize = 1 << 12;

const NAMES: [&str; 6] = ["ACL", "event", "command complete", "command status", "completed packets", "LE meta"];
const ANSWERS: [&str; 4] = ["accepted", "2", "2 and too long", "10"];
const READ: [&str; 8] = [
    "length unknown",
    "length known",
    "indicator undefined",
    "parts",
    "no parts",
    "start",
    "continuation",
    "no fragment",
];

pub struct Builders {
    out: Vec<u8>,
    pairs: Vec<u16>,
    built: [[u64; ANSWERS.len()]; NAMES.len()],
    read: [u64; READ.len()],
}

/// How many bytes a caller brings, of which so many fit: few, about the border, or any.
fn size(r: &mut Rng, most: usize) -> usize {
    match r.below(10) {
        0..7 => r.size(0, 24),
        7 | 8 => r.size(most - 3, most + 3),
        _ => r.size(0, most + 60),
    }
}

fn room(r: &mut Rng, need: usize) -> usize {
    match r.below(10) {
        0..6 => need,
        6 | 7 => need + r.size(1, 64),
        8 => need - r.size(1, need),
        _ => r.size(0, LONGEST_PACKET + 80),
    }
}

/// What docs/src builds of it.
fn rust(b: &Build) -> Vec<u8> {
    match *b {
        Build::Acl { handle, flag, data } => hci::acl(handle, flag, data),
        Build::Event { code, params } => hci::event(code, params),
        Build::CommandComplete { num, opcode, returned } => hci::command_complete(num, opcode, returned),
        Build::CommandStatus { num, status, opcode } => hci::command_status(num, status, opcode),
        Build::NumberOfCompletedPackets { pairs } => {
            let pairs: Vec<_> = pairs.chunks_exact(2).map(|p| (p[0], p[1])).collect();
            hci::number_of_completed_packets(&pairs)
        }
        Build::LeMeta { subevent, params } => hci::le_meta(subevent, params),
    }
}

impl Builders {
    pub fn new() -> Builders {
        Builders {
            out: vec![SEAL; OUTPUT],
            pairs: Vec::new(),
            built: [[0; ANSWERS.len()]; NAMES.len()],
            read: [0; READ.len()],
        }
    }

    /// One input of a builder; how the two differ.
    pub fn build(&mut self, r: &mut Rng, pool: &Pool) -> Option<String> {
        const EVENT: usize = LONGEST_EVENT - 3;
        let which = r.size(0, NAMES.len() - 1);
        let (a, b, word) = (r.byte(), r.byte(), r.half());
        let n = size(r, [LONGEST_PACKET - 5, EVENT, EVENT - 3, EVENT, 63, EVENT - 1][which]);
        let bytes = pool.some(r, n);
        if which == 4 {
            // An odd number at the end is no pair.
            self.pairs.clear();
            self.pairs.extend((0..2 * n + usize::from(r.chance(5))).map(|_| r.half()));
        }
        let input = match which {
            0 => Build::Acl { handle: word, flag: a, data: bytes },
            1 => Build::Event { code: a, params: bytes },
            2 => Build::CommandComplete { num: a, opcode: word, returned: bytes },
            3 => Build::CommandStatus { num: a, status: b, opcode: word },
            4 => Build::NumberOfCompletedPackets { pairs: &self.pairs },
            _ => Build::LeMeta { subevent: a, params: bytes },
        };
        let packet = rust(&input);
        let room = room(r, packet.len());
        let why = hci::built(&packet, room);
        let longest = if which == 0 { LONGEST_PACKET } else { LONGEST_EVENT };
        self.built[which][match why {
            refusal::ACCEPTED => 0,
            refusal::SHORT_OUTPUT => 1 + usize::from(packet.len() > longest),
            _ => 3,
        }] += 1;
        let packet = if why == refusal::ACCEPTED { packet } else { Vec::new() };
        let told = exports::build(&input, &mut self.out[..room]);
        let wanted = [u64::from(why), packet.len() as u64, 0, 0];
        let same = told == wanted && self.out[..packet.len()] == packet;
        let sealed = self.out[packet.len()..].iter().take(room + 64).all(|b| *b == SEAL);
        if same && sealed {
            self.out[..packet.len()].fill(SEAL);
            return None;
        }
        let wrote = &self.out[..room];
        Some(format!(
            "{input:02x?}, room {room}: the port tells {told:?} and has {wrote:02x?}; the Rust {wanted:?}, {packet:02x?}"
        ))
    }

    /// A packet, or what is near to one, and the handle of a link.
    fn packet(&mut self, r: &mut Rng, pool: &Pool) -> (Vec<u8>, u16) {
        let handle = r.half();
        let n = r.size(0, 40);
        let mut packet =
            if r.chance(70) { hci::acl(handle, r.byte(), pool.some(r, n)) } else { pool.some(r, n).to_vec() };
        match r.below(8) {
            0 => packet.truncate(r.size(0, packet.len())),
            1 => packet.push(r.byte()),
            2 if !packet.is_empty() => {
                let at = r.size(0, packet.len().min(6) - 1);
                packet[at] = if r.flip() { r.byte() } else { packet[at].wrapping_add(1) };
            }
            _ => {}
        }
        let link = if r.chance(80) { handle & 0x0FFF } else { handle };
        (packet, link)
    }

    /// One input of the three that read a packet; how the two differ.
    pub fn read(&mut self, r: &mut Rng, pool: &Pool) -> Option<String> {
        let (packet, link) = self.packet(r, pool);
        let length = match hci::h4_packet_len(&packet) {
            Ok(None) => (0, [0; 4]),
            Ok(Some(n)) => (1, [0, 1, n as u64, 0]),
            Err(indicator) => (2, [u64::from(refusal::BAD_INDICATOR), 0, 0, u64::from(indicator)]),
        };
        let place = |data: &[u8]| [data.as_ptr() as u64 - packet.as_ptr() as u64, data.len() as u64];
        let parts = match hci::acl_parts(&packet) {
            Some((handle, flag, data)) => (3, [1, u64::from(handle), u64::from(flag), place(data)[0], place(data)[1]]),
            None => (4, [0; 5]),
        };
        let fragment = match hci::fragment(&packet, link) {
            Some((start, data)) => (if start { 5 } else { 6 }, [1, u64::from(start), place(data)[0], place(data)[1]]),
            None => (7, [0; 4]),
        };
        for seen in [length.0, parts.0, fragment.0] {
            self.read[seen] += 1;
        }
        let told = (exports::packet_len(&packet), exports::acl_parts(&packet), exports::fragment(&packet, link));
        let wanted = (length.1, parts.1, fragment.1);
        (told != wanted).then(|| format!("{packet:02x?}, link {link}: the port tells {told:?}, the Rust {wanted:?}"))
    }

    pub fn print(&self, inputs: u64) {
        println!("h4: {inputs} inputs of builders, {inputs} of what reads packets: 0 differences");
        for (name, counts) in NAMES.iter().zip(&self.built) {
            let cells: Vec<String> = ANSWERS.iter().zip(counts).map(|(cell, n)| format!("{cell}: {n}")).collect();
            println!("h4: built {name:18} {}", cells.join(", "));
        }
        let cells: Vec<String> = READ.iter().zip(&self.read).map(|(cell, n)| format!("{cell}: {n}")).collect();
        println!("h4: read {}", cells.join(", "));
    }

    /// What never came up, and could have: a command status is never too long.
    pub fn empty(&self) -> Vec<String> {
        let mut out: Vec<String> =
            READ.iter().zip(&self.read).filter(|(_, n)| **n == 0).map(|(cell, _)| format!("read, {cell}")).collect();
        for (which, counts) in self.built.iter().enumerate() {
            for (i, n) in counts.iter().enumerate() {
                if (*n == 0) != (which == 3 && i >= 2) {
                    out.push(format!("built {}, {}: {n}", NAMES[which], ANSWERS[i]));
                }
            }
        }
        out
    }
}
