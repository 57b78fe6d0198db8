//! What is lent to the port, and what stands there: shared by the rows and the stacks.

/// What is lent to the port.
pub struct Lent {
    pub tables: Box<[u64; WORDS]>,
    pub store: Vec<u8>,
    pub out: Vec<u8>,
}

/// The words of a state's tables.
pub const WORDS: usize = 1152;

impl Lent {
    pub fn new() -> Lent {
        Lent { tables: Box::new([0; WORDS]), store: vec![0; 43_631], out: vec![0; 16_315] }
    }
}

/// Where each call ends a step, so many steps wait.
pub const CALLS_A_SET_UP: u32 = 64;

/// An advertisement: flags, three services and a name.
pub const DATA: [u8; 31] = *b"\x02\x01\x06\x07\x03\x0A\x18\x12\x18\x10\x18\x13\x09Head of the bay 04";

/// Values of steps in the store, the running one's first; of kept notifications.
const STEPS_AT: usize = 0;
const NOTIFICATIONS_AT: usize = 31_604;
const VALUE: usize = 244;
pub const KEPT: usize = 32;

/// What each notification says.
pub const HEARD: [u8; 20] = *b"bay 042 free 12:04:1";

/// What comes on a link, by the rows of the loops of fragments.
#[derive(Clone, Copy, PartialEq)]
pub enum Talk {
    Ends,
    GoesOn,
    Reads,
    Discovers,
}

fn att_frame(pdu: &[u8]) -> Vec<u8> {
    [&(pdu.len() as u16).to_le_bytes(), &[4, 0], pdu].concat()
}

impl Talk {
    /// What a wait looks for.
    pub fn needle(self) -> [u8; 4] {
        if self == Talk::Ends { *b"free" } else { *b"full" }
    }

    pub fn frame(self) -> Vec<u8> {
        match self {
            Talk::Reads => att_frame(&[&[0x0B], &HEARD[..]].concat()),
            Talk::Discovers => {
                let entry = |i: u8| [2 * i, 0, 0x12, 2 * i + 1, 0, i, 0x2A];
                att_frame(&[vec![0x09, 7], (1..=20).flat_map(entry).collect()].concat())
            }
            _ => att_frame(&[&[0x1B, 1, 0], &HEARD[..]].concat()),
        }
    }
}

/// The worst case of a search: all bytes kept are equal, and the needle has another in its last place.
#[derive(Clone, Copy)]
pub struct Search {
    /// How many bytes each value has.
    pub each: u8,
    /// And the needle.
    pub needle: u8,
}

impl Search {
    pub fn needle(self) -> Vec<u8> {
        let mut needle = vec![b'A'; self.needle.into()];
        needle[usize::from(self.needle) - 1] = b'B';
        needle
    }

    pub fn heard(self) -> Vec<u8> {
        vec![b'A'; self.each.into()]
    }

    pub fn frame(self) -> Vec<u8> {
        att_frame(&[&[0x1B, 1, 0], &self.heard()[..]].concat())
    }
}

/// The values of steps and notifications, where the port has them.
pub fn lend(l: &mut Lent, needle: &[u8], heard: &[u8]) {
    for block in l.store[STEPS_AT..].chunks_mut(VALUE).take(1 + CALLS_A_SET_UP as usize) {
        block[..needle.len()].copy_from_slice(needle);
    }
    for block in l.store[NOTIFICATIONS_AT..].chunks_mut(VALUE).take(KEPT) {
        block[..heard.len()].copy_from_slice(heard);
    }
}

pub fn lend_values(l: &mut Lent, talk: Talk) {
    lend(l, &talk.needle(), &HEARD);
}
