//! The port's C interface of the H4 stream and the builders (crates/c_h4).

/// The most bytes that are held.
pub const HELD: usize = 1_024;

/// What a call tells: its refusal, then the numbers of its answer; words that it does not use are 0.
pub type Told = [u64; 4];
/// What the parts of an ACL packet tell: whether it is one, handle, boundary flag, place and length of the data.
pub type Parts = [u64; 5];

/// What stands there before a call, so that a word that is not written shows.
const UNTOLD: u64 = u64::MAX;

unsafe extern "C" {
    fn barleyrope_h4_packet_len_words(bytes: *const u8, len: usize, told: &mut Told);
    fn barleyrope_h4_reset_words(stream: &mut [u64; 2]);
    fn barleyrope_h4_buffered_words(stream: &[u64; 2], told: &mut Told);
    fn barleyrope_h4_feed_words(
        stream: &mut [u64; 2],
        held: &mut [u8; HELD],
        fed: *const u8,
        fed_len: usize,
        out: *mut u8,
        out_len: usize,
        told: &mut Told,
    );
    fn barleyrope_h4_acl_words(
        out: *mut u8,
        out_len: usize,
        handle: u16,
        flag: u8,
        data: *const u8,
        data_len: usize,
        told: &mut Told,
    );
    fn barleyrope_h4_event_words(
        out: *mut u8,
        out_len: usize,
        code: u8,
        params: *const u8,
        params_len: usize,
        told: &mut Told,
    );
    fn barleyrope_h4_command_complete_words(
        out: *mut u8,
        out_len: usize,
        num: u8,
        opcode: u16,
        returned: *const u8,
        returned_len: usize,
        told: &mut Told,
    );
    fn barleyrope_h4_command_status_words(
        out: *mut u8,
        out_len: usize,
        num: u8,
        status: u8,
        opcode: u16,
        told: &mut Told,
    );
    fn barleyrope_h4_number_of_completed_packets_words(
        out: *mut u8,
        out_len: usize,
        pairs: *const u16,
        pairs_len: usize,
        told: &mut Told,
    );
    fn barleyrope_h4_le_meta_words(
        out: *mut u8,
        out_len: usize,
        subevent: u8,
        params: *const u8,
        params_len: usize,
        told: &mut Told,
    );
    fn barleyrope_h4_acl_parts_words(packet: *const u8, packet_len: usize, told: &mut Parts);
    fn barleyrope_h4_fragment_words(packet: *const u8, packet_len: usize, handle: u16, told: &mut Told);
}

// SAFETY, in all of them: a slice's own pointer and length, and arrays of the size that the export names.

/// Refusal, whether the length is known, the length.
pub fn packet_len(bytes: &[u8]) -> Told {
    let mut told = [UNTOLD; 4];
    unsafe { barleyrope_h4_packet_len_words(bytes.as_ptr(), bytes.len(), &mut told) };
    told
}

/// What C keeps of a stream.
#[derive(Clone)]
pub struct Stream {
    /// How many bytes are held; the refusal of a lost stream.
    pub words: [u64; 2],
    pub held: Box<[u8; HELD]>,
}

impl Stream {
    pub fn new() -> Stream {
        Stream { words: [0; 2], held: Box::new([0; HELD]) }
    }

    pub fn reset(&mut self) {
        unsafe { barleyrope_h4_reset_words(&mut self.words) }
    }

    pub fn buffered(&self) -> Told {
        let mut told = [UNTOLD; 4];
        unsafe { barleyrope_h4_buffered_words(&self.words, &mut told) };
        told
    }

    /// Refusal, packets, their bytes.
    pub fn feed(&mut self, fed: &[u8], out: &mut [u8]) -> Told {
        let mut told = [UNTOLD; 4];
        let (words, held) = (&mut self.words, &mut self.held);
        unsafe {
            barleyrope_h4_feed_words(words, held, fed.as_ptr(), fed.len(), out.as_mut_ptr(), out.len(), &mut told)
        };
        told
    }
}

/// A builder's input. Pairs are handle and count by turns.
#[derive(Clone, Debug)]
pub enum Build<'a> {
    Acl { handle: u16, flag: u8, data: &'a [u8] },
    Event { code: u8, params: &'a [u8] },
    CommandComplete { num: u8, opcode: u16, returned: &'a [u8] },
    CommandStatus { num: u8, status: u8, opcode: u16 },
    NumberOfCompletedPackets { pairs: &'a [u16] },
    LeMeta { subevent: u8, params: &'a [u8] },
}

/// Refusal, bytes of the packet.
pub fn build(b: &Build, out: &mut [u8]) -> Told {
    let mut told = [UNTOLD; 4];
    let (t, to, room) = (&mut told, out.as_mut_ptr(), out.len());
    unsafe {
        match *b {
            Build::Acl { handle, flag, data } => {
                barleyrope_h4_acl_words(to, room, handle, flag, data.as_ptr(), data.len(), t)
            }
            Build::Event { code, params } => {
                barleyrope_h4_event_words(to, room, code, params.as_ptr(), params.len(), t)
            }
            Build::CommandComplete { num, opcode, returned } => {
                barleyrope_h4_command_complete_words(to, room, num, opcode, returned.as_ptr(), returned.len(), t)
            }
            Build::CommandStatus { num, status, opcode } => {
                barleyrope_h4_command_status_words(to, room, num, status, opcode, t)
            }
            Build::NumberOfCompletedPackets { pairs } => {
                barleyrope_h4_number_of_completed_packets_words(to, room, pairs.as_ptr(), pairs.len(), t)
            }
            Build::LeMeta { subevent, params } => {
                barleyrope_h4_le_meta_words(to, room, subevent, params.as_ptr(), params.len(), t)
            }
        }
    }
    told
}

pub fn acl_parts(packet: &[u8]) -> Parts {
    let mut told = [UNTOLD; 5];
    unsafe { barleyrope_h4_acl_parts_words(packet.as_ptr(), packet.len(), &mut told) };
    told
}

/// Whether there is something for the link, whether a frame begins, place and length of the bytes.
pub fn fragment(packet: &[u8], link: u16) -> Told {
    let mut told = [UNTOLD; 4];
    unsafe { barleyrope_h4_fragment_words(packet.as_ptr(), packet.len(), link, &mut told) };
    told
}
