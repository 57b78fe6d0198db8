//! The stack that each export of the serial transport needs.

use crate::h4::{Build, Stream, acl_parts, build, fragment, packet_len};
use crate::painted::Rows;
use oracle::ble::hci::acl;

/// The most that a call may need.
const MOST: usize = 1_024;

fn refusal(told: [u64; 4]) -> u8 {
    told[0] as u8
}

/// Packets that are held, whole and cut.
fn streams(rows: &mut Rows, bytes: &[u8], out: &mut [u8]) {
    rows.row("h4_packet_len from C", MOST, &mut || refusal(packet_len(bytes)));
    let mut stream = Stream::new();
    rows.row("h4_feed from C, whole packets", MOST, &mut || refusal(stream.feed(bytes, out)));
    rows.row("h4_feed from C, a packet is cut", MOST, &mut || refusal(stream.feed(&bytes[..bytes.len() - 1], out)));
    rows.row("h4_feed from C, and comes to its end", MOST, &mut || {
        refusal(stream.feed(&bytes[bytes.len() - 1..], out))
    });
    rows.row("h4_buffered from C", MOST, &mut || refusal(stream.buffered()));
    rows.row("h4_reset from C", MOST, &mut || {
        stream.reset();
        0
    });
}

fn builders(rows: &mut Rows, out: &mut [u8]) {
    const BYTES: [u8; 200] = [7; 200];
    const PAIRS: [u16; 126] = [7; 126];
    for (name, input) in [
        ("acl", Build::Acl { handle: 64, flag: 0, data: &BYTES }),
        ("event", Build::Event { code: 5, params: &BYTES }),
        ("command_complete", Build::CommandComplete { num: 1, opcode: 0x0C03, returned: &BYTES }),
        ("command_status", Build::CommandStatus { num: 1, status: 0, opcode: 0x0406 }),
        ("number_of_completed_packets", Build::NumberOfCompletedPackets { pairs: &PAIRS }),
        ("le_meta", Build::LeMeta { subevent: 1, params: &BYTES }),
    ] {
        rows.row(&format!("h4_{name} from C"), MOST, &mut || refusal(build(&input, out)));
    }
}

pub fn rows(rows: &mut Rows) {
    let packet = acl(64, 2, &[7; 246]);
    let bytes = packet.repeat(10);
    let mut out = vec![0; 8_192];
    streams(rows, &bytes, &mut out);
    builders(rows, &mut out);
    rows.row("h4_acl_parts from C", MOST, &mut || 1 - acl_parts(&packet)[0] as u8);
    rows.row("h4_fragment from C", MOST, &mut || 1 - refusal(fragment(&packet, 64)));
}
