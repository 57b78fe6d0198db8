//! What came up in the cuttings, as docs/TRACE.md has it, and what ought to have.

use crate::streams::Feed;
use oracle::ble::hci::{LONGEST_PACKET, Serial, refusal};

const KINDS: [&str; 5] = ["command", "ACL", "SCO", "event", "ISO"];
const LENGTHS: [&str; 4] = ["no payload", "up to 255 bytes", "256 to 1,023", "1,024"];
const REFUSALS: [&str; 7] = ["accepted", "1", "2", "9", "9 again", "10", "10 again"];
const CUTS: [&str; 7] =
    ["between packets", "behind 1 byte", "behind 2", "behind 3", "behind 4", "in a body", "when lost"];
const SIZES: [&str; 5] = ["0", "1", "2 to 63", "64 to 1,023", "1,024 and more"];

#[derive(Default)]
pub struct Tally {
    pub cuttings: u64,
    /// Cuttings whose bytes were also fed at once.
    pub wholes: u64,
    pub resets: u64,
    pub bytes: u64,
    /// Feeds whose answer is that of docs/src; feeds at which that has an error, and the packets that it loses there.
    pub as_docs_src: u64,
    pub bad_in_docs_src: u64,
    pub lost_in_docs_src: u64,
    packets: [[u64; LENGTHS.len()]; KINDS.len()],
    refusals: [u64; REFUSALS.len()],
    cuts: [u64; CUTS.len()],
    sizes: [u64; SIZES.len()],
}

/// Bytes of the indicator and the header.
fn header(indicator: u8) -> usize {
    match indicator {
        1 | 3 => 4,
        4 => 3,
        _ => 5,
    }
}

impl Tally {
    /// A feed was answered so; `again` if the stream was lost before. It left the Rust's stream like this.
    pub fn fed(&mut self, f: &Feed, why: u8, again: bool, left: &Serial) {
        self.refusals[match (why, again) {
            (refusal::BAD_INDICATOR, _) => 3 + usize::from(again),
            (refusal::LONG_PACKET, _) => 5 + usize::from(again),
            (why, _) => usize::from(why),
        }] += 1;
        if matches!(why, refusal::OVER_HELD | refusal::SHORT_OUTPUT) {
            return;
        }
        self.bytes += f.bytes.len() as u64;
        self.sizes[match f.bytes.len() {
            0 => 0,
            1 => 1,
            2..64 => 2,
            64..1024 => 3,
            _ => 4,
        }] += 1;
        let held = left.held.len();
        self.cuts[match left.held.first() {
            _ if left.lost != refusal::ACCEPTED => 6,
            Some(indicator) if held >= header(*indicator) => 5,
            _ => held,
        }] += 1;
    }

    pub fn gave(&mut self, packets: &[Vec<u8>]) {
        for p in packets {
            let length = match p.len() {
                n if n == header(p[0]) => 0,
                n if n <= header(p[0]) + 255 => 1,
                n if n < LONGEST_PACKET => 2,
                _ => 3,
            };
            self.packets[usize::from(p[0]) - 1][length] += 1;
        }
    }

    /// Every row with its counts.
    fn rows(&self) -> Vec<(String, &[&'static str], &[u64])> {
        let mut rows: Vec<(String, &[&str], &[u64])> = KINDS
            .iter()
            .zip(&self.packets)
            .map(|(kind, n)| (format!("{kind} packets"), &LENGTHS[..], &n[..]))
            .collect();
        rows.push(("feeds, answered".into(), &REFUSALS, &self.refusals));
        rows.push(("feeds that ended".into(), &CUTS, &self.cuts));
        rows.push(("feeds, by bytes".into(), &SIZES, &self.sizes));
        rows
    }

    pub fn print(&self) {
        let feeds: u64 = self.refusals.iter().sum();
        let packets: u64 = self.packets.iter().flatten().sum();
        println!(
            "h4: {} cuttings, {feeds} feeds of {} bytes, {packets} packets, {} resets: 0 differences; {} fed again at once",
            self.cuttings, self.bytes, self.resets, self.wholes
        );
        println!(
            "h4: {} feeds as docs/src has them; at {} it has an error, and loses {} packets",
            self.as_docs_src, self.bad_in_docs_src, self.lost_in_docs_src
        );
        for (name, cells, counts) in self.rows() {
            let cells: Vec<String> = cells.iter().zip(counts).map(|(cell, n)| format!("{cell}: {n}")).collect();
            println!("h4: {name:16} {}", cells.join(", "));
        }
    }

    /// What never came up, and could have.
    pub fn empty(&self) -> Vec<String> {
        let wide = |name: &str| name.starts_with("ACL") || name.starts_with("ISO");
        let mut out = Vec::new();
        for (name, cells, counts) in self.rows() {
            for (i, (cell, n)) in cells.iter().zip(counts).enumerate() {
                // A length of one byte.
                let never = name.ends_with("packets") && !wide(&name) && i >= 2;
                if (*n == 0) != never {
                    out.push(format!("{name}, {cell}: {n}"));
                }
            }
        }
        for (name, n) in [("docs/src loses none", self.lost_in_docs_src), ("none fed again", self.wholes)] {
            if n == 0 {
                out.push(name.into());
            }
        }
        out
    }
}
