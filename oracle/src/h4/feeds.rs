//! A cutting on the port, on the extended Rust, and on the stream of docs/src as long as 02 asks for nothing else.

use crate::exports::{HELD, Stream, Told};
use crate::streams::{Cutting, Feed, Room};
use crate::tally::Tally;
use oracle::ble::hci::{H4Stream, LONGEST_PACKET, Serial, refusal};

/// What stands in the output before a feed.
const SEAL: u8 = 0xA5;
/// Longer than what any cutting holds and feeds, and what is lent beyond it.
const OUTPUT: usize = 1 << 14;

/// Where the two differ: the number of the feed, and how.
pub struct Difference {
    pub feed: usize,
    pub how: String,
}

pub struct Beside {
    port: Stream,
    out: Vec<u8>,
    pub tally: Tally,
}

/// What docs/src has of the stream, or none where 02 has left it.
type Plain = Option<H4Stream>;

impl Beside {
    pub fn new() -> Beside {
        Beside { port: Stream::new(), out: vec![SEAL; OUTPUT], tally: Tally::default() }
    }

    /// All that a feed may write, against what the extended Rust has: the answer, the words, the bytes held, the output.
    fn fault(&mut self, told: Told, was: &Stream, rust: &Serial, packets: &[Vec<u8>], why: u8) -> Option<String> {
        let joined = packets.concat();
        let wanted = [u64::from(why), packets.len() as u64, joined.len() as u64, 0];
        if told != wanted {
            return Some(format!("the port tells {told:?}, the Rust {wanted:?}"));
        }
        let taken = !matches!(why, refusal::OVER_HELD | refusal::SHORT_OUTPUT);
        let words = if taken { [rust.held.len() as u64, u64::from(rust.lost)] } else { was.words };
        if self.port.words != words {
            return Some(format!("the port's words are {:?}, the Rust's {words:?}", self.port.words));
        }
        let count = if taken { rust.held.len() } else { 0 };
        if self.port.held[..count] != rust.held[..count] || self.port.held[count..] != was.held[count..] {
            return Some(format!("the port holds {:02x?}, the Rust {:02x?}", &self.port.held[..count], &rust.held));
        }
        if self.out[..joined.len()] != joined {
            return Some(format!("the port gives {:02x?}, the Rust {joined:02x?}", &self.out[..joined.len()]));
        }
        self.out[..joined.len()].fill(SEAL);
        None
    }

    fn sealed(&self, room: usize) -> Option<String> {
        let end = (room + 64).min(OUTPUT);
        self.out[..end].iter().position(|b| *b != SEAL).map(|at| format!("output byte {at} is written, of {room}"))
    }

    /// One feed on both, with so much room.
    fn feed(&mut self, rust: &mut Serial, bytes: &[u8], room: usize) -> (Vec<Vec<u8>>, u8, Option<String>) {
        let was = self.port.clone();
        let (packets, why) = rust.feed(bytes, room);
        let told = self.port.feed(bytes, &mut self.out[..room]);
        let how = self.fault(told, &was, rust, &packets, why).or_else(|| self.sealed(room));
        (packets, why, how)
    }

    /// docs/src beside it: equal where nothing is refused; at a bad indicator it has an error in place of packets and refusal.
    fn plain(&mut self, plain: &mut Plain, bytes: &[u8], packets: &[Vec<u8>], why: u8, held: usize) -> Option<String> {
        let stream = plain.as_mut()?;
        let gave = stream.feed(bytes);
        match (gave, why) {
            (Ok(gave), refusal::ACCEPTED) if gave == packets && stream.buffered() == held => {
                self.tally.as_docs_src += 1
            }
            (Err(_), refusal::BAD_INDICATOR) => {
                self.tally.bad_in_docs_src += 1;
                self.tally.lost_in_docs_src += packets.len() as u64;
            }
            // It takes the long packet, and has left what is asked here.
            (_, refusal::LONG_PACKET) => *plain = None,
            (gave, _) => return Some(format!("docs/src gives {gave:02x?}, and refusal {why} is given here")),
        }
        None
    }

    /// One feed of a cutting; what it gave goes to `all`.
    fn step(&mut self, f: &Feed, rust: &mut Serial, plain: &mut Plain, all: &mut Vec<u8>) -> Option<String> {
        if f.reset {
            *rust = Serial::default();
            *plain = Some(H4Stream::new());
            self.port.reset();
            self.tally.resets += 1;
            if self.port.words != [0; 2] {
                return Some(format!("reset, and the port's words are {:?}", self.port.words));
            }
        }
        let need = rust.held.len() + f.bytes.len();
        let room = match f.room {
            Room::Exact => need,
            Room::Spare(n) => need + n,
            Room::Short(n) => {
                let (_, why, how) = self.feed(rust, &f.bytes, need - n.min(need));
                self.tally.fed(f, why, false, rust);
                if how.is_some() {
                    return how;
                }
                need
            }
        };
        let again = rust.lost != refusal::ACCEPTED;
        let (packets, why, how) = self.feed(rust, &f.bytes, room);
        self.tally.fed(f, why, again, rust);
        self.tally.gave(&packets);
        all.extend(packets.iter().flatten());
        let how = how.or_else(|| self.plain(plain, &f.bytes, &packets, why, rust.held.len()));
        let buffered = self.port.buffered();
        how.or_else(|| {
            let wrong = buffered != [0, self.port.words[0], 0, 0];
            wrong.then(|| format!("buffered tells {buffered:?}, and the words are {:?}", self.port.words))
        })
    }

    /// All bytes in one feed: what they give must be what the feeds gave.
    fn whole(&mut self, c: &Cutting, rust: &Serial, all: &[u8]) -> Option<String> {
        let bytes: Vec<u8> = c.feeds.iter().flat_map(|f| f.bytes.iter().copied()).collect();
        let mut port = Stream::new();
        let told = port.feed(&bytes, &mut self.out[..bytes.len()]);
        let len = told[2] as usize;
        let same =
            told[0] == u64::from(rust.lost) && self.out[..len] == *all && port.held[..rust.held.len()] == *rust.held;
        self.out[..len].fill(SEAL);
        self.tally.wholes += 1;
        (!same).then(|| {
            format!("in one feed the port tells {told:?}, and the feeds gave {} bytes and {}", all.len(), rust.lost)
        })
    }

    pub fn run(&mut self, c: &Cutting) -> Result<(), Difference> {
        let mut rust = c.before.clone();
        let fresh = rust == Serial::default();
        let mut plain = fresh.then(H4Stream::new);
        self.port.words = c.words;
        let live = rust.held.len().min(HELD);
        self.port.held[..live].copy_from_slice(&rust.held[..live]);
        let mut all = Vec::new();
        for (feed, f) in c.feeds.iter().enumerate() {
            if let Some(how) = self.step(f, &mut rust, &mut plain, &mut all) {
                return Err(Difference { feed, how });
            }
            if rust.held.len() > LONGEST_PACKET {
                rust = Serial::default();
                self.port.reset();
            }
        }
        self.tally.cuttings += 1;
        if fresh && c.feeds.iter().all(|f| !f.reset) {
            return self.whole(c, &rust, &all).map_or(Ok(()), |how| Err(Difference { feed: c.feeds.len(), how }));
        }
        Ok(())
    }
}

/// Fewer feeds, fewer bytes in them, no odd room and no reset, as long as there is a difference.
pub fn shrunk(c: &Cutting) -> Cutting {
    let differs = |c: &Cutting| Beside::new().run(c).is_err();
    let mut best = c.clone();
    loop {
        let mut smaller = Vec::new();
        for i in 0..best.feeds.len() {
            let mut without = best.clone();
            without.feeds.remove(i);
            smaller.push(without);
            let mut plainer = best.clone();
            plainer.feeds[i] = Feed { room: Room::Exact, reset: false, ..plainer.feeds[i].clone() };
            if best.feeds[i].reset || best.feeds[i].room != Room::Exact {
                smaller.push(plainer);
            }
            let len = best.feeds[i].bytes.len();
            for part in [len / 2, len / 8, 1].into_iter().filter(|n| *n > 0) {
                smaller.extend((0..=len - part).step_by(part).map(|at| {
                    let mut shorter = best.clone();
                    shorter.feeds[i].bytes.drain(at..at + part);
                    shorter
                }));
            }
        }
        match smaller.into_iter().find(differs) {
            Some(c) => best = c,
            None => return best,
        }
    }
}
