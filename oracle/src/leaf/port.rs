//! The leaves of the port, as the program of oracle/src/leaf_port.c tells them: `Asks` writes requests, `Answers` reads what
//! came of them, in the same order.
use std::io::{BufReader, BufWriter, Read, Write};
use std::process::{Child, ChildStdin, ChildStdout, Command, Stdio, exit};

/// A UUID as its 128-bit number.
pub type Number = u128;

#[derive(Clone, Copy)]
enum Tag {
    Parse,
    FromAtt,
    ToAtt,
    ListsService,
    FindService,
    ListedBody,
    LocalName,
    ParamsGood,
    ServicePresence,
}

/// What stands in a place that a call is to leave alone.
const UNTOUCHED: u64 = 0x5EED_5EED;
const UNTOUCHED_BYTE: u8 = 0xA5;
const ATT_ROOM: usize = 20;
pub const BODY_ROOM: usize = 256;

const BUFFER: usize = 1 << 20;

/// Starts the program: where its requests go, where its answers come from, and the program itself.
pub fn start(program: &str) -> (Asks, Answers, Child) {
    let begun = Command::new(program).stdin(Stdio::piped()).stdout(Stdio::piped()).spawn();
    let mut child = begun.unwrap_or_else(|e| {
        eprintln!("leaves: {program} does not start: {e}");
        exit(2)
    });
    let (Some(to), Some(from)) = (child.stdin.take(), child.stdout.take()) else {
        unreachable!("both are pipes");
    };
    let asks = Asks(BufWriter::with_capacity(BUFFER, to));
    let answers = Answers {
        from: BufReader::with_capacity(BUFFER, from),
        ended: false,
    };
    (asks, answers, child)
}

pub struct Asks(BufWriter<ChildStdin>);

impl Asks {
    /// A program that has ended takes no request; that is seen where its answer is missing.
    fn ask(&mut self, tag: Tag, data: &[u8], response: &[u8], words: Number) {
        let mut header = [0; 21];
        header[0] = tag as u8;
        header[1..3].copy_from_slice(&(data.len() as u16).to_le_bytes());
        header[3..5].copy_from_slice(&(response.len() as u16).to_le_bytes());
        header[5..].copy_from_slice(&words.to_le_bytes());
        for part in [&header, data, response] {
            let _ = self.0.write_all(part);
        }
    }

    pub fn flush(&mut self) {
        let _ = self.0.flush();
    }

    pub fn parse(&mut self, text: &[u8]) {
        self.ask(Tag::Parse, text, &[], 0);
    }

    pub fn from_att(&mut self, bytes: &[u8]) {
        self.ask(Tag::FromAtt, bytes, &[], 0);
    }

    pub fn to_att(&mut self, uuid: Number) {
        self.ask(Tag::ToAtt, &[], &[], uuid);
    }

    pub fn lists_service(&mut self, data: &[u8], uuid: Number) {
        self.ask(Tag::ListsService, data, &[], uuid);
    }

    pub fn find_service(&mut self, data: &[u8], uuid: Number) {
        self.ask(Tag::FindService, data, &[], uuid);
    }

    pub fn listed_body(&mut self, data: &[u8], response: &[u8], uuid: Number) {
        self.ask(Tag::ListedBody, data, response, uuid);
    }

    pub fn service_presence(&mut self, data: &[u8], response: &[u8], uuid: Number) {
        self.ask(Tag::ServicePresence, data, response, uuid);
    }

    pub fn local_name(&mut self, data: &[u8]) {
        self.ask(Tag::LocalName, data, &[], 0);
    }

    pub fn params_good(&mut self, p: [u16; 4]) {
        self.ask(Tag::ParamsGood, &[], &[], p.iter().rev().fold(0, |n, v| n << 16 | Number::from(*v)));
    }
}

pub struct Answers {
    from: BufReader<ChildStdout>,
    /// The program ended before it had answered all; what has been read since means nothing.
    pub ended: bool,
}

impl Answers {
    fn bytes<const N: usize>(&mut self) -> [u8; N] {
        let mut bytes = [0; N];
        self.ended |= self.from.read_exact(&mut bytes).is_err();
        bytes
    }

    fn word(&mut self) -> u64 {
        u64::from_le_bytes(self.bytes())
    }

    /// The two words that a call told, which it has to leave alone where there is nothing.
    fn pair(&mut self) -> Result<Option<(u64, u64)>, String> {
        let (is, first, second) = (self.word(), self.word(), self.word());
        match (is, first, second) {
            (1, _, _) => Ok(Some((first, second))),
            (0, UNTOUCHED, UNTOUCHED) => Ok(None),
            _ => Err(format!("answer {is}, and the places became {first:016x} {second:016x}")),
        }
    }

    fn uuid(&mut self) -> Result<Option<Number>, String> {
        let halves = self.pair()?;
        Ok(halves.map(|(low, high)| Number::from(high) << 64 | Number::from(low)))
    }

    fn place(&mut self) -> Result<Option<(usize, usize)>, String> {
        let place = self.pair()?;
        Ok(place.map(|(start, count)| (start as usize, count as usize)))
    }

    pub fn parse(&mut self) -> Result<Option<Number>, String> {
        self.uuid()
    }

    pub fn from_att(&mut self) -> Result<Option<Number>, String> {
        self.uuid()
    }

    /// The bytes, and how many of them count. What follows them is zero up to 16, and untouched from there on.
    pub fn to_att(&mut self) -> Result<([u8; 16], usize), String> {
        let len = self.word() as usize;
        let out = self.bytes::<ATT_ROOM>();
        let mut bytes = [0; 16];
        bytes.copy_from_slice(&out[..16]);
        if len > 16 || bytes[len..].iter().any(|b| *b != 0) || out[16..] != [UNTOUCHED_BYTE; ATT_ROOM - 16] {
            return Err(format!("length {len}, bytes {out:02x?}"));
        }
        Ok((bytes, len))
    }

    pub fn lists_service(&mut self) -> bool {
        self.word() == 1
    }

    pub fn find_service(&mut self) -> Result<Option<(usize, usize)>, String> {
        self.place()
    }

    /// How long the matched body is, and its bytes in a room for any body; what follows them is untouched.
    pub fn listed_body(&mut self) -> Result<(usize, [u8; BODY_ROOM]), String> {
        let len = self.word() as usize;
        let out = self.bytes::<BODY_ROOM>();
        if len > BODY_ROOM || out[len..].iter().any(|b| *b != UNTOUCHED_BYTE) {
            return Err(format!("length {len}, bytes {out:02x?}"));
        }
        Ok((len, out))
    }

    pub fn service_presence(&mut self) -> u64 {
        self.word()
    }

    pub fn local_name(&mut self) -> Result<Option<(usize, usize)>, String> {
        self.place()
    }

    pub fn params_good(&mut self) -> bool {
        self.word() == 1
    }

    /// Whether nothing more comes.
    pub fn at_end(&mut self) -> bool {
        matches!(self.from.read(&mut [0]), Ok(0))
    }
}
