//! The leaves of the port against the Rust: `leaves PROGRAM [seed N] [count N]`, where PROGRAM answers for the port (leaf_port.c).
//!
//! One thread makes the inputs and writes the requests; the other makes the same inputs again, reads the answers in
//! their order and compares. Nothing waits for a single answer, so it is fast.
//! For each leaf a fixed set (all short inputs, boundaries) and `count` random ones (1,000,000; of the three-way search twice as
//! many). What is told of the place of a body or a name, and of a service that is not listed, is compared with a slow
//! computation, since the Rust does not tell it. The Rust reads UUID text
//! from a `&str`, so text that is not UTF-8 has no answer there: it is left out of the number tried, and the port has
//! to say that it is no UUID.
//! The first difference is shrunk and printed with both answers, and ends the run with status 1. So does a leaf of
//! which some kind of answer hardly came up, since that would show nothing.

#[path = "leaf/inputs.rs"]
mod inputs;
#[path = "leaf/port.rs"]
mod port;
#[path = "leaf/rust.rs"]
mod rust;
#[path = "leaf/slow.rs"]
mod slow;

use inputs::{Case, Each, Random};
use port::{Answers, Asks};
use std::fmt::Debug;
use std::process::{Child, exit};
use std::thread;
use std::time::Instant;

enum Verdict {
    /// Both answer alike, with this kind of answer.
    Alike(usize),
    /// The Rust takes no such input.
    NoRust,
    Differ { rust: String, port: String },
}

use Verdict::{Alike, Differ, NoRust};

/// Bytes are told in hex and all else in decimal, by what the caller hands over.
fn differ(rust: impl Debug, port: impl Debug) -> Verdict {
    Differ {
        rust: format!("{rust:?}"),
        port: format!("{port:?}"),
    }
}

fn hex(bytes: &[u8]) -> String {
    format!("{bytes:02x?}")
}

fn uuid(told: Option<port::Number>) -> String {
    told.map_or("none".to_string(), |u| format!("{u:032x}"))
}

/// All that the port is asked of one input.
type Ask = fn(&Case, &mut Asks);
/// Reads all the answers to that before it judges, so that the next answer is the next input's.
type Check = fn(&Case, &mut Answers, &mut rust::Params) -> Verdict;

struct Leaf {
    name: &'static str,
    /// The kinds of answer.
    kinds: &'static [&'static str],
    /// Which parts of a case are its input.
    shows: &'static [Part],
    fixed: fn(Each),
    random: fn(&mut Random, u64, &mut Case),
    /// How many times `count` random inputs it gets.
    times: u64,
    ask: Ask,
    check: Check,
}

#[derive(Clone, Copy, PartialEq)]
enum Part {
    Text,
    Data,
    Response,
    Uuid,
    Params,
}

const LEAVES: [Leaf; 8] = [
    Leaf {
        name: "parse",
        kinds: &["short", "long", "none"],
        shows: &[Part::Text],
        fixed: inputs::text_fixed,
        random: inputs::text,
        times: 1,
        ask: |c, to| to.parse(&c.data),
        check: parse,
    },
    Leaf {
        name: "from_att",
        kinds: &["2 bytes", "16 bytes", "none"],
        shows: &[Part::Data],
        fixed: inputs::att_fixed,
        random: inputs::att,
        times: 1,
        ask: |c, to| to.from_att(&c.data),
        check: from_att,
    },
    Leaf {
        name: "to_att",
        kinds: &["2 bytes", "16 bytes"],
        shows: &[Part::Uuid],
        fixed: inputs::uuid_fixed,
        random: inputs::uuid,
        times: 1,
        ask: ask_to_att,
        check: to_att,
    },
    Leaf {
        name: "search",
        kinds: &["16-bit list", "32-bit list", "128-bit list", "none"],
        shows: &[Part::Data, Part::Uuid],
        fixed: inputs::search_fixed,
        random: inputs::search,
        times: 1,
        ask: ask_search,
        check: search,
    },
    Leaf {
        name: "matched body",
        kinds: &["of the data", "of the response", "none"],
        shows: &[Part::Data, Part::Response, Part::Uuid],
        fixed: inputs::search_fixed,
        random: inputs::search,
        times: 1,
        ask: |c, to| to.listed_body(&c.data, &c.response, c.uuid),
        check: matched_body,
    },
    Leaf {
        name: "presence",
        kinds: &PRESENCES,
        shows: &[Part::Data, Part::Response, Part::Uuid],
        fixed: inputs::search_fixed,
        random: inputs::presence,
        times: 2,
        ask: |c, to| to.service_presence(&c.data, &c.response, c.uuid),
        check: presence,
    },
    Leaf {
        name: "name",
        kinds: &["a name", "not UTF-8", "none"],
        shows: &[Part::Data],
        fixed: inputs::name_fixed,
        random: inputs::name,
        times: 1,
        ask: |c, to| to.local_name(&c.data),
        check: name,
    },
    Leaf {
        name: "parameters",
        kinds: &["good", "bad"],
        shows: &[Part::Params],
        fixed: inputs::params_fixed,
        random: inputs::params,
        times: 1,
        ask: |c, to| to.params_good(c.params()),
        check: params,
    },
];

fn parse(c: &Case, port: &mut Answers, _: &mut rust::Params) -> Verdict {
    let got = port.parse();
    let Ok(text) = std::str::from_utf8(&c.data) else {
        return if got == Ok(None) { NoRust } else { differ("no UTF-8, so no UUID", got.map(uuid)) };
    };
    let want = rust::parse(text);
    if got != Ok(want) {
        return differ(uuid(want), got.map(uuid));
    }
    Alike(match want {
        Some(_) if c.data.iter().filter(|b| **b != b'-').count() == 4 => 0,
        Some(_) => 1,
        None => 2,
    })
}

fn from_att(c: &Case, port: &mut Answers, _: &mut rust::Params) -> Verdict {
    let (want, got) = (rust::from_att(&c.data), port.from_att());
    if got != Ok(want) {
        return differ(uuid(want), got.map(uuid));
    }
    Alike(match (want, c.data.len()) {
        (Some(_), 2) => 0,
        (Some(_), _) => 1,
        (None, _) => 2,
    })
}

fn ask_to_att(c: &Case, to: &mut Asks) {
    to.to_att(c.uuid);
    // From the bytes the same UUID comes back.
    to.from_att(&rust::to_att(c.uuid));
}

fn to_att(c: &Case, port: &mut Answers, _: &mut rust::Params) -> Verdict {
    let want = rust::to_att(c.uuid);
    let (told, back) = (port.to_att(), port.from_att());
    let (bytes, len) = match told {
        Ok(told) => told,
        Err(wrong) => return differ(hex(&want), wrong),
    };
    if bytes[..len] != want {
        return differ(hex(&want), hex(&bytes[..len]));
    }
    if back != Ok(Some(c.uuid)) {
        return differ(uuid(Some(c.uuid)), back.map(uuid));
    }
    Alike(usize::from(len != 2))
}

fn ask_search(c: &Case, to: &mut Asks) {
    to.lists_service(&c.data, c.uuid);
    to.find_service(&c.data, c.uuid);
}

fn search(c: &Case, port: &mut Answers, _: &mut rust::Params) -> Verdict {
    let (want, got) = (rust::lists_service(&c.data, c.uuid), port.lists_service());
    let found = port.find_service();
    if got != want {
        return differ(want, got);
    }
    let listed = slow::listed(&c.data, c.uuid);
    let place = listed.map(|(_, place)| place);
    if found != Ok(place) || want != place.is_some() {
        return differ((want, place), found);
    }
    Alike(match listed.map(|(kind, _)| slow::width(kind)) {
        Some(2) => 0,
        Some(4) => 1,
        Some(_) => 2,
        None => 3,
    })
}

fn matched_body(c: &Case, port: &mut Answers, _: &mut rust::Params) -> Verdict {
    let (data, response) = (rust::lists_service(&c.data, c.uuid), rust::lists_service(&c.response, c.uuid));
    let of = if data { &c.data } else { &c.response };
    let want = match slow::listed(of, c.uuid) {
        Some((_, (start, count))) => &of[start..start + count],
        None => &[],
    };
    let got = port.listed_body();
    if !matches!(&got, Ok((len, out)) if out[..*len] == *want) {
        return differ((data, response, hex(want)), got.map(|(len, out)| (len, hex(&out[..len]))));
    }
    Alike(if data {
        0
    } else if response {
        1
    } else {
        2
    })
}

/// What the three-way search answers, and why: of the unknown those that have one cause, in the data alone or in the response alone.
const PRESENCES: [&str; 14] = [
    "listed in the data",
    "listed in the response, the data unknown",
    "listed in the response, the data absent",
    "absent, no response",
    "absent",
    "unknown by 02 in the data",
    "by 04",
    "by 06",
    "by an overrun",
    "unknown by 02 in the response",
    "by 04 there",
    "by 06 there",
    "by an overrun there",
    "unknown by several",
];

fn presence(c: &Case, port: &mut Answers, _: &mut rust::Params) -> Verdict {
    const ABSENT: u64 = 0;
    const LISTED: u64 = 1;
    const UNKNOWN: u64 = 2;
    let listed = [rust::lists_service(&c.data, c.uuid), rust::lists_service(&c.response, c.uuid)];
    let causes = [slow::causes(&c.data), slow::causes(&c.response)];
    let want = match listed {
        [false, false] if causes.concat().is_empty() => ABSENT,
        [false, false] => UNKNOWN,
        _ => LISTED,
    };
    let got = port.service_presence();
    if got != want {
        return differ((want, listed, causes), got);
    }
    Alike(match (want, &causes[0][..], &causes[1][..]) {
        (LISTED, data, _) => if listed[0] { 0 } else { 2 - usize::from(!data.is_empty()) },
        (ABSENT, _, _) => 3 + usize::from(!c.response.is_empty()),
        (_, [cause], []) => 5 + *cause as usize,
        (_, [], [cause]) => 9 + *cause as usize,
        _ => 13,
    })
}

fn name(c: &Case, port: &mut Answers, _: &mut rust::Params) -> Verdict {
    let (want, got) = (rust::local_name(&c.data), port.local_name());
    let place = slow::named(&c.data);
    let right = match (&want, &got) {
        (None, Ok(None)) => true,
        (Some(name), Ok(Some((start, count)))) => place == Some((*start, *count)) && c.data[*start..*start + *count] == *name.as_bytes(),
        _ => false,
    };
    if !right {
        return differ((want, place), got);
    }
    Alike(match (want, place) {
        (Some(_), _) => 0,
        (None, Some(_)) => 1,
        (None, None) => 2,
    })
}

fn params(c: &Case, port: &mut Answers, rust: &mut rust::Params) -> Verdict {
    let (want, got) = (rust.good(c.params()), port.params_good());
    if want != Ok(got) {
        return differ(want, got);
    }
    Alike(usize::from(!got))
}

// ---- a difference, made small

/// The port asked about one input at a time, each answer awaited.
struct Single<'a> {
    program: &'a str,
    running: Option<(Asks, Answers, Child)>,
    rust: rust::Params,
}

impl Single<'_> {
    /// A program that ends instead of answering differs, and another is started for the next input.
    fn verdict(&mut self, leaf: &Leaf, c: &Case) -> Verdict {
        let (asks, answers, _) = self.running.get_or_insert_with(|| port::start(self.program));
        (leaf.ask)(c, asks);
        asks.flush();
        let verdict = (leaf.check)(c, answers, &mut self.rust);
        if !answers.ended {
            return verdict;
        }
        let status = self.running.take().and_then(|(_, _, mut child)| child.wait().ok());
        differ("an answer", format!("ended without one, status {status:?}"))
    }

    fn differs(&mut self, leaf: &Leaf, c: &Case) -> bool {
        matches!(self.verdict(leaf, c), Differ { .. })
    }
}

/// Smaller cases than this one: bytes removed, also with a length byte before them lowered; a byte or a half made 0.
fn smaller(leaf: &Leaf, c: &Case) -> Vec<Case> {
    let mut all = Vec::new();
    for response in [false, true] {
        let bytes = |c: &Case| if response { c.response.clone() } else { c.data.clone() };
        let with = |b: Vec<u8>| {
            let mut c = c.clone();
            *(if response { &mut c.response } else { &mut c.data }) = b;
            c
        };
        let b = bytes(c);
        for n in [64, 16, 4, 2, 1] {
            for at in 0..(b.len() + 1).saturating_sub(n) {
                let mut cut = b.clone();
                cut.drain(at..at + n);
                all.push(with(cut.clone()));
                for len in 0..at {
                    if usize::from(cut[len]) > n {
                        let mut lower = cut.clone();
                        lower[len] -= n as u8;
                        all.push(with(lower));
                    }
                }
            }
        }
        for at in 0..b.len() {
            for v in [0, b'0', b[at] / 2] {
                if v < b[at] {
                    let mut low = b.clone();
                    low[at] = v;
                    all.push(with(low));
                }
            }
        }
    }
    if leaf.shows.iter().any(|p| matches!(p, Part::Uuid | Part::Params)) {
        for bit in 0..128 {
            if c.uuid >> bit & 1 == 1 {
                all.push(Case {
                    uuid: c.uuid ^ 1 << bit,
                    ..c.clone()
                });
            }
        }
    }
    all
}

fn shrunk(leaf: &Leaf, c: &Case, port: &mut Single) -> Case {
    let mut c = c.clone();
    while let Some(s) = smaller(leaf, &c).into_iter().find(|s| port.differs(leaf, s)) {
        c = s;
    }
    c
}

fn show(leaf: &Leaf, c: &Case) {
    for part in leaf.shows {
        match part {
            Part::Text => println!("  text        {:?}  {:02x?}", String::from_utf8_lossy(&c.data), c.data),
            Part::Data => println!("  data        {:02x?}", c.data),
            Part::Response => println!("  response    {:02x?}", c.response),
            Part::Uuid => println!("  UUID        {:032x}", c.uuid),
            Part::Params => println!("  min, max, latency, timeout  {:?}", c.params()),
        }
    }
}

fn report(leaf: &Leaf, c: &Case, port: &mut Single) -> ! {
    let small = shrunk(leaf, c, port);
    println!("{}: the port differs from the Rust; the smallest input found:", leaf.name);
    show(leaf, &small);
    if let Differ { rust, port } = port.verdict(leaf, &small) {
        println!("  the Rust    {rust}\n  the port    {port}");
    } else {
        println!("  asked alone, both answer alike: the port answers by what it was asked before, or not once each time");
    }
    println!("found at:");
    show(leaf, c);
    exit(1)
}

// ---- the run

struct Options {
    program: String,
    seed: u64,
    count: u64,
}

fn usage() -> ! {
    eprintln!("usage: leaves PROGRAM [seed N] [count N]");
    exit(2)
}

fn options() -> Options {
    let mut words = std::env::args().skip(1);
    let mut o = Options {
        program: words.next().unwrap_or_else(|| usage()),
        seed: 1,
        count: 1_000_000,
    };
    let words: Vec<String> = words.collect();
    for pair in words.chunks(2) {
        match (pair[0].as_str(), pair.get(1).and_then(|n| n.parse().ok())) {
            ("seed", Some(n)) => o.seed = n,
            ("count", Some(n)) => o.count = n,
            _ => usage(),
        }
    }
    o
}

/// The inputs of a leaf, the same ones in the same order each time.
fn each_case(leaf: &Leaf, o: &Options, each: Each) {
    (leaf.fixed)(each);
    let mut random = Random::new(o.seed);
    let mut c = Case::default();
    for i in 0..o.count * leaf.times {
        (leaf.random)(&mut random, i, &mut c);
        each(&c);
    }
}

/// How many answers there were of each kind, and how many texts that the Rust does not take.
fn compare(leaf: &Leaf, o: &Options, answers: &mut Answers) -> (Vec<u64>, u64) {
    let mut rust = rust::Params::new();
    let mut single = Single {
        program: &o.program,
        running: None,
        rust: rust::Params::new(),
    };
    let mut counts = vec![0; leaf.kinds.len()];
    let mut left_out = 0;
    each_case(leaf, o, &mut |c| {
        let mut verdict = (leaf.check)(c, answers, &mut rust);
        if answers.ended {
            // It ended at this input or at a later one, and asked one by one it shows which.
            verdict = single.verdict(leaf, c);
        }
        match verdict {
            Alike(kind) => counts[kind] += 1,
            NoRust => left_out += 1,
            Differ { .. } => report(leaf, c, &mut single),
        }
    });
    (counts, left_out)
}

fn run(leaf: &Leaf, o: &Options) {
    let began = Instant::now();
    let (mut asks, mut answers, mut child) = port::start(&o.program);
    let (counts, left_out) = thread::scope(|threads| {
        threads.spawn(move || {
            each_case(leaf, o, &mut |c| (leaf.ask)(c, &mut asks));
            asks.flush();
        });
        compare(leaf, o, &mut answers)
    });
    let whole = !answers.ended && answers.at_end();
    if !whole {
        // It may be waiting for someone to read what it has too much.
        let _ = child.kill();
    }
    let ended = child.wait();
    if !whole || !matches!(&ended, Ok(status) if status.success()) {
        println!("{}: {} did not answer each request once and end well: {ended:?}", leaf.name, o.program);
        exit(1)
    }
    let kinds: Vec<_> = leaf.kinds.iter().zip(&counts).map(|(k, n)| format!("{k} {n}")).collect();
    let beside = if left_out > 0 { format!(" ({left_out} texts are not UTF-8)") } else { String::new() };
    println!(
        "{:12} {:9} inputs, 0 differences: {}{beside}; {:.1} s",
        leaf.name,
        counts.iter().sum::<u64>(),
        kinds.join(", "),
        began.elapsed().as_secs_f64()
    );
    if let Some(k) = counts.iter().position(|n| *n < o.count * leaf.times / 200) {
        println!("{}: the answer '{}' hardly came up, so this run shows nothing of it", leaf.name, leaf.kinds[k]);
        exit(1)
    }
}

fn main() {
    let o = options();
    println!("leaves: seed {}, {} random inputs each beside the fixed ones", o.seed, o.count);
    for leaf in &LEAVES {
        run(leaf, &o);
    }
}
