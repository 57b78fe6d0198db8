//! Writes the list that `tool_leaf_replay` replays, and what it is to print: `record LIST PRINTED`. The answers are the Rust's
//! alone; oracle/record says more.

#[allow(dead_code)]
#[path = "leaf/inputs.rs"]
mod inputs;
#[allow(dead_code)]
#[path = "leaf/rust.rs"]
mod rust;
#[allow(dead_code)]
#[path = "leaf/slow.rs"]
mod slow;
mod port {
    pub type Number = u128;
}

use inputs::{Case, Random};
use std::fs;

const HEADER: &[u8] = b"BRLEAF1\n";
const SEED: u64 = 20;

/// The answer as the list has it, or none where the Rust takes no such input.
type Answer = fn(&Case) -> Option<Vec<u8>>;

struct Kind {
    tag: u8,
    label: &'static str,
    rows: u64,
    random: fn(&mut Random, u64, &mut Case),
    input: fn(&Case) -> Vec<u8>,
    answer: Answer,
    first: fn() -> Vec<Case>,
}

fn data(c: &Case) -> Vec<u8> {
    c.data.clone()
}

fn uuid_bytes(uuid: Option<u128>) -> Vec<u8> {
    uuid.map(|u| u.to_le_bytes().to_vec()).unwrap_or_default()
}

fn texts() -> Vec<Case> {
    ["180F", "+80F", "18-0-f", "", "----", "0000180f-0000-1000-8000-00805F9B34FB", "+0+1+2+3+4+5+6+7+8+9+a+b+c+d+e+f----", "-180F-x", "é80"]
        .map(|t| bytes(t.as_bytes(), 0))
        .to_vec()
}

fn bytes(data: &[u8], uuid: u128) -> Case {
    Case {
        data: data.to_vec(),
        uuid,
        ..Case::default()
    }
}

/// P1 to P4 of the sample table.
fn samples() -> Vec<Case> {
    let rows: [&[u8]; 4] = [&[3, 3, 0x0F, 0x18], &[2, 1, 6, 3, 2, 0x0F, 0x18], &[0, 3, 3, 0x0F, 0x18], &[3, 3, 0x0F]];
    rows.map(|data| bytes(data, slow::short(0x180F))).to_vec()
}

/// P6 and P7.
fn numbers() -> Vec<Case> {
    let rows = [[6, 3200, 0, 800], [6, 3200, 0, 801], [6, 6, 499, 750], [6, 6, 499, 751]];
    rows.map(|p: [u128; 4]| bytes(&[], p[0] | p[1] << 16 | p[2] << 32 | p[3] << 48)).to_vec()
}

const KINDS: [Kind; 6] = [
    Kind {
        tag: 1,
        label: "parse rows        ",
        rows: 800,
        random: inputs::text,
        input: data,
        answer: |c| Some(uuid_bytes(rust::parse(std::str::from_utf8(&c.data).ok()?))),
        first: texts,
    },
    Kind {
        tag: 2,
        label: "from_att rows     ",
        rows: 500,
        random: inputs::att,
        input: data,
        answer: |c| Some(uuid_bytes(rust::from_att(&c.data))),
        first: Vec::new,
    },
    Kind {
        tag: 3,
        label: "to_att rows       ",
        rows: 500,
        random: inputs::uuid,
        input: |c| c.uuid.to_le_bytes().to_vec(),
        answer: |c| Some(rust::to_att(c.uuid)),
        first: Vec::new,
    },
    Kind {
        tag: 4,
        label: "search rows       ",
        rows: 1000,
        random: inputs::search,
        input: |c| [&c.uuid.to_le_bytes(), &c.data[..]].concat(),
        answer: |c| Some(vec![u8::from(rust::lists_service(&c.data, c.uuid))]),
        first: samples,
    },
    Kind {
        tag: 5,
        label: "name rows         ",
        rows: 800,
        random: inputs::name,
        input: data,
        answer: |c| {
            Some(match rust::local_name(&c.data) {
                Some(name) => [&[1], name.as_bytes()].concat(),
                None => vec![0],
            })
        },
        first: Vec::new,
    },
    Kind {
        tag: 6,
        label: "parameter rows    ",
        rows: 800,
        random: inputs::params,
        input: |c| c.params().iter().flat_map(|v| v.to_le_bytes()).collect(),
        answer: |c| Some(vec![u8::from(rust::Params::new().good(c.params()).expect("an answer"))]),
        first: numbers,
    },
];

fn main() {
    let files: Vec<String> = std::env::args().skip(1).collect();
    let [list, printed] = &files[..] else {
        eprintln!("usage: record LIST PRINTED");
        std::process::exit(2)
    };
    let (mut out, mut lines) = (HEADER.to_vec(), String::new());
    for kind in KINDS {
        let mut random = Random::new(SEED);
        let mut rows = 0;
        let mut put = |c: &Case| {
            if let Some(answer) = (kind.answer)(c) {
                let input = (kind.input)(c);
                out.push(kind.tag);
                out.extend((input.len() as u16).to_le_bytes());
                out.extend(input);
                out.push(answer.len().try_into().expect("an answer of one length byte"));
                out.extend(answer);
                rows += 1;
            }
        };
        (kind.first)().iter().for_each(&mut put);
        let mut c = Case::default();
        for i in 0..kind.rows {
            (kind.random)(&mut random, i, &mut c);
            put(&c);
        }
        lines += &format!("{}{rows}\n", kind.label);
    }
    lines += "differences       0\n";
    fs::write(list, out).expect("the list is written");
    fs::write(printed, lines).expect("the lines are written");
}
