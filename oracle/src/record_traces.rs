//! Writes a recorded list: sequences as one trace, and the oracle's lines for it (docs/TRACE.md).
//!
//!   record_traces FILE GROUPS SEED COUNT CALLS DUMPS     writes FILE.trace and FILE.lines

#[allow(dead_code)]
mod sequence;
#[allow(dead_code)]
mod trace;

use sequence::counts::Counts;
use sequence::{Groups, Plan, record};
use std::process::ExitCode;

fn main() -> ExitCode {
    let words: Vec<String> = std::env::args().skip(1).collect();
    let [file, groups, numbers @ ..] = words.as_slice() else {
        eprintln!("record_traces FILE GROUPS SEED COUNT CALLS DUMPS");
        return ExitCode::FAILURE;
    };
    let numbers: Vec<u64> = numbers.iter().filter_map(|n| n.parse().ok()).collect();
    let [seed, count, calls, dumps] = numbers.as_slice() else {
        eprintln!("record_traces FILE GROUPS SEED COUNT CALLS DUMPS");
        return ExitCode::FAILURE;
    };
    let has = |g: &str| groups.split(',').any(|x| x == g);
    let groups = Groups { radio: has("radio"), link: has("link") };
    let plan =
        Plan { seed: *seed, groups, refusals: true, aged: false, strict: false, calls: *calls as usize, dumps: *dumps };
    let (mut bytes, mut lines, mut counts) = (Vec::new(), Vec::new(), Counts::default());
    for number in 0..*count {
        let made = record(plan, number, &mut counts);
        bytes.extend(made.bytes());
        for line in made.lines {
            lines.extend(line);
            lines.push(b'\n');
        }
    }
    let written =
        std::fs::write(format!("{file}.trace"), &bytes).and_then(|()| std::fs::write(format!("{file}.lines"), &lines));
    if let Err(e) = written {
        eprintln!("{file} can't be written: {e}");
        return ExitCode::FAILURE;
    }
    let all: u64 = counts.calls.iter().sum();
    println!("{file}: {all} records, {} bytes of calls, {} of lines", bytes.len(), lines.len());
    ExitCode::SUCCESS
}
