//! Plays a trace from standard input on the Rust of docs/src: one line for each record, written before
//! the next record is read (docs/TRACE.md).

#[allow(dead_code)]
mod trace;

use oracle::ble::central::Central;
use std::io::{BufReader, Write};
use std::process::ExitCode;
use trace::answer;

fn main() -> ExitCode {
    let mut from = BufReader::with_capacity(1 << 16, std::io::stdin().lock());
    let mut to = std::io::stdout().lock();
    let mut central = Central::default();
    loop {
        let (mut line, last) = match trace::next(&mut from) {
            Ok(None) => return ExitCode::SUCCESS,
            Ok(Some(call)) => {
                let answer = answer::judge(&mut central, &call).0;
                (answer::line(&call, &answer, &central), false)
            }
            Err(bad) => (bad.line().as_bytes().to_vec(), true),
        };
        line.push(b'\n');
        let written = to.write_all(&line).and_then(|()| to.flush());
        if last || written.is_err() {
            return ExitCode::FAILURE;
        }
    }
}
