//! The first difference, made small: calls and steps are dropped while the difference stays.

use crate::asked::Asked;
use crate::options::Options;
use crate::sequence::bytes;
use crate::trace::{Batch, Call, answer, gate, one, value};
use crate::verdict::Difference;
use crate::words::{brief, call as words, contrast};
use oracle::ble::central::{Central, Step};
use std::time::{Duration, Instant};

const MOST_TIME: Duration = Duration::from_secs(60);

/// Where both differ: the call's place, and both answers.
struct Found {
    at: usize,
    wanted: Vec<u8>,
    got: Option<Vec<u8>>,
}

/// Plays the calls on both from a fresh state. None where they agree, and where 01 refuses a call with a number
/// above `most`.
fn differs(port: &mut impl Asked, calls: &[Call], most: u8) -> Option<Found> {
    let mut central = Central::default();
    if port.ask(&Call::Fresh)? != b"fresh" {
        return None;
    }
    for (at, call) in calls.iter().enumerate() {
        if gate::refusal(&central, call) > most {
            return None;
        }
        let answer = answer::judge(&mut central, call).0;
        let wanted = answer::line(call, &answer, &central);
        let got = port.ask(call);
        if got.as_ref() != Some(&wanted) {
            return Some(Found { at, wanted, got });
        }
    }
    None
}

/// Calls that change no state.
fn only_reads(call: &Call) -> bool {
    use Call::{ConnectedHandle, Dump, Links, Mode, PassedOn, TimerUs};
    matches!(call, Dump | Links | Mode | TimerUs | ConnectedHandle | Call::Result { .. } | PassedOn { .. })
}

/// A dump after each call, so that a difference in the state shows at the call that made it.
fn with_dumps(calls: &[Call]) -> Vec<Call> {
    let dumps = if one::IS_THERE { vec![Call::Dump, Call::Links, Call::Mode] } else { vec![Call::Dump] };
    calls.iter().filter(|c| !only_reads(c)).flat_map(|c| [&[c.clone()], dumps.as_slice()].concat()).collect()
}

struct Shrinker<P> {
    port: P,
    until: Instant,
    tried: u64,
    most: u8,
}

impl<P: Asked> Shrinker<P> {
    /// Takes `with` for the calls if it differs still, cut behind the difference.
    fn keep(&mut self, calls: &mut Vec<Call>, mut with: Vec<Call>) -> bool {
        if Instant::now() > self.until {
            return false;
        }
        self.tried += 1;
        match differs(&mut self.port, &with, self.most) {
            None => false,
            Some(f) => {
                with.truncate(f.at + 1);
                *calls = with;
                true
            }
        }
    }

    fn drop_calls(&mut self, calls: &mut Vec<Call>) -> bool {
        let (mut any, mut run) = (false, (calls.len() / 2).max(1));
        loop {
            let mut at = calls.len();
            while at > 0 {
                at = at.min(calls.len()).saturating_sub(run);
                let mut with = calls.clone();
                with.drain(at..(at + run).min(calls.len()));
                any |= self.keep(calls, with);
            }
            if run == 1 {
                return any;
            }
            run /= 2;
        }
    }

    fn drop_steps(&mut self, calls: &mut Vec<Call>) -> bool {
        let mut any = false;
        for at in 0..calls.len() {
            let mut step = 0;
            while let Some(Call::Batch(b)) = calls.get(at) {
                if step >= b.steps.len() {
                    break;
                }
                let mut less = b.steps.clone();
                less.remove(step);
                let mut with = calls.clone();
                with[at] = Call::Batch(Batch::new(b.now, less));
                if self.keep(calls, with) {
                    any = true;
                } else {
                    step += 1;
                }
            }
        }
        any
    }

    /// Bytes of values and data go, from the end; times become 0; waits lose their age.
    fn shorten(&mut self, calls: &mut Vec<Call>) -> bool {
        let less: [fn(&Call) -> Call; 5] =
            [|c| shorter(c, true), |c| shorter(c, false), |c| shorter(c, false), at_zero, ageless];
        let mut any = false;
        for at in 0..calls.len() {
            for change in less {
                let Some(call) = calls.get(at) else {
                    break;
                };
                let mut with = calls.clone();
                with[at] = change(call);
                if with[at] != *call {
                    any |= self.keep(calls, with);
                }
            }
        }
        any
    }
}

fn cut(bytes: &mut Vec<u8>, half: bool) {
    let n = if half { bytes.len() / 2 } else { bytes.len().saturating_sub(1) };
    bytes.truncate(n);
}

fn shorter(call: &Call, half: bool) -> Call {
    let mut c = call.clone();
    match &mut c {
        Call::Batch(b) => {
            for s in &mut b.steps {
                match s {
                    Step::Write { value, .. } => cut(value, half),
                    Step::WaitNotification { contains, .. } => cut(contains, half),
                    _ => {}
                }
            }
            return Call::Batch(Batch::new(b.now, b.steps.clone()));
        }
        Call::Advertising { data, .. } | Call::ScanResponse { data, .. } | Call::Fragment { data, .. } => {
            cut(data, half)
        }
        _ => {}
    }
    c
}

fn ageless(call: &Call) -> Call {
    let Call::Batch(b) = call else {
        return call.clone();
    };
    let without = |s: &Step| match s {
        Step::WaitNotification { characteristic, within_ms, .. } => {
            one::wait(*characteristic, value(s).to_vec(), *within_ms, None)
        }
        _ => s.clone(),
    };
    Call::Batch(Batch::new(b.now, b.steps.iter().map(without).collect()))
}

fn at_zero(call: &Call) -> Call {
    let mut c = call.clone();
    match &mut c {
        Call::Batch(Batch { now, .. }) | Call::Timer { now } => *now = 0,
        Call::Connected { at, .. }
        | Call::Disconnected { at }
        | Call::Advertising { at, .. }
        | Call::ScanResponse { at, .. }
        | Call::Fragment { at, .. } => *at = 0,
        _ => {}
    }
    c
}

fn write(path: &str, calls: &[Call]) {
    match std::fs::write(path, bytes(&[&[Call::Fresh], calls].concat())) {
        Ok(()) => println!("written to {path}"),
        Err(e) => println!("{path} can't be written: {e}"),
    }
}

/// The difference for a person: where, what both said, and the smallest trace found.
pub fn show(o: &Options, d: Difference, port: impl Asked) {
    println!("\nsequence {} of seed {} differs first at its call {}:", d.number, o.plan.seed, d.at);
    println!("  {}", words(&d.made[d.at]));
    println!("  oracle: {}", brief(Some(&d.wanted)));
    println!("  port:   {}", brief(d.got.as_deref()));
    println!("  {}", contrast(&d.wanted, d.got.as_deref()));
    // A trial begins with `Fresh` of itself.
    let first = usize::from(d.made[0] == Call::Fresh);
    let mut calls: Vec<Call> = d.made[first..=d.at.max(1)].to_vec();
    write(&format!("{}/difference.trace", o.save), &calls);
    let most = if o.plan.refusals { gate::TABLE_FULL - 1 } else { 0 };
    let mut s = Shrinker { port, until: Instant::now() + MOST_TIME, tried: 0, most };
    let dumped = with_dumps(&calls);
    if !s.keep(&mut calls, dumped) && differs(&mut s.port, &calls, s.most).is_none() {
        println!("from a fresh state the same calls do not differ: an answer depends on what stood before");
        return;
    }
    println!("the shortest prefix has {} calls, with a dump after each", calls.len());
    while s.drop_calls(&mut calls) | s.drop_steps(&mut calls) | s.shorten(&mut calls) {}
    println!("shrunk in {} trials to {} calls:", s.tried, calls.len());
    for call in &calls {
        println!("  {}", words(call));
    }
    if let Some(f) = differs(&mut s.port, &calls, s.most) {
        println!("  oracle: {}", brief(Some(&f.wanted)));
        println!("  port:   {}", brief(f.got.as_deref()));
        println!("  {}", contrast(&f.wanted, f.got.as_deref()));
    }
    write(&format!("{}/shrunk.trace", o.save), &calls);
}
