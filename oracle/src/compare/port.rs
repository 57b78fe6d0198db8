//! The port as a process: a trace goes in, lines come out.

use crate::asked::Asked;
use crate::trace::Call;
use std::io::{BufRead, BufReader, Write};
use std::process::{Child, ChildStdin, Command, Stdio};
use std::sync::mpsc::{Receiver, SyncSender, sync_channel};
use std::time::Duration;

/// A program that gives no line in this time is taken to have stopped.
const PATIENCE: Duration = Duration::from_secs(60);

fn spawn(path: &str) -> Result<(Child, ChildStdin, Receiver<Vec<u8>>), String> {
    let mut child = Command::new(path)
        .stdin(Stdio::piped())
        .stdout(Stdio::piped())
        .spawn()
        .map_err(|e| format!("{path} can't be started: {e}"))?;
    let stdin = child.stdin.take().expect("piped");
    let mut from = BufReader::with_capacity(1 << 16, child.stdout.take().expect("piped"));
    let (send, lines) = sync_channel(4_096);
    std::thread::spawn(move || {
        loop {
            let mut line = Vec::new();
            match from.read_until(b'\n', &mut line) {
                Ok(0) | Err(_) => break,
                Ok(_) => {}
            }
            if line.last() == Some(&b'\n') {
                line.pop();
            }
            if send.send(line).is_err() {
                break;
            }
        }
    });
    Ok((child, stdin, lines))
}

/// Traces are written without waiting for the answers.
pub struct Stream {
    child: Child,
    lines: Receiver<Vec<u8>>,
}

impl Stream {
    pub fn start(path: &str) -> Result<(Stream, SyncSender<Vec<u8>>), String> {
        let (child, mut stdin, lines) = spawn(path)?;
        let (send, bytes) = sync_channel::<Vec<u8>>(8);
        std::thread::spawn(move || {
            for b in bytes {
                if stdin.write_all(&b).is_err() {
                    break;
                }
            }
        });
        Ok((Stream { child, lines }, send))
    }

    pub fn line(&mut self) -> Option<Vec<u8>> {
        self.lines.recv_timeout(PATIENCE).ok()
    }

    pub fn stop(&mut self) {
        let _ = self.child.kill();
        let _ = self.child.wait();
    }
}

/// Each call is answered before the next is made.
pub struct Live {
    path: String,
    now: Option<(Child, ChildStdin, Receiver<Vec<u8>>)>,
}

impl Live {
    pub fn new(path: &str) -> Live {
        Live { path: path.into(), now: None }
    }

    fn stop(&mut self) {
        if let Some((mut child, stdin, lines)) = self.now.take() {
            drop((stdin, lines));
            let _ = child.kill();
            let _ = child.wait();
        }
    }
}

impl Asked for Live {
    fn ask(&mut self, call: &Call) -> Option<Vec<u8>> {
        if self.now.is_none() {
            self.now = spawn(&self.path).ok();
        }
        let (_, stdin, lines) = self.now.as_mut()?;
        let mut bytes = Vec::new();
        call.put(&mut bytes);
        let line = match stdin.write_all(&bytes).and_then(|()| stdin.flush()) {
            Ok(()) => lines.recv_timeout(PATIENCE).ok(),
            Err(_) => None,
        };
        if line.is_none() {
            self.stop();
        }
        line
    }
}

impl Drop for Live {
    fn drop(&mut self) {
        self.stop();
    }
}
