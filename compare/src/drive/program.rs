//! Another program, run over frames.

use std::fmt;
use std::io::{self, Read, Write};
use std::path::PathBuf;
use std::process::{Child, ChildStdin, ChildStdout, Command, ExitStatus, Stdio};
use std::sync::Arc;
use std::sync::mpsc::{self, Receiver, RecvTimeoutError, Sender};
use std::thread;
use std::time::Duration;

/// A program that writes nothing for so long is ended.
const PATIENCE: Duration = Duration::from_secs(60);
const CHUNK: usize = 1 << 16;

pub struct Program {
    pub path: PathBuf,
}

pub struct Output {
    pub answers: Vec<u8>,
    pub end: End,
}

#[derive(Clone, Copy, Debug, PartialEq, Eq)]
pub enum End {
    Exited(ExitStatus),
    /// Ended from here, as it wrote nothing any more.
    Silent,
}

impl End {
    pub fn is_good(self) -> bool {
        matches!(self, End::Exited(status) if status.success())
    }
}

impl fmt::Display for End {
    fn fmt(&self, text: &mut fmt::Formatter) -> fmt::Result {
        match self {
            End::Exited(status) => write!(text, "{status}"),
            End::Silent => write!(text, "nothing written for {PATIENCE:?}"),
        }
    }
}

impl Program {
    /// Starts the program afresh, feeds it all frames and takes all it writes.
    pub fn run(&self, frames: Arc<Vec<u8>>) -> io::Result<Output> {
        let mut child = self.start()?;
        let input = child.stdin.take().expect("piped");
        let output = child.stdout.take().expect("piped");
        let (sender, chunks) = mpsc::channel();
        thread::spawn(move || feed(input, &frames));
        thread::spawn(move || take(output, sender));
        let (answers, silent) = collect(chunks);
        if silent {
            child.kill()?;
            child.wait()?;
            return Ok(Output {
                answers,
                end: End::Silent,
            });
        }
        let end = End::Exited(child.wait()?);
        Ok(Output { answers, end })
    }

    fn start(&self) -> io::Result<Child> {
        Command::new(&self.path)
            .stdin(Stdio::piped())
            .stdout(Stdio::piped())
            .spawn()
            .map_err(|error| {
                let path = self.path.display();
                io::Error::new(error.kind(), format!("{path} does not start: {error}"))
            })
    }
}

/// A program may end before it has read all: what it has not answered then
/// shows as a difference.
fn feed(mut input: ChildStdin, frames: &[u8]) {
    let _ = input.write_all(frames);
}

fn take(mut output: ChildStdout, sender: Sender<Vec<u8>>) {
    let mut chunk = vec![0; CHUNK];
    while let Ok(length @ 1..) = output.read(&mut chunk) {
        if sender.send(chunk[..length].to_vec()).is_err() {
            return;
        }
    }
}

/// All that was written, and whether the program fell silent.
fn collect(chunks: Receiver<Vec<u8>>) -> (Vec<u8>, bool) {
    let mut answers = Vec::new();
    loop {
        match chunks.recv_timeout(PATIENCE) {
            Ok(chunk) => answers.extend(chunk),
            Err(RecvTimeoutError::Disconnected) => return (answers, false),
            Err(RecvTimeoutError::Timeout) => return (answers, true),
        }
    }
}
