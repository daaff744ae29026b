//! The process that calls the engine: frames of requests go to it, and its replies are compared with the expected ones.

use std::io::{self, BufReader, Read, Write};
use std::path::{Path, PathBuf};
use std::process::{Child, ChildStdout, Command, Stdio};
use std::sync::mpsc::{sync_channel, Receiver, SyncSender};
use std::sync::Arc;
use std::thread::{spawn, JoinHandle};

/// How many batches may wait for their replies.
const AHEAD: usize = 4;

/// Many requests, with the replies that are expected: those of the reference program.
#[derive(Default)]
pub struct Batch {
    pub requests: Vec<u8>,
    pub expected: Vec<u8>,
    /// Where each request and its reply start.
    pub starts: Vec<(usize, usize)>,
}

impl Batch {
    /// The bytes of request `i` and of its reply, in `replies` of the whole batch.
    fn part<'a>(&'a self, i: usize, replies: &'a [u8]) -> (&'a [u8], &'a [u8]) {
        let (from, at) = self.starts[i];
        let (to, end) = match self.starts.get(i + 1) {
            Some(&next) => next,
            None => (self.requests.len(), replies.len()),
        };
        (&self.requests[from..to], &replies[at..end])
    }
}

/// The root of the repository.
pub fn root() -> PathBuf {
    Path::new(env!("CARGO_MANIFEST_DIR")).join("../..")
}

/// The command that runs a program for x86-64 on this machine.
pub fn program(path: &str) -> Command {
    let file = root().join(path);
    assert!(
        file.exists(),
        "there is no {path}: ./test has the command that builds it"
    );
    let mut command = Command::new(root().join("tools/x86"));
    command.arg(file);
    command
}

pub struct Engine {
    child: Child,
    batches: Option<SyncSender<Arc<Batch>>>,
    writer: JoinHandle<()>,
    reader: JoinHandle<Result<(), String>>,
}

impl Engine {
    pub fn start() -> Engine {
        let mut child = program("build/c/serve")
            .stdin(Stdio::piped())
            .stdout(Stdio::piped())
            .spawn()
            .expect("the engine's process starts");
        let (mut stdin, stdout) = (child.stdin.take().unwrap(), child.stdout.take().unwrap());
        let (batches, sent) = sync_channel::<Arc<Batch>>(AHEAD);
        let (passed_on, awaited) = sync_channel::<Arc<Batch>>(AHEAD);
        let writer = spawn(move || {
            for batch in sent {
                // If the reader has stopped, it returns the reason.
                if passed_on.send(batch.clone()).is_err() || write(&mut stdin, &batch).is_err() {
                    return;
                }
            }
        });
        let reader = spawn(move || read(stdout, awaited));
        Engine {
            child,
            batches: Some(batches),
            writer,
            reader,
        }
    }

    /// Sends a batch. A difference is returned by `finish`.
    pub fn send(&mut self, batch: Batch) {
        if let Some(batches) = &self.batches {
            if batches.send(Arc::new(batch)).is_err() {
                self.batches = None;
            }
        }
    }

    /// Waits for all replies; the error is the first difference.
    pub fn finish(mut self) -> Result<(), String> {
        self.batches = None;
        let found = self.reader.join().expect("the reader ends");
        self.writer.join().expect("the writer ends");
        let status = self.child.wait().expect("the engine's process ends");
        found?;
        if status.success() {
            Ok(())
        } else {
            Err(format!("the engine's process ended with {status}"))
        }
    }
}

fn write(stdin: &mut impl Write, batch: &Batch) -> io::Result<()> {
    let length = u32::try_from(batch.requests.len()).expect("a short frame");
    stdin.write_all(&length.to_le_bytes())?;
    stdin.write_all(&batch.requests)?;
    stdin.flush()
}

fn read(stdout: ChildStdout, awaited: Receiver<Arc<Batch>>) -> Result<(), String> {
    let mut stdout = BufReader::with_capacity(1 << 16, stdout);
    for batch in awaited {
        let replies = frame(&mut stdout).map_err(|error| format!("no reply: {error}"))?;
        if replies != batch.expected {
            return Err(difference(&batch, &replies));
        }
    }
    Ok(())
}

fn frame(stdout: &mut impl Read) -> io::Result<Vec<u8>> {
    let mut length = [0; 4];
    stdout.read_exact(&mut length)?;
    let mut replies = vec![0; u32::from_le_bytes(length) as usize];
    stdout.read_exact(&mut replies)?;
    Ok(replies)
}

/// Describes the first request whose reply differs, with both replies.
fn difference(batch: &Batch, replies: &[u8]) -> String {
    if replies.len() != batch.expected.len() {
        return format!(
            "{} bytes of replies, not {}",
            replies.len(),
            batch.expected.len()
        );
    }
    let differs = |&i: &usize| batch.part(i, replies).1 != batch.part(i, &batch.expected).1;
    let i = (0..batch.starts.len()).find(differs).unwrap_or(0);
    let (request, found) = batch.part(i, replies);
    let (_, expected) = batch.part(i, &batch.expected);
    let place = found.iter().zip(expected).position(|(a, b)| a != b);
    format!(
        "the engine differs in byte {place:?} of the reply to '{}' {}\nengine: {}\nreference: {}",
        request[0] as char,
        shown(&request[1..]),
        shown(found),
        shown(expected)
    )
}

/// The bytes, escaped; at most 400 of them.
fn shown(bytes: &[u8]) -> String {
    let most = 400;
    let end = if bytes.len() > most { " .." } else { "" };
    format!("{}{end}", bytes[..bytes.len().min(most)].escape_ascii())
}
