//! Running a program of the repository in bounded time.

use bench_tests::root;
use std::io::{self, ErrorKind, Read, Write};
use std::path::Path;
use std::process::{Child, Command, ExitStatus, Output, Stdio};
use std::sync::mpsc::{self, Receiver};
use std::thread;
use std::time::{Duration, Instant};

/// Far more than any plan takes.
const PATIENCE: Duration = Duration::from_secs(30);

/// Does this on a thread of its own, which hands on the value.
fn aside<T: Send + 'static>(work: impl FnOnce() -> T + Send + 'static) -> Receiver<T> {
    let (sender, receiver) = mpsc::channel();
    thread::spawn(move || sender.send(work()));
    receiver
}

fn read_all(mut stream: impl Read) -> io::Result<Vec<u8>> {
    let mut bytes = Vec::new();
    stream.read_to_end(&mut bytes).map(|_| bytes)
}

/// A program need not read a plan that is too long to its end.
fn write_all(mut stream: impl Write, bytes: &[u8]) -> io::Result<()> {
    match stream.write_all(bytes) {
        Err(error) if error.kind() == ErrorKind::BrokenPipe => Ok(()),
        written => written,
    }
}

/// How the program ended; nothing if it did not do so by itself, and then it is ended here.
fn end_of(child: &mut Child, deadline: Instant) -> Option<ExitStatus> {
    loop {
        if let Some(status) = child.try_wait().expect("the program was started") {
            return Some(status);
        }
        if Instant::now() >= deadline {
            child.kill().expect("the program can be ended");
            child.wait().expect("the program was started");
            return None;
        }
        thread::sleep(Duration::from_micros(50));
    }
}

/// What a command does with this input; nothing if it takes longer than `patience`. The input is written and the output read
/// on other threads, so a program that does not read, or does not end, cannot hold this up.
pub fn outcome(command: &mut Command, input: &[u8], patience: Duration) -> Option<Output> {
    let deadline = Instant::now() + patience;
    let streams = command.stdin(Stdio::piped()).stdout(Stdio::piped()).stderr(Stdio::piped());
    let mut child = streams.spawn().unwrap_or_else(|error| panic!("{command:?}: {error}"));
    let stdin = child.stdin.take().expect("piped");
    let stdout = child.stdout.take().expect("piped");
    let stderr = child.stderr.take().expect("piped");
    let input = input.to_vec();
    let written = aside(move || write_all(stdin, &input));
    let texts = [aside(move || read_all(stdout)), aside(move || read_all(stderr))];
    let left = || deadline.saturating_duration_since(Instant::now());
    let texts = texts.map(|text| text.recv_timeout(left()).ok());
    let status = end_of(&mut child, deadline)?;
    written.recv_timeout(left()).ok()?.expect("the input can be written");
    let [stdout, stderr] = texts.map(|text| text.map(|bytes| bytes.expect("the output can be read")));
    Some(Output { status, stdout: stdout?, stderr: stderr? })
}

/// What a program of the repository does with this input. It has to end by itself, and in time.
pub fn run(program: &str, arguments: &[&Path], input: &[u8]) -> Output {
    let mut command = Command::new(root().join(program));
    outcome(command.args(arguments), input, PATIENCE).unwrap_or_else(|| panic!("{program} did not end in time"))
}

/// What it prints. It has to end well.
pub fn printed(program: &str, arguments: &[&Path], input: &[u8]) -> Vec<u8> {
    let output = run(program, arguments, input);
    assert!(output.status.success(), "{program} ended with {}: {}", output.status, String::from_utf8_lossy(&output.stderr));
    output.stdout
}
