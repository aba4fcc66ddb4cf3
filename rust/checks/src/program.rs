//! Input of the program, and the built program run on it.

use crate::drawing::Drawing;
use crate::random::Random;
use slow::call::Answer;
use slow::draw::Grid;
use slow::program::{program, record};
use std::io::{self, Read, Write};
use std::path::Path;
use std::process::{Child, ChildStdin, Command, ExitStatus, Stdio};
use std::sync::mpsc::{Receiver, channel};
use std::thread;
use std::time::{Duration, Instant};

/// The grid record and the tape. A size that two bytes don't hold loses what is above them.
pub fn input(grid: &Grid, tape: &[u8]) -> Vec<u8> {
    [&record(grid), tape].concat()
}

/// The input of the flat drawing: depth 0.
pub fn flat_input(grid: &Grid, tape: &[u8]) -> Vec<u8> {
    let [width, height, _] = grid.sizes;
    input(&Grid { sizes: [width, height, 0], ..*grid }, tape)
}

/// The input of some drawing with its grid record damaged, and often with more damage behind it.
pub fn damaged_input(r: &mut Random) -> Vec<u8> {
    let Drawing { tape, grid, .. } = if r.one_in(2) { Drawing::damaged(r) } else { Drawing::random(r) };
    let mut bytes = if r.one_in(2) { flat_input(&grid, &tape) } else { input(&grid, &tape) };
    for _ in 0..1 + r.below(3) {
        let (at, field) = match r.below(10) {
            0 => (r.index(2), r.bytes(1)),
            1..=3 => (2, r.pick(&[[129, 0, 1, 0], [1, 0, 129, 0], [128, 0, 128, 0]]).to_vec()),
            4..=6 => (28, r.pick(&[0, -1, i32::MIN]).to_le_bytes().to_vec()),
            _ => (6, r.pick(&[0, 1, 600, 65_535u16]).to_le_bytes().to_vec()),
        };
        bytes[at..at + field.len()].copy_from_slice(&field);
    }
    if r.one_in(10) {
        bytes.truncate(r.index(40));
    }
    bytes
}

/// How long the program may take before it counts as hanging.
const LIMIT: Duration = Duration::from_secs(20);

/// What a run left: the bytes on standard output and on descriptor 2, how it ended, and whether its input was all taken.
pub struct Ran {
    pub first: Vec<u8>,
    pub second: Vec<u8>,
    pub status: ExitStatus,
    pub fed: io::Result<()>,
}

/// The command of the built program.
pub fn command() -> Command {
    built("drawlayer")
}

/// A program of the repository.
pub fn built(name: &str) -> Command {
    let path = Path::new(env!("CARGO_MANIFEST_DIR")).join("../../target/bin").join(name);
    assert!(path.exists(), "{} is not there: .ci/run puts it there, and ./draw does", path.display());
    Command::new(path)
}

/// Starts the command with a pipe at each of its three descriptors.
pub fn start(mut command: Command) -> Child {
    command.stdin(Stdio::piped()).stdout(Stdio::piped()).stderr(Stdio::piped()).spawn().expect("the program starts")
}

/// Waits for the end, for as long as a program may take.
pub fn end(child: &mut Child) -> ExitStatus {
    let began = Instant::now();
    while began.elapsed() < LIMIT {
        if let Some(status) = child.try_wait().expect("a child to wait for") {
            return status;
        }
        thread::sleep(Duration::from_micros(50));
    }
    hangs(child)
}

fn hangs(child: &mut Child) -> ! {
    child.kill().expect("a child to end");
    panic!("the program did not end within {LIMIT:?}");
}

/// Writes the input in pieces, then closes the pipe.
pub fn feed(mut to: ChildStdin, input: &[u8], piece: usize, pause: Duration) -> io::Result<()> {
    for part in input.chunks(piece) {
        to.write_all(part)?;
        thread::sleep(pause);
    }
    Ok(())
}

/// Reads to the end in a thread of its own.
fn collect(mut from: impl Read + Send + 'static) -> Receiver<Vec<u8>> {
    let (sender, receiver) = channel();
    thread::spawn(move || {
        let mut bytes = Vec::new();
        from.read_to_end(&mut bytes).expect("a pipe to read");
        // nobody takes it where the program hung
        let _ = sender.send(bytes);
    });
    receiver
}

/// Runs the program on the input, given in pieces with a pause after each.
pub fn run_in_pieces(input: &[u8], piece: usize, pause: Duration) -> Ran {
    run_of(command(), input, piece, pause)
}

/// Runs the reader of texts.
pub fn read_text(text: &[u8]) -> Ran {
    run_of(built("readtext"), text, text.len().max(1), Duration::ZERO)
}

fn run_of(command: Command, input: &[u8], piece: usize, pause: Duration) -> Ran {
    let mut child = start(command);
    let (to, bytes) = (child.stdin.take().unwrap(), input.to_vec());
    let feeder = thread::spawn(move || feed(to, &bytes, piece, pause));
    let pipes = [collect(child.stdout.take().unwrap()), collect(child.stderr.take().unwrap())];
    let [first, second] = pipes.map(|pipe| pipe.recv_timeout(LIMIT).unwrap_or_else(|_| hangs(&mut child)));
    let status = end(&mut child);
    Ran { first, second, status, fed: feeder.join().expect("a thread that ends") }
}

/// Runs the program on the input, given in one piece.
pub fn run(input: &[u8]) -> Ran {
    run_in_pieces(input, input.len().max(1), Duration::ZERO)
}

/// What a run must have left, by the slow program; the answer, or how the two differ.
pub fn check(ran: &Ran, input: &[u8]) -> Result<Answer, String> {
    let said = program(input);
    let code = ran.status.code();
    let wrong = if ran.first != said.first {
        format!("standard output is {:?}", String::from_utf8_lossy(&ran.first))
    } else if ran.second != said.second {
        format!("descriptor 2 has {:?}", String::from_utf8_lossy(&ran.second))
    } else if code.is_none() || (said.answer.number == 0 && code != Some(0)) {
        format!("it ended with {}", ran.status)
    } else {
        return Ok(said.answer);
    };
    let shown = &input[..input.len().min(400)];
    Err(format!("program: {wrong}, but {:?} expected, on {} bytes {shown:?}", said.answer, input.len()))
}

/// Runs the program beside the slow one.
pub fn compare(input: &[u8]) -> Result<Answer, String> {
    check(&run(input), input)
}
