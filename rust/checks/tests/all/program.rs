//! The program against the slow one: on the inputs of every series, on damaged records; short, closed and full pipes.
//! And of the reader of texts what does not hang on the text: reads and writes that fail.

use checks::drawing::{ARITHMETIC, DAMAGED, RANDOM, SHAPES, Series, WIDE};
use checks::program::{self, check, compare, damaged_input, flat_input, input};
use checks::random::{Random, cases};
use slow::draw::Grid;
use std::fs::{self, File};
use std::io::Write;
use std::os::fd::OwnedFd;
use std::os::unix::net::UnixStream;
use std::path::Path;
use std::process::{Child, Command, Output, Stdio};
use std::time::Duration;

fn same(input: &[u8]) -> u8 {
    compare(input).unwrap_or_else(|e| panic!("{e}")).number
}

/// Every input of the series, flat and solid.
fn run_all(test: &str, series: &Series) {
    series.each(test, |drawing, _| {
        same(&flat_input(&drawing.grid, &drawing.tape));
        same(&input(&drawing.grid, &drawing.tape));
    });
}

#[test]
fn random_inputs() {
    run_all("random_inputs", &RANDOM);
}

#[test]
fn inputs_of_arithmetic() {
    run_all("inputs_of_arithmetic", &ARITHMETIC);
}

#[test]
fn inputs_of_shapes() {
    run_all("inputs_of_shapes", &SHAPES);
}

#[test]
fn inputs_of_wide_tapes() {
    run_all("inputs_of_wide_tapes", &WIDE);
}

/// The longest tape, of which the last clause alone counts: 61,480 bytes with the grid record, and no more.
#[test]
fn longest_input() {
    let list = [[0, 127, 0, 0, -7]].repeat(6144).concat();
    let tape = slow::tape::Tape::from_list(128, &list).expect("an accepted list").to_bytes();
    for depth in [0, 3] {
        let grid = Grid { sizes: [70, 70, depth], origins: [0; 3], steps: [65_536; 3] };
        let mut whole = input(&grid, &tape);
        assert_eq!((whole.len(), same(&whole)), (61_480, 0));
        whole.push(0);
        assert_eq!(same(&whole), 4);
        whole.truncate(61_479);
        assert_eq!(same(&whole), 4);
    }
}

#[test]
fn damaged_tapes_and_grids() {
    run_all("damaged_tapes_and_grids", &DAMAGED);
}

/// Each number of the program's is met: all but 12 to 14, which its own buffers rule out.
#[test]
fn damaged_records() {
    let mut r = Random::seeded("damaged_records", 0x5EED_0010);
    let (mut met, cases) = ([0; 17], cases(2000));
    for _ in 0..cases {
        met[same(&damaged_input(&mut r)) as usize] += 1;
    }
    println!("damaged_records: answers by number: {met:?}");
    for (number, n) in met.into_iter().enumerate() {
        assert!((12..=14).contains(&number) || n >= cases / 500, "answers by number: {met:?}");
    }
}

/// A ball on a grid about its centre; depth 0 is flat.
fn ball_on(sizes: [u32; 3]) -> Vec<u8> {
    let list = [
        [1, 0, 0, 0, 0],
        [7, 0, 0, 0, 0],
        [2, 1, 0, 0, 0],
        [7, 1, 1, 0, 0],
        [9, 0, 0, 1, 0],
        [3, 1, 0, 0, 0],
        [7, 1, 1, 0, 0],
        [9, 0, 0, 1, 0],
        [8, 0, 0, 0, 0],
        [0, 1, 0, 0, 15 * 65_536],
        [10, 0, 0, 1, 0],
    ];
    let tape = slow::tape::Tape::from_list(2, &list.concat()).expect("an accepted list").to_bytes();
    let steps = sizes.map(|n| 40 * 65_536 / n.max(1) as i32);
    input(&Grid { sizes, origins: [-20 * 65_536, -20 * 65_536, -10 * 65_536], steps }, &tape)
}

fn ball(depth: u32) -> Vec<u8> {
    ball_on([40, 40, depth])
}

#[test]
fn largest_pictures() {
    for sizes in [[512, 512, 0], [128, 128, 512], [511, 1, 0], [1, 127, 511]] {
        assert_eq!(same(&ball_on(sizes)), 0, "{sizes:?}");
    }
}

/// A pipe that gives a little at a time.
#[test]
fn input_in_pieces() {
    for depth in [0, 40] {
        let whole = ball(depth);
        for (piece, pause) in [(1, 200), (7, 1000), (31, 2000), (33, 2000)] {
            let ran = program::run_in_pieces(&whole, piece, Duration::from_micros(pause));
            let said = check(&ran, &whole).unwrap_or_else(|e| panic!("pieces of {piece}: {e}"));
            assert!(said.number == 0 && said.count > 0);
        }
    }
}

/// A pipe that ends too soon: after any number of bytes.
#[test]
fn input_cut_off() {
    let whole = ball(0);
    for len in 0..whole.len() {
        assert_ne!(same(&whole[..len]), 0, "{len} bytes");
    }
    assert_eq!(same(&whole), 0);
}

#[test]
fn empty_input() {
    let ran = program::run(&[]);
    assert_eq!((&ran.first[..], &ran.second[..]), (&b"refused 15 at 0\n"[..], &b""[..]));
    assert!(ran.status.code().is_some());
}

#[test]
fn bytes_behind_the_tape() {
    for more in [1, 2, 10, 100_000] {
        let bytes = [ball(0), vec![0; more]].concat();
        let ran = program::run(&bytes);
        assert_eq!(ran.first, b"refused 4 at 0\n");
        check(&ran, &bytes).unwrap_or_else(|e| panic!("{e}"));
    }
}

/// Input that is longer than any accepted one need not be read to its end, so its writer may find the pipe closed.
#[test]
fn a_million_bytes_of_noise() {
    let mut r = Random::seeded("a_million_bytes_of_noise", 0x5EED_0011);
    let noise = r.bytes(1_000_000);
    let ball = ball(0);
    let marked = |good: usize| [&ball[..good], &noise[good..]].concat();
    // noise alone, behind the mark, behind the record, behind the tape's head, behind the tape
    for (good, number) in [(0, 15), (2, 16), (32, 2), (40, 4), (ball.len(), 4)] {
        let bytes = marked(good);
        let ran = program::run(&bytes);
        let said = check(&ran, &bytes).unwrap_or_else(|e| panic!("{good} good bytes: {e}"));
        assert_eq!((said.number, said.place), (number, 0), "{good} good bytes");
        if let Err(e) = ran.fed {
            assert_eq!(e.kind(), std::io::ErrorKind::BrokenPipe);
        }
    }
}

fn feed_and_end(child: &mut Child, input: &[u8]) {
    let to = child.stdin.take().unwrap();
    // a program that finds a descriptor closed may be gone before it is fed
    let _ = program::feed(to, input, 1000, Duration::ZERO);
    program::end(child);
}

/// Nobody reads one of the two outputs, or nobody reads either: the program ends all the same.
#[test]
fn outputs_closed_early() {
    for (first, second) in [(true, false), (false, true), (true, true)] {
        for bytes in [ball(0), ball(40), Vec::new()] {
            let mut child = program::start(program::command());
            if first {
                drop(child.stdout.take());
            }
            if second {
                drop(child.stderr.take());
            }
            feed_and_end(&mut child, &bytes);
        }
    }
}

/// A descriptor that is not there at all.
#[test]
fn descriptors_missing() {
    let program = program::command();
    for closed in ["<&-", ">&-", "2>&-", "<&- >&- 2>&-"] {
        let mut shell = Command::new("sh");
        shell.arg("-c").arg(format!("exec \"$0\" {closed}")).arg(program.get_program());
        feed_and_end(&mut program::start(shell), &ball(40));
    }
}

/// What a program leaves whose input has these bytes and then no end: a read fails. The input does not wait, and its
/// other end is open.
fn run_on_failing_input(mut command: Command, bytes: &[u8]) -> Output {
    let (input, mut other_end) = UnixStream::pair().unwrap();
    input.set_nonblocking(true).unwrap();
    other_end.write_all(bytes).unwrap();
    let ran = command.stdin(OwnedFd::from(input)).output().unwrap();
    assert!(ran.status.success());
    ran
}

/// The beginning of a text can be a formula: nothing is said of it where the rest could not be read.
#[test]
fn a_text_that_is_read_in_part() {
    for text in [&b""[..], b"x", b"x + y", b"x +", b"max(x, y)                    ", &[b' '; 5000]] {
        let ran = run_on_failing_input(program::built("readtext"), text);
        assert_eq!((&ran.stdout[..], &ran.stderr[..]), (&b""[..], &b""[..]), "{:?}", String::from_utf8_lossy(text));
    }
    // no byte of a folder can be read
    let ran = program::built("readtext").stdin(File::open("/").unwrap()).output().unwrap();
    assert_eq!((ran.stdout.len(), ran.stderr.len()), (0, 0));
}

/// Of an input that is drawn every beginning is refused, by its length, so that a read that fails may end it.
#[test]
fn an_input_that_is_read_in_part() {
    let whole = ball(0);
    for len in (0..whole.len()).step_by(7).chain([31, 32, 40, whole.len() - 1]) {
        let ran = run_on_failing_input(program::command(), &whole[..len]);
        let number = slow::program::program(&whole[..len]).answer.number;
        assert!(number == 15 || number <= 4 && number > 0, "{number}");
        assert_eq!(ran.stdout, format!("refused {number} at 0\n").into_bytes(), "{len} bytes");
        assert!(ran.stderr.is_empty());
    }
}

/// What the command says on descriptor 2 if its standard output is `out`.
fn count_said(mut command: Command, out: impl Into<Stdio>, bytes: &[u8]) -> String {
    let mut child = command.stdin(Stdio::piped()).stdout(out).stderr(Stdio::piped()).spawn().unwrap();
    child.stdin.take().unwrap().write_all(bytes).unwrap();
    let ran = child.wait_with_output().unwrap();
    assert!(ran.status.success());
    String::from_utf8(ran.stderr).unwrap()
}

/// The count comes only behind a whole picture: not where a device or a pipe that does not wait takes nothing of it.
#[test]
fn no_count_behind_no_picture() {
    let (mut full, _other_end) = UnixStream::pair().unwrap();
    full.set_nonblocking(true).unwrap();
    while full.write(&[0; 4096]).is_ok() {}
    for bytes in [ball(0), ball(40), ball_on([512, 512, 0])] {
        assert_ne!(count_said(program::command(), Stdio::null(), &bytes), "");
        assert_eq!(count_said(program::command(), File::create("/dev/full").unwrap(), &bytes), "");
        assert_eq!(count_said(program::command(), OwnedFd::from(full.try_clone().unwrap()), &bytes), "");
    }
}

/// The same on a disk that has room for a part: here for 8 blocks of a file.
#[test]
fn no_count_behind_a_cut_picture() {
    let mut shell = Command::new("sh");
    let program = program::command();
    shell.arg("-c").arg("trap '' XFSZ; ulimit -f 8; exec \"$0\"").arg(program.get_program());
    let name = Path::new(env!("CARGO_TARGET_TMPDIR")).join("cut.pbm");
    assert_eq!(count_said(shell, File::create(&name).unwrap(), &ball_on([512, 512, 0])), "");
    let written = fs::metadata(&name).unwrap().len();
    assert!(0 < written && written < 512 * 512 / 8, "{written} bytes are written");
}

/// The last word of the reader of texts, the same way.
#[test]
fn no_last_word_behind_a_cut_tape() {
    let text = ["x"; 512].join("+").into_bytes();
    let reader = || program::built("readtext");
    assert_eq!(count_said(reader(), Stdio::null(), &text), "10238\n");
    assert_eq!(count_said(reader(), File::create("/dev/full").unwrap(), &text), "");
    assert_eq!(count_said(reader(), File::create("/dev/full").unwrap(), b"x +"), "");
    let mut shell = Command::new("sh");
    shell.arg("-c").arg("trap '' XFSZ; ulimit -f 8; exec \"$0\"").arg(reader().get_program());
    let name = Path::new(env!("CARGO_TARGET_TMPDIR")).join("cut.tape");
    assert_eq!(count_said(shell, File::create(&name).unwrap(), &text), "");
    let written = fs::metadata(&name).unwrap().len();
    assert!(0 < written && written < 10_238, "{written} bytes are written");
}
