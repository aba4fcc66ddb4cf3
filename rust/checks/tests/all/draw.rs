//! The script `./draw`, run as a person would, in a scratch repository where everything is proved: `rt`, `cargo` and
//! the preview are stubs there, the programs are the proved ones. Most are failures that once looked like success, hung or
//! said nothing.

use checks::program;
use slow::draw::Grid;
use slow::text::tape;
use std::ffi::OsString;
use std::fs::{self, File};
use std::io::Write;
use std::os::unix::fs::symlink;
use std::os::unix::process::CommandExt;
use std::path::{Path, PathBuf};
use std::process::{Child, Command, Stdio};
use std::thread::sleep;
use std::time::Duration;

/// A small repository: what `./draw` reads of one.
const CRATES: &str = "# NAME: the crates that it builds on
rules:
isqrt: rules
tape: rules
figures: rules tape io
drawlayer: rules isqrt tape io
";

fn in_repository(path: &str) -> PathBuf {
    Path::new(env!("CARGO_MANIFEST_DIR")).join("../..").join(path)
}

/// A part that is drawn, one layer of 512 by 512 pixels.
fn part() -> Vec<u8> {
    fs::read(in_repository("examples/bracket-flat.part")).unwrap()
}

/// What a run left.
struct Ran {
    code: Option<i32>,
    said: String,
    complaint: String,
}

/// A run on its way; its two outputs go to files.
struct Run {
    child: Child,
    said: PathBuf,
    complaint: PathBuf,
}

impl Run {
    fn end(mut self) -> Ran {
        let code = program::end(&mut self.child).code();
        let [said, complaint] = [self.said, self.complaint].map(|name| fs::read_to_string(name).unwrap());
        Ran { code, said, complaint }
    }
}

/// A scratch folder with a repository `repo`, the stubs in `bin`, and `room`, where the runs start. It lies outside of
/// this repository, in which rt suffers no other one.
struct Scratch(PathBuf);

impl Drop for Scratch {
    fn drop(&mut self) {
        let _ = fs::remove_dir_all(&self.0);
    }
}

impl Scratch {
    fn new(test: &str) -> Scratch {
        let top = std::env::temp_dir().join(format!("lezantsiro-draw-{}-{test}", std::process::id()));
        let _ = fs::remove_dir_all(&top);
        let scratch = Scratch(top);
        for folder in ["repo/target/bin", "repo/target/cargo/release", "repo/tools", "repo/docs", "bin", "room"] {
            fs::create_dir_all(scratch.at(folder)).unwrap();
        }
        for file in ["docs/FORMATS.md", "tools/proving.sh"] {
            fs::copy(in_repository(file), scratch.at("repo").join(file)).unwrap();
        }
        fs::write(scratch.at("repo/crates.txt"), CRATES).unwrap();
        let draw = fs::read_to_string(in_repository("draw")).unwrap();
        scratch.script("repo/draw", draw.strip_prefix("#!/bin/sh\n").expect("a script"));
        for name in ["drawlayer", "readtext"] {
            let folder = scratch.at("repo/crates").join(name);
            fs::create_dir_all(folder.join("src")).unwrap();
            fs::create_dir(folder.join("out")).unwrap();
            File::create(folder.join("src/main.rt")).unwrap();
            for place in [scratch.at("repo/target/bin"), folder.join("out")] {
                symlink(program::built(name).get_program(), place.join(name)).unwrap();
            }
        }
        scratch.script("repo/target/cargo/release/preview", "printf PNG > \"$3\"");
        scratch.script("bin/cargo", "");
        scratch.script("bin/rt", "echo 'rt: nothing has changed' >&2");
        scratch
    }

    fn at(&self, path: &str) -> PathBuf {
        self.0.join(path)
    }

    /// The programs are in their places, and newer than every source: rt is not asked, and nothing is copied there.
    fn built(self) -> Scratch {
        for source in ["crates.txt", "crates/drawlayer/src/main.rt", "crates/readtext/src/main.rt"] {
            let file = File::options().write(true).open(self.at("repo").join(source)).unwrap();
            file.set_modified(std::time::UNIX_EPOCH).unwrap();
        }
        self
    }

    /// Writes a file that can be run. Another process writes it: a file that this one has open for writing, as a child
    /// of another test may have for a moment, cannot be run.
    fn script(&self, path: &str, body: &str) {
        let mut writer = Command::new("sh");
        writer
            .args(["-c", "rm -f \"$0\" && cat > \"$0\" && chmod 755 \"$0\""])
            .arg(self.at(path))
            .stdin(Stdio::piped());
        let mut child = writer.spawn().unwrap();
        child.stdin.take().unwrap().write_all(format!("#!/bin/sh\n{body}\n").as_bytes()).unwrap();
        assert!(child.wait().unwrap().success());
    }

    /// Writes an input to the room.
    fn input(&self, path: &str, bytes: &[u8]) {
        let name = self.at("room").join(path);
        fs::create_dir_all(name.parent().unwrap()).unwrap();
        fs::write(name, bytes).unwrap();
    }

    /// The command in the room, with the stubs first on the PATH, in a process group of its own.
    fn command(&self, command: impl Into<OsString>) -> Command {
        let mut path = self.at("bin").into_os_string();
        path.push(":");
        path.push(std::env::var_os("PATH").unwrap_or_default());
        let mut made = Command::new(command.into());
        made.env("PATH", path).current_dir(self.at("room")).stdin(Stdio::null()).process_group(0);
        made
    }

    fn start(&self, mut command: Command, label: &str) -> Run {
        let [said, complaint] = ["out", "err"].map(|kind| self.at(&format!("{label}.{kind}")));
        let child = command.stdout(File::create(&said).unwrap()).stderr(File::create(&complaint).unwrap()).spawn();
        Run { child: child.expect("the command starts"), said, complaint }
    }

    fn run(&self, command: Command) -> Ran {
        self.start(command, "run").end()
    }

    /// `./draw` on inputs of the room.
    fn draw(&self, inputs: &[&str]) -> Ran {
        let mut command = self.command(self.at("repo/draw"));
        command.args(inputs);
        self.run(command)
    }

    /// The pictures, and whatever else is left where they go, by name.
    fn pictures(&self) -> Vec<String> {
        let Ok(files) = fs::read_dir(self.at("repo/out")) else { return Vec::new() };
        let mut names: Vec<String> = files.map(|f| f.unwrap().file_name().into_string().unwrap()).collect();
        names.retain(|name| name != "build.log" && name != ".lock");
        names.sort();
        names
    }

    /// The part is drawn under this name, whole, and nothing else is there.
    fn drew(&self, ran: &Ran, name: &str) {
        assert_eq!((ran.code, &ran.complaint[..]), (Some(0), ""));
        let picture = format!("{name}.pbm");
        assert_eq!(self.pictures(), [picture.clone(), format!("{name}.png")]);
        assert_eq!(fs::read(self.at("repo/out").join(&picture)).unwrap(), program::run(&part()).first);
        assert!(
            ran.said.contains(&format!("out/{picture}: one layer, 512 by 512 pixels, from 168 clauses")),
            "{}",
            ran.said
        );
    }

    /// Nothing is drawn or left, and this is the complaint.
    fn drew_nothing(&self, ran: &Ran, complaint: &str) {
        assert_eq!((ran.code, &ran.complaint[..]), (Some(1), complaint));
        assert_eq!((&ran.said[..], self.pictures()), ("", vec![]));
    }
}

#[test]
fn a_part() {
    let s = Scratch::new("a_part");
    s.input("x.part", &part());
    s.drew(&s.draw(&["x.part"]), "x");
}

#[test]
fn a_full_disk() {
    let s = Scratch::new("a_full_disk").built();
    s.input("x.part", &part());
    let mut command = s.command("sh");
    command.args(["-c", "trap '' XFSZ; ulimit -f 16; exec ../repo/draw x.part"]);
    let complaint = "draw: x.part: the picture was not written whole, and is not kept. Is the disk full?\n";
    s.drew_nothing(&s.run(command), complaint);
}

/// A program that was just built, and of which only a part is copied to its place, is none: the old one stays there.
#[test]
fn a_full_disk_and_a_program() {
    let s = Scratch::new("a_full_disk_and_a_program");
    s.input("x.part", &part());
    let mut command = s.command("sh");
    command.args(["-c", "trap '' XFSZ; ulimit -f 16; exec ../repo/draw x.part"]);
    let ran = s.run(command);
    assert_eq!((ran.code, &ran.said[..], s.pictures()), (Some(1), "", vec![]));
    assert!(ran.complaint.contains("draw: the program was not built: see out/build.log"), "{}", ran.complaint);
    let placed = fs::read_link(s.at("repo/target/bin/drawlayer")).unwrap();
    assert_eq!(placed, program::built("drawlayer").get_program());
}

/// A text whose beginning is another formula: with the `+ 100` it has no material. Its tape is long too.
fn text_of_two() -> String {
    format!("{}x - 500{}+ 10000", "x + ".repeat(300), " ".repeat(30_000))
}

#[test]
fn a_full_disk_and_a_text() {
    let s = Scratch::new("a_full_disk_and_a_text").built();
    s.input("x.txt", text_of_two().as_bytes());
    // room for a half of the text
    let mut command = s.command("sh");
    command.args(["-c", "trap '' XFSZ; ulimit -f 32; exec ../repo/draw x.txt"]);
    let ran = s.run(command);
    assert_eq!((ran.code, &ran.said[..], s.pictures()), (Some(1), "", vec![]));
    assert!(ran.complaint.contains("draw: x.txt was not read whole, or not copied to "), "{}", ran.complaint);
}

/// Each of the tools that copy a text leaves 4,096 bytes of it and says that all is well, or that it is not.
#[test]
fn a_copy_that_is_cut() {
    for (tool, status) in
        [("head", 0), ("sed", 0), ("tr", 0), ("cat", 0), ("head", 1), ("sed", 1), ("tr", 1), ("cat", 1)]
    {
        let s = Scratch::new("a_copy_that_is_cut");
        s.input("x.txt", text_of_two().as_bytes());
        s.script(&format!("bin/{tool}"), &format!("PATH=${{PATH#*:}}\n{tool} \"$@\" | head -c 4096\nexit {status}"));
        let ran = s.draw(&["x.txt"]);
        assert_eq!((ran.code, &ran.said[..], s.pictures()), (Some(1), "", vec![]), "{tool}: {}", ran.complaint);
        assert!(ran.complaint.ends_with("nothing is drawn. Is the disk full?\n"), "{tool}: {}", ran.complaint);
    }
    let s = Scratch::new("a_copy_that_is_whole");
    s.input("x.txt", text_of_two().as_bytes());
    s.drew_as(&s.draw(&["x.txt"]), "x.pbm", &packed(&text_of_two(), USUAL));
}

/// A tape without the reader's last word, or with that of another.
#[test]
fn a_tape_without_its_last_word() {
    let s = Scratch::new("a_tape_without_its_last_word");
    s.input("x.txt", b"x");
    let reader = program::built("readtext").get_program().to_str().unwrap().to_string();
    for word in ["true", "echo 17 >&2", "echo none >&2"] {
        s.script("repo/target/bin/readtext", &format!("{reader} 2> /dev/null\n{word}"));
        let complaint = "draw: x.txt: the tape was not written whole: nothing is drawn. Is the disk full?\n";
        s.drew_nothing(&s.draw(&["x.txt"]), complaint);
    }
    s.script("repo/target/bin/readtext", &format!("{reader} 2> /dev/null\necho 18 >&2"));
    s.drew_as(&s.draw(&["x.txt"]), "x.pbm", &packed("x", USUAL));
}

/// What was drawn of a name goes when the next input of that name is refused.
#[test]
fn no_older_picture_behind_a_refusal() {
    let s = Scratch::new("no_older_picture_behind_a_refusal");
    for text in ["x -", "# layer 8 8 from 0 0 0 step 0\nx", "# layer 600 8 from 0 0 0 step 1\nx"] {
        s.input("x.txt", b"x");
        s.drew_as(&s.draw(&["x.txt"]), "x.pbm", &packed("x", USUAL));
        s.input("x.txt", text.as_bytes());
        assert_eq!(s.draw(&["x.txt"]).code, Some(1));
        assert_eq!(s.pictures(), Vec::<String>::new(), "{text}");
    }
}

/// What is no option and no file is said before anything is built.
#[test]
fn options_that_are_none() {
    let s = Scratch::new("options_that_are_none");
    s.input("x.part", &part());
    s.script("bin/rt", "touch ../../../built; exit 1");
    for (inputs, option) in [(&["-o", "x.part"][..], "-o"), (&["--version"], "--version"), (&["x.part", "-v"], "-v")] {
        let said =
            format!("draw: {option} is no option, and no file that is here. './draw --help' says what there is\n");
        s.drew_nothing(&s.draw(inputs), &said);
    }
    let said = "draw: standard input is not read: give the name of a file. './draw --help' says more\n";
    s.drew_nothing(&s.draw(&["-"]), said);
    assert!(!s.at("built").exists());
}

/// A formula in a file of another name is no part, and this is said; bytes that are no text are just refused.
#[test]
fn a_formula_of_another_name() {
    let s = Scratch::new("a_formula_of_another_name");
    let refused =
        |name: &str| format!("draw: {name}: refused 15 at 0 (program: input below 32 bytes or grid mark wrong)\n");
    let hint = |name: &str| format!("draw: {name}: a formula as text has a name that ends in .txt\n");
    for name in ["ring", "ring.formula", "ring.TXT"] {
        s.input(name, format!("{RING}\n").as_bytes());
        s.drew_nothing(&s.draw(&[name]), &(refused(name) + &hint(name)));
    }
    for bytes in [&b""[..], b"x\x00", &part()[..31]] {
        s.input("x.part", bytes);
        s.drew_nothing(&s.draw(&["x.part"]), &refused("x.part"));
    }
}

#[test]
fn a_picture_without_its_count() {
    let s = Scratch::new("a_picture_without_its_count");
    s.input("x.part", &part());
    for count in ["", "0", "none"] {
        s.script("repo/target/bin/drawlayer", &format!("printf 'P4\\n8 1\\n~'; printf '{count}' >&2"));
        let complaint = "draw: x.part: the picture was not written whole, and is not kept. Is the disk full?\n";
        s.drew_nothing(&s.draw(&["x.part"]), complaint);
    }
}

#[test]
fn a_name_that_begins_with_a_dash() {
    let s = Scratch::new("a_name_that_begins_with_a_dash");
    s.input("-x.part", &part());
    s.drew(&s.draw(&["-x.part"]), "-x");
}

#[test]
fn a_name_that_is_all_ending() {
    let s = Scratch::new("a_name_that_is_all_ending");
    s.input(".part", &part());
    s.drew(&s.draw(&[".part"]), ".part");
}

#[test]
fn a_fifo() {
    let s = Scratch::new("a_fifo");
    assert!(Command::new("mkfifo").arg(s.at("room/fifo")).status().unwrap().success());
    s.drew_nothing(&s.draw(&["fifo"]), "draw: fifo is not a regular file\n");
}

#[test]
fn standard_input() {
    let s = Scratch::new("standard_input");
    s.input("x.part", &part());
    let mut command = s.command("sh");
    command.args(["-c", "../repo/draw /dev/stdin < x.part"]);
    s.drew(&s.run(command), "stdin");
}

#[test]
fn a_pipe_as_standard_input() {
    let s = Scratch::new("a_pipe_as_standard_input");
    s.input("x.part", &part());
    let mut command = s.command("sh");
    command.args(["-c", "cat x.part | ../repo/draw /dev/stdin"]);
    s.drew_nothing(&s.run(command), "draw: /dev/stdin is not a regular file\n");
}

#[test]
fn a_set_cdpath() {
    let s = Scratch::new("a_set_cdpath");
    s.input("x.part", &part());
    fs::create_dir_all(s.at("elsewhere/repo")).unwrap();
    let mut command = s.command("sh");
    command.args(["-c", "cd .. && repo/draw room/x.part"]).env("CDPATH", s.at("elsewhere"));
    s.drew(&s.run(command), "x");
}

#[test]
fn a_crashed_program() {
    let s = Scratch::new("a_crashed_program");
    s.input("x.part", &part());
    s.script("repo/target/bin/drawlayer", "kill -s KILL $$");
    s.drew_nothing(&s.draw(&["x.part"]), "draw: x.part: the program ended with status 137 and drew nothing\n");
}

/// As from a terminal: the signal goes to every process of the run.
#[test]
fn an_interruption() {
    let s = Scratch::new("an_interruption");
    s.input("x.part", &part());
    s.script("repo/target/bin/drawlayer", "printf P4; touch ../started; exec sleep 60");
    let mut command = s.command(s.at("repo/draw"));
    command.arg("x.part");
    let run = s.start(command, "run");
    wait_for(&s.at("started"));
    // not INT: a process that was started in the background ignores it
    let group = format!("kill -s TERM -- -{}", run.child.id());
    assert!(Command::new("sh").args(["-c", &group]).status().unwrap().success());
    let ran = run.end();
    assert_eq!((ran.code, s.pictures()), (Some(143), vec![]));
}

/// As by `kill`: the signal goes to the script alone, which hands it on, to the program and to rt.
#[test]
fn a_signal_reaches_what_is_at_work() {
    for at_work in ["repo/target/bin/drawlayer", "bin/rt"] {
        let s = Scratch::new("a_signal_reaches_what_is_at_work");
        s.input("x.part", &part());
        let (started, ended) = (s.at("started"), s.at("ended"));
        let body = format!(
            "trap 'touch {}; exit 1' TERM\ntouch {}\nwhile :; do sleep 0.02; done",
            ended.display(),
            started.display()
        );
        s.script(at_work, &body);
        let mut command = s.command(s.at("repo/draw"));
        command.arg("x.part");
        let run = s.start(command, "run");
        wait_for(&started);
        let kill = format!("kill -s TERM {}", run.child.id());
        assert!(Command::new("sh").args(["-c", &kill]).status().unwrap().success());
        let ran = run.end();
        assert_eq!((ran.code, &ran.complaint[..], s.pictures()), (Some(143), "", vec![]), "{at_work}");
        wait_for(&ended);
    }
}

/// Waits until the file is there, for at most 20 seconds.
fn wait_for(name: &Path) {
    for _ in 0..2000 {
        if name.exists() {
            return;
        }
        sleep(Duration::from_millis(10));
    }
    panic!("{} does not come", name.display());
}

#[test]
fn two_inputs_of_one_name() {
    let s = Scratch::new("two_inputs_of_one_name");
    s.input("a/x.part", &part());
    s.input("b/x.part", &part());
    s.script("bin/rt", "exit 1");
    let complaint = "draw: the pictures of a/x.part and b/x.part would both be out/x: nothing is drawn. Rename one.\n";
    s.drew_nothing(&s.draw(&["a/x.part", "b/x.part"]), complaint);
}

#[test]
fn a_refused_input_among_several() {
    let s = Scratch::new("a_refused_input_among_several");
    s.input("short.part", &part()[..31]);
    s.input("x.part", &part());
    let ran = s.draw(&["short.part", "missing.part", "x.part"]);
    let refusal = "short.part: refused 15 at 0 (program: input below 32 bytes or grid mark wrong)";
    assert_eq!(ran.complaint, format!("draw: {refusal}\ndraw: missing.part is not there\n"));
    assert_eq!(ran.code, Some(1));
    s.drew(&Ran { code: Some(0), complaint: String::new(), ..ran }, "x");
}

/// While the first run is in rt the second waits: rt is not at work twice.
#[test]
fn two_runs_at_once() {
    let s = Scratch::new("two_runs_at_once");
    s.input("x.part", &part());
    s.input("y.part", &part());
    // the first stays in rt until the second has said that it waits, or has come into rt too
    let body = "cd ../../..
mkdir busy || { touch twice; exit 1; }
until [ -s second.err ] || [ -e twice ]; do sleep 0.02; done
rmdir busy";
    s.script("bin/rt", body);
    let start = |label: &str, input: &str| {
        let mut command = s.command(s.at("repo/draw"));
        command.arg(input);
        s.start(command, label)
    };
    let first = start("first", "x.part");
    wait_for(&s.at("busy"));
    let second = start("second", "y.part");
    let (first, second) = (first.end(), second.end());
    assert_eq!((first.code, &first.complaint[..]), (Some(0), ""));
    assert_eq!((second.code, &second.complaint[..]), (Some(0), "draw: another run is at work: waiting for its end\n"));
    assert_eq!(s.pictures(), ["x.pbm", "x.png", "y.pbm", "y.png"]);
}

#[test]
fn a_start_through_a_symbolic_link() {
    let s = Scratch::new("a_start_through_a_symbolic_link");
    s.input("x.part", &part());
    symlink("../repo/draw", s.at("bin/draw")).unwrap();
    symlink("../bin/draw", s.at("room/drawing")).unwrap();
    let mut command = s.command("./drawing");
    command.arg("x.part");
    s.drew(&s.run(command), "x");
}

/// How far the proof is, the first time: a line for each crate that was proved, and which is next; one that no longer
/// needs proof is only counted.
#[test]
fn a_line_for_each_crate() {
    let s = Scratch::new("a_line_for_each_crate");
    s.input("x.part", &part());
    fs::rename(s.at("repo/target/bin/drawlayer"), s.at("drawlayer")).unwrap();
    fs::create_dir_all(s.at("repo/crates/isqrt/out/rlib")).unwrap();
    File::create(s.at("repo/crates/isqrt/out/rlib/stamp")).unwrap();
    let body = "for name in rules tape drawlayer; do
    echo \"rt: chose --jobs 2 for $name\"
    echo \"fn $name::f: proved\"
    echo 'logic=proved functions=1'
done >&2
echo 'rt: running out/drawlayer' >&2
mv ../../../drawlayer out";
    s.script("bin/rt", body);
    let ran = s.draw(&["x.part"]);
    s.drew(&ran, "x");
    // the seconds are 0, or few where the machine is busy
    let told: Vec<String> = ran.said.lines().take(4).map(|line| without_number_before(line, " s so far")).collect();
    let expected = [
        "Proving and building the program, some minutes the first time: 4 crates, now rules",
        "proved rules, 2 of 4 ( s so far), now proving tape",
        "proved tape, 3 of 4 ( s so far), now proving drawlayer",
        "proved drawlayer, 4 of 4 ( s so far)",
    ];
    assert_eq!(told, expected);
}

/// Of what it takes from another copy rt says nothing more: it is proved when rt comes to what builds on it.
#[test]
fn crates_that_were_proved_elsewhere() {
    let s = Scratch::new("crates_that_were_proved_elsewhere");
    s.input("x.part", &part());
    fs::rename(s.at("repo/target/bin/drawlayer"), s.at("drawlayer")).unwrap();
    let body = "for name in rules isqrt tape; do
    echo \"rt: $name: begins with what a check kept in /elsewhere/crates/$name\"
done >&2
echo 'rt: chose --jobs 2 for drawlayer' >&2
echo 'logic=proved functions=1' >&2
mv ../../../drawlayer out";
    s.script("bin/rt", body);
    let ran = s.draw(&["x.part"]);
    s.drew(&ran, "x");
    let told: Vec<String> = ran.said.lines().take(2).map(|line| without_number_before(line, " s so far")).collect();
    let expected = [
        "Proving and building the program, some minutes the first time: 4 crates, now rules",
        "proved drawlayer, 4 of 4 ( s so far)",
    ];
    assert_eq!(told, expected);
}

/// The reader of texts is proved when a text is drawn.
#[test]
fn only_what_is_needed_is_built() {
    for (name, asked) in [("x.part", "run drawlayer\n"), ("y.txt", "run drawlayer\nrun readtext\n")] {
        let s = Scratch::new("only_what_is_needed_is_built");
        s.input("x.part", &part());
        s.input("y.txt", b"x");
        s.script("bin/rt", "echo \"$* ${PWD##*/}\" >> ../../../asked");
        s.draw(&[name]);
        assert_eq!(fs::read_to_string(s.at("asked")).unwrap(), asked);
        // what is in its place and newer than every source is built
        s.draw(&[name]);
        assert_eq!(fs::read_to_string(s.at("asked")).unwrap(), asked);
    }
}

/// The line without the digits that stand before the mark.
fn without_number_before(line: &str, mark: &str) -> String {
    match line.split_once(mark) {
        Some((start, end)) => format!("{}{mark}{end}", start.trim_end_matches(|c: char| c.is_ascii_digit())),
        None => line.to_string(),
    }
}

/// The program's input for a text on a grid.
fn packed(text: &str, grid: Grid) -> Vec<u8> {
    program::input(&grid, &tape(text.as_bytes(), None).expect("a formula").to_bytes())
}

const RING: &str = "max(root(sqr(x) + sqr(y)) - 24, 8 - root(sqr(x) + sqr(y)))";

/// Where a text names no grid.
const USUAL: Grid = Grid { sizes: [512, 512, 0], origins: [-32 << 16, -32 << 16, 0], steps: [8_192; 3] };

impl Scratch {
    /// The input of this name is drawn as the program draws that.
    fn drew_as(&self, ran: &Ran, picture: &str, input: &[u8]) {
        assert_eq!((ran.code, &ran.complaint[..]), (Some(0), ""));
        let drawn = fs::read(self.at("repo/out").join(picture)).unwrap();
        assert!(drawn == program::run(input).first, "{picture}");
        assert!(ran.said.contains(&format!("out/{picture}: ")), "{}", ran.said);
    }
}

#[test]
fn a_text() {
    let s = Scratch::new("a_text");
    s.input("ring.txt", format!("{RING}\n").as_bytes());
    let ran = s.draw(&["ring.txt"]);
    s.drew_as(&ran, "ring.pbm", &packed(RING, USUAL));
    assert_eq!(s.pictures(), ["ring.pbm", "ring.png"]);
}

/// Grids in a line of their own, texts over several lines, with and without an end of the last.
#[test]
fn texts_with_their_grids() {
    let s = Scratch::new("texts_with_their_grids");
    let half = Grid { sizes: [40, 24, 0], origins: [-655_360, 22_937, -6_554], steps: [32_768; 3] };
    let solid = Grid { sizes: [16, 8, 12], origins: [-8 << 16, -4 << 16, 0], steps: [65_536, 65_536, 6_553] };
    let lines = "# layer 40 24 from -10 0.35 -0.1 step 0.5";
    let texts = [
        ("a.txt", format!("{lines}\n{RING}"), "a.pbm", packed(RING, half)),
        ("b.txt", format!("#\r\n{lines}\r\nx\r\n -\r\ny"), "b.pbm", packed("x - y", half)),
        (
            "c.txt",
            "# a bar\n#solid 16 8 12   from -8 -4 0 step 1 1 0.1\nabs(y) - 2\n# its end\n + z".into(),
            "c.pgm",
            packed("abs(y) - 2 + z", solid),
        ),
        ("d.txt", "# layering: none\nx".into(), "d.pbm", packed("x", USUAL)),
        ("e.txt", "# layer of glue\n# Solid as a rock\nx".into(), "e.pbm", packed("x", USUAL)),
        ("f.txt", format!("# layer of glue\n{}\nx - y", lines.to_uppercase()), "f.pbm", packed("x - y", half)),
        ("g.txt", format!("{lines} 0.5 0\nx"), "g.pbm", packed("x", Grid { steps: [32_768, 32_768, 0], ..half })),
    ];
    for (name, text, picture, input) in texts {
        s.input(name, text.as_bytes());
        s.drew_as(&s.draw(&[name]), picture, &input);
    }
}

/// The parts that are checked in as text.
#[test]
fn the_example_texts() {
    let s = Scratch::new("the_example_texts");
    let solid = Grid { sizes: [128, 128, 80], origins: USUAL.origins, steps: [32_768, 32_768, 16_384] };
    for (name, picture, grid) in [("gasket.txt", "gasket.pbm", USUAL), ("pulley.txt", "pulley.pgm", solid)] {
        let file = fs::read_to_string(in_repository("examples").join(name)).unwrap();
        let lines: Vec<&str> = file.lines().filter(|line| !line.starts_with('#')).collect();
        s.input(name, file.as_bytes());
        s.drew_as(&s.draw(&[name]), picture, &packed(&lines.join(" "), grid));
    }
}

/// What a newcomer types first.
#[test]
fn the_readme_shows_a_text() {
    let readme = fs::read_to_string(in_repository("README.md")).unwrap();
    assert!(readme.contains(&format!("echo '{RING}' > ring.txt\n./draw ring.txt\n")));
}

/// The complaint of a text that is refused.
fn complaint(test: &str, text: &[u8]) -> String {
    let s = Scratch::new(test);
    s.input("x.txt", text);
    let ran = s.draw(&["x.txt"]);
    s.drew_nothing(&ran, &ran.complaint);
    ran.complaint
}

/// Where a broken text stopped the reader: what the complaint says behind the refusal.
fn stop_shown(test: &str, text: &[u8]) -> String {
    let complained = complaint(test, text);
    let refused = "draw: x.txt: refused 17 at 0 (text: the rules of a formula broken)\n";
    complained.strip_prefix(refused).unwrap_or_else(|| panic!("{complained}")).to_string()
}

#[test]
fn a_broken_text() {
    assert_eq!(
        stop_shown("a_broken_text", b"# a part\nmax(x,\n  min(y; z))\n"),
        "draw: x.txt, line 3, byte 8: the reader stopped here\n      min(y; z))\n           ^\n"
    );
    for (test, text) in [("an_empty_text", ""), ("a_text_that_ends_early", "# layer 8 8 from 0 0 0 step 1\nroot(x\n")] {
        assert_eq!(stop_shown(test, text.as_bytes()), "draw: x.txt: the text ends too early\n");
    }
}

/// Bytes that cannot be seen are named.
#[test]
fn a_text_of_other_bytes() {
    let shown: [(&[u8], &str); 7] = [
        (b"x + 1\xFF\x00", "byte 6, the byte FF: the reader stopped here\n    x + 1??\n         ^\n"),
        (b"x + 1\x00\xFF", "byte 6, a zero byte: the reader stopped here\n    x + 1??\n         ^\n"),
        (b"x + \x00", "byte 5, a zero byte: the reader stopped here\n    x + ?\n        ^\n"),
        (b"x\t+ 1", "byte 2, a tab: write spaces: the reader stopped here\n    x + 1\n     ^\n"),
        (b"x +\t", "byte 4, a tab: write spaces: the reader stopped here\n    x + \n       ^\n"),
        (
            b"\xEF\xBB\xBFx + 1",
            "byte 1, a byte order mark: save the text without it: the reader stopped here\n    ???x + 1\n    ^\n",
        ),
        (b"x + \xC3\xA9", "byte 5, the byte C3: the reader stopped here\n    x + ??\n        ^\n"),
    ];
    for (text, expected) in shown {
        assert_eq!(stop_shown("a_text_of_other_bytes", text), format!("draw: x.txt, line 1, {expected}"), "{text:?}");
    }
}

/// A text of the greatest length has room behind its beginnings for what is tried there.
#[test]
fn a_long_text_that_is_broken() {
    let text = "x+".repeat(30_730);
    assert_eq!(stop_shown("a_long_text_that_ends_early", text.as_bytes()), "draw: x.txt: the text ends too early\n");
    let text = format!("{}x;", "x+".repeat(30_739));
    assert_eq!(text.len(), 61_480);
    let shown = stop_shown("a_long_text_that_is_broken", text.as_bytes());
    assert!(shown.starts_with("draw: x.txt, line 1, byte 61480: the reader stopped here\n"), "{shown}");
}

#[test]
fn a_text_too_deep_or_too_large() {
    let complained = complaint("a_text_too_deep", format!("x*{}", "(".repeat(40)).as_bytes());
    let at = "draw: x.txt, line 1, byte 35: the reader stopped here\n";
    let refused = "draw: x.txt: refused 18 at 0 (text: a bracket, a function's too, that opens inside 32 others)\n";
    assert!(complained.starts_with(&format!("{refused}{at}    x*((((")), "{complained}");
    let complained = complaint("a_text_too_large", vec!["x"; 600].join("+").as_bytes());
    assert_eq!(complained, "draw: x.txt: refused 19 at 0 (text: more than 1,024 clauses or 64 slots needed)\n");
    let complained = complaint("a_text_too_long", &[b' '; 61_481]);
    assert_eq!(complained, "draw: x.txt: a text has at most 61,480 bytes\n");
}

#[test]
fn a_grid_that_is_none() {
    let form =
        "the grid is not '# layer WIDTH HEIGHT from X Y Z step S' or '# solid WIDTH HEIGHT DEPTH from X Y Z step S'";
    let grids = [
        ("# layer 8 8 from 0 0 step 1", form),
        ("# layer 8 8 from 0 0 0 step", form),
        ("# layer 8 8 from 0 0 0 step 1 1", form),
        ("# layer 8 from 0 0 0 step 1", form),
        ("# layer wide and high from 0 0 0 step 1", form),
        ("# solid 8 8 from 0 0 0 step 1", form),
        ("# Layer 3 of glue", form),
        ("# layer 8 -8 from 0 0 0 step 1", "a size is 1 to 512, not -8"),
        ("# layer 8 65536 from 0 0 0 step 1", "a size is 1 to 512, not 65536"),
        ("# solid 8 8 0 from 0 0 0 step 1", "a size is 1 to 512, not 0"),
        ("# layer 8 8 from 0 0 1e3 step 1", "no number of a grid is written 1e3, but as -12.5 or 3"),
        ("# layer 8 8 from 0 0 32768 step 1", "32768 is outside -32,768 to 32,768"),
        ("# layer 8 8 from 0 0 0 step 0.000001", "the step 0.000001 is below the smallest, 1/65,536"),
        ("# solid 8 8 8 from 0 0 0 step 1 1 -1", "the step -1 is below the smallest, 1/65,536"),
    ];
    for (grid, why) in grids {
        let expected = format!("draw: x.txt, line 2: {why}\n");
        assert_eq!(complaint("a_grid_that_is_none", format!("# a part\n{grid}\nx").as_bytes()), expected, "{grid}");
    }
    let usual = "# layer 8 8 from 0 0 0 step 1";
    let complained = complaint("a_second_grid", format!("{usual}\nx\n{usual}").as_bytes());
    assert_eq!(complained, "draw: x.txt, line 3: a second grid\n");
    // the program's own refusals
    let complained = complaint("a_grid_too_large", b"# layer 600 8 from 0 0 0 step 1\nx");
    assert_eq!(
        complained,
        "draw: x.txt: refused 10 at 0 (a size not 1 to 512; a rectangle of tiles that is empty or leaves the grid)\n"
    );
    let complained = complaint("a_grid_too_far", b"# layer 512 8 from 32700 0 0 step 1\nx");
    assert!(complained.starts_with("draw: x.txt: refused 11 at 0 (a step below 1, "), "{complained}");
    assert!(complained.ends_with("; all counted in units of 1/65,536)\n"), "{complained}");
}

#[test]
fn a_reader_that_crashes() {
    let s = Scratch::new("a_reader_that_crashes");
    s.input("x.txt", RING.as_bytes());
    s.script("repo/target/bin/readtext", "kill -s KILL $$");
    s.drew_nothing(&s.draw(&["x.txt"]), "draw: x.txt: the reader ended with status 137 and read nothing\n");
}
