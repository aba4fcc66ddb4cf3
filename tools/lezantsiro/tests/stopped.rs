//! Runs that are stopped at any moment, disks that are full, and what the next run makes of it.

mod common;

use common::{Ended, Folder, RING, contents, names};
use std::fs;
use std::os::unix::process::ExitStatusExt;
use std::path::Path;
use std::process::{Command, Stdio};
use std::time::{Duration, Instant};

const FLAGS: &str = "stack ring.txt --size 1100x900 --pitch 0.0225mm --layer-height 0.05mm --z-from 0 --z-to 3 --quiet";

/// A sequence of numbers that its seed fixes.
fn next(state: &mut u64) -> u64 {
    *state = state.wrapping_mul(6_364_136_223_846_793_005).wrapping_add(1_442_695_040_888_963_407);
    *state >> 33
}

/// Killed at random moments, again and again: only whole files are there, and at last all of them, byte for byte those
/// of one run. A run that was quicker than its killer is begun anew.
#[test]
fn kill_9_leaves_whole_files_and_the_next_run_goes_on() {
    let mut state = 37;
    println!("seed {state}");
    let folder = Folder::new();
    folder.write("ring.txt", RING);
    let began = Instant::now();
    folder.well(&format!("{FLAGS} --out whole"));
    let taken = began.elapsed().as_micros() as u64;
    let whole = contents(&folder.path("whole"));
    let (mut killed, mut found) = (0, 0);
    for _ in 0..60 {
        let mut child = folder.command(&format!("{FLAGS} --out out")).stdout(Stdio::null()).spawn().unwrap();
        std::thread::sleep(Duration::from_micros(next(&mut state) % taken));
        child.kill().unwrap();
        let by_signal = child.wait().unwrap().signal() == Some(9);
        found += whole_masks(&folder.path("out"), &whole);
        killed += u32::from(by_signal);
        if killed == 8 && found > 0 {
            break;
        }
        if !by_signal {
            fs::remove_dir_all(folder.path("out")).unwrap();
        }
    }
    assert!(killed > 1 && found > 0, "killed {killed} times, {found} masks found");
    folder.well(&format!("{FLAGS} --out out"));
    assert_eq!(contents(&folder.path("out")), whole);
}

/// How many masks are there; each is that of the whole run, and what is not whole does not have a mask's name.
fn whole_masks(dir: &Path, whole: &[(String, Vec<u8>)]) -> usize {
    let found = if dir.exists() { contents(dir) } else { Vec::new() };
    let (masks, others): (Vec<_>, Vec<_>) = found.iter().partition(|(name, _)| name.starts_with("layer"));
    for (name, bytes) in &masks {
        let same = whole.iter().find(|(other, _)| other == name).map(|(_, bytes)| bytes);
        assert_eq!(Some(bytes), same, "{name} is not whole");
    }
    for (name, _) in others {
        assert!(name == "manifest.json" || name.ends_with(".unfinished"), "{name}");
    }
    masks.len()
}

#[test]
fn a_run_that_goes_on_says_what_it_skipped() {
    let folder = Folder::new();
    folder.write("ring.txt", RING);
    let words = "stack ring.txt --size 200x150 --pitch 0.1mm --layer-height 0.5mm --z-to 4 --out out";
    folder.well(words);
    fs::remove_file(folder.path("out/layer00003.png")).unwrap();
    folder.write("out/layer00005.png", b"damaged");
    folder.write("out/.layer00006.png.77-3.unfinished", b"half");
    let before = folder.bytes("out/layer00004.png");
    let said = folder.well(words).out;
    assert!(said.contains("skipped what is there with its checksum: layers 0 to 2, 4, 6 to 7"), "{said}");
    assert!(said.contains("removed 1 unfinished files of an earlier run"), "{said}");
    assert_eq!(folder.bytes("out/layer00004.png"), before);
    folder.well("verify out");
    // another formula: nothing of the old one stays
    let said =
        folder.well("stack --formula x --size 200x150 --pitch 0.1mm --layer-height 0.5mm --z-to 2 --out out").out;
    assert!(said.contains("replaced the folder's masks, which differ in: formula, layers"), "{said}");
    let expected = ["layer00000.png", "layer00001.png", "layer00002.png", "layer00003.png", "manifest.json"];
    assert_eq!(names(&folder.path("out")), expected);
    folder.well("verify out");
    // a manifest that is another program's stays
    folder.write("out/manifest.json", "{\"name\": \"site\"}");
    let ended = folder.run(words);
    assert_eq!(ended.status, Some(2));
    assert!(ended.err.contains("is no manifest of this program"), "{}", ended.err);
    assert_eq!(folder.bytes("out/manifest.json"), b"{\"name\": \"site\"}");
}

/// Files may have at most 8 KiB, as on a disk that is full, and a mask has more.
#[test]
fn a_full_disk_is_told_and_leaves_whole_files() {
    let folder = Folder::new();
    folder.write("ring.txt", RING);
    let program = env!("CARGO_BIN_EXE_lezantsiro");
    let words = "layer ring.txt --z 0 --size 512x512 --pitch 0.05mm --format pbm --out out";
    // a signal that is ignored stays so; without that it would end the program
    let script = format!("trap '' XFSZ; ulimit -f 16; exec {program} {words}");
    let output = Command::new("sh").current_dir(&folder.0).args(["-c", &script]).output().unwrap();
    let ended = Ended::of(output);
    assert_eq!(ended.status, Some(4), "{}", ended.err);
    assert!(ended.err.contains("out/layer00000.pbm cannot be written: "), "{}", ended.err);
    assert_eq!(names(&folder.path("out")), ["manifest.json"]);
    folder.well(words);
    folder.well("verify out");
}

/// A small disk of its own, where that is allowed: it fills up in the middle of a stack, and the run goes on elsewhere.
#[test]
fn a_disk_that_fills_up_leaves_whole_files() {
    let folder = Folder::new();
    folder.write("ring.txt", RING);
    fs::create_dir(folder.path("disk")).unwrap();
    let disk = folder.path("disk");
    let mounted = Command::new("mount").args(["-t", "tmpfs", "-o", "size=400k", "tmpfs"]).arg(&disk).output();
    if !mounted.is_ok_and(|output| output.status.success()) {
        println!("no disk can be mounted here: the limit of a file's size is tried instead");
        return;
    }
    let words = "stack ring.txt --size 512x512 --pitch 0.05mm --format pbm --layer-height 0.5 --z-to 10";
    let ended = folder.run(&format!("{words} --out disk/out"));
    let left = contents(&folder.path("disk/out"));
    fs::create_dir(folder.path("saved")).unwrap();
    left.iter().for_each(|(name, bytes)| fs::write(folder.path("saved").join(name), bytes).unwrap());
    let gone = Command::new("umount").arg(&disk).output().unwrap();
    assert!(gone.status.success());
    assert_eq!(ended.status, Some(4), "{}", ended.err);
    assert!(ended.err.contains("cannot be written: "), "{}", ended.err);
    folder.well(&format!("{words} --out whole"));
    assert!(left.len() > 4);
    for (name, bytes) in left.iter().filter(|(name, _)| name.starts_with("layer")) {
        assert_eq!(*bytes, folder.bytes(&format!("whole/{name}")), "{name}");
    }
    folder.well(&format!("{words} --out saved"));
    assert_eq!(contents(&folder.path("saved")), contents(&folder.path("whole")));
}

#[test]
fn a_folder_that_cannot_be_is_told() {
    let folder = Folder::new();
    folder.write("file", b"in the way");
    for command in ["layer --z 0", "stack --layer-height 1 --z-to 3", "heights --layer-height 1 --z-to 3"] {
        let ended = folder.run(&format!("{command} --formula x --size 8x8 --pitch 1 --out file/masks"));
        assert_eq!(ended.status, Some(4), "{command}: {}", ended.err);
        assert!(ended.err.contains("file/masks cannot be written: "), "{}", ended.err);
    }
}

/// The command with both signals as they are by default: a process that was started in the background ignores INT, and
/// so do the tests that it runs and what they start.
fn by_default(command: &Command) -> Command {
    let mut env = Command::new("env");
    env.arg("--default-signal=INT,TERM").arg(command.get_program()).args(command.get_args());
    command.get_current_dir().map(|folder| env.current_dir(folder));
    env
}

#[test]
fn a_signal_ends_the_run_as_a_signal() {
    let folder = Folder::new();
    folder.write("ring.txt", RING);
    for (signal, number) in [("INT", 2), ("TERM", 15)] {
        // a shell tells 128 and the number: 130 and 143
        let words = FLAGS.replace("1100x900", "7000x7000").replace("0.0225", "0.003");
        let mut child = by_default(&folder.command(&format!("{words} --out out"))).spawn().unwrap();
        std::thread::sleep(Duration::from_millis(150));
        let sent = Command::new("kill").args([&format!("-{signal}"), &child.id().to_string()]).status().unwrap();
        assert!(sent.success());
        assert_eq!(child.wait().unwrap().signal(), Some(number));
    }
}
