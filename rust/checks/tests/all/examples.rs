//! The checked-in examples: the parts as inputs of the program, and the use from C that the README shows.

use checks::packing::Packing;
use checks::program;
use std::fs;
use std::path::{Path, PathBuf};
use std::process::Command;

fn in_repository(path: &str) -> PathBuf {
    Path::new(env!("CARGO_MANIFEST_DIR")).join("../..").join(path)
}

fn parts() -> Vec<PathBuf> {
    let files = fs::read_dir(in_repository("examples")).unwrap().map(|file| file.unwrap().path());
    let parts: Vec<PathBuf> = files.filter(|file| file.extension().is_some_and(|found| found == "part")).collect();
    assert!(!parts.is_empty());
    parts
}

/// Stored tapes, most of them from before there was a second edition, are the same bytes when packed again.
#[test]
fn stored_tapes_are_the_same_when_packed_again() {
    for part in parts() {
        let tape = &fs::read(&part).unwrap()[32..];
        assert!(Packing::again(tape).packed() == tape, "{}", part.display());
    }
}

#[test]
fn the_program_draws_every_part() {
    for part in parts() {
        let answer = program::compare(&fs::read(&part).unwrap()).unwrap_or_else(|e| panic!("{}: {e}", part.display()));
        assert_eq!(answer.number, 0, "{}", part.display());
    }
}

#[test]
fn the_use_from_c_draws_the_first_figure() {
    let built = Path::new(env!("CARGO_TARGET_TMPDIR")).join("first_figure");
    let compiled = Command::new("cc")
        .args(["-std=c99", "-Wall", "-Wextra", "-Werror", "-pedantic", "-o"])
        .arg(&built)
        .arg("-I")
        .arg(in_repository("include"))
        .arg(in_repository("examples/first_figure.c"))
        .arg(in_repository("target/staticlib/liblayers_c.a"))
        .status()
        .expect("a C compiler named cc");
    assert!(compiled.success());
    let ran = Command::new(built).output().expect("the program starts");
    assert!(ran.status.success());
    assert_eq!(ran.stdout, b"P4\n3 2\n\xC0\xC0");
}

#[test]
fn the_readme_shows_the_use_from_c() {
    let source = fs::read_to_string(in_repository("examples/first_figure.c")).unwrap();
    assert!(fs::read_to_string(in_repository("README.md")).unwrap().contains(&source));
}
