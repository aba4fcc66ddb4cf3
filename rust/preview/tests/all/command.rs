//! The command: its file, its messages and its exit status.

use crate::decoder::decode;
use std::fs;
use std::path::{Path, PathBuf};
use std::process::Command;

/// A folder for one test.
fn folder(name: &str) -> PathBuf {
    let folder = PathBuf::from(env!("CARGO_TARGET_TMPDIR")).join(name);
    let _ = fs::remove_dir_all(&folder);
    fs::create_dir_all(&folder).unwrap();
    folder
}

/// Runs the command in a folder: its exit status, and what it said.
fn run(folder: &Path, names: &[&str]) -> (Option<i32>, String) {
    let done = Command::new(env!("CARGO_BIN_EXE_preview")).args(names).current_dir(folder).output().unwrap();
    assert_eq!(done.stdout, b"");
    (done.status.code(), String::from_utf8(done.stderr).unwrap())
}

/// The first figure of the README: the part x − 2 on three samples by two.
fn put_figure(folder: &Path) {
    let steps = [[0; 4], [0; 4], [0; 4], [0, 0, 1, 0], [0, 0, 1, 0], [0; 4]].concat();
    fs::write(folder.join("in"), [&b"GR\x03\x00\x02\x00\x00\x00"[..], &steps].concat()).unwrap();
    fs::write(folder.join("picture"), b"P4\n3 2\n\xC0\xC0").unwrap();
}

#[test]
fn a_picture_becomes_a_file() {
    let folder = folder("file");
    put_figure(&folder);
    assert_eq!(run(&folder, &["in", "picture", "png"]), (Some(0), String::new()));
    let file = decode(&fs::read(folder.join("png")).unwrap()).unwrap();
    assert_eq!((file.width, file.height, file.bits), (384, 256, 1));
    assert_eq!([0, 255, 256, 383].map(|column| file.pixel(column, 255)), [0, 0, 1, 1]);
}

#[test]
fn faults_are_said_and_nothing_is_written() {
    let folder = folder("faults");
    put_figure(&folder);
    fs::write(folder.join("short"), b"P4\n3 2\n\xC0").unwrap();
    fs::write(folder.join("other"), b"P4\n2 2\n\xC0\xC0").unwrap();
    for (names, message) in [
        (&["in", "picture"][..], "use: preview INPUT PICTURE PNG"),
        (&["in", "picture", "png", "more"], "use: preview INPUT PICTURE PNG"),
        (&["none", "picture", "png"], "none cannot be read: "),
        (&["in", "none", "png"], "none cannot be read: "),
        (&["picture", "picture", "png"], "picture: not an input of the program"),
        (&["in", "in", "png"], "in: not a picture of the program"),
        (&["in", "short", "png"], "short: cut off: 1 bytes of pixels, and its sizes ask for 2"),
        (&["in", "other", "png"], "other is not the picture of in: the grid record says 3 by 2 pixels"),
        (&["in", "picture", "no/png"], "no/png cannot be written: "),
    ] {
        let (status, said) = run(&folder, names);
        assert_eq!(status, Some(1), "{names:?}");
        assert!(said.starts_with(&format!("preview: {message}")), "{names:?}: {said}");
        assert!(!folder.join("png").exists(), "{names:?}");
    }
}
