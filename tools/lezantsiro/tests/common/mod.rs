//! What the tests of the program share: a folder that goes away, and a run of the program in it.
#![allow(dead_code)]

use files::json::{self, Value};
use files::mask::{Mask, Material, Style, decode};
use std::fs;
use std::path::{Path, PathBuf};
use std::process::{Command, Output};
use std::sync::atomic::{AtomicU32, Ordering};

/// A ring with a slot, tapered in z.
pub const RING: &str = "max(max(root(sqr(x) + sqr(y)) - 9 + z/4, 4 - root(sqr(x) + sqr(y))), 1.5 - abs(x - y))";

/// A folder of a test's own, removed at its end.
pub struct Folder(pub PathBuf);

impl Folder {
    pub fn new() -> Folder {
        static COUNT: AtomicU32 = AtomicU32::new(0);
        let name = format!("lezantsiro-{}-{}", std::process::id(), COUNT.fetch_add(1, Ordering::Relaxed));
        let path = std::env::temp_dir().join(name);
        fs::create_dir_all(&path).expect("a folder");
        Folder(path)
    }

    pub fn path(&self, name: &str) -> PathBuf {
        self.0.join(name)
    }

    pub fn write(&self, name: &str, bytes: impl AsRef<[u8]>) -> String {
        fs::write(self.path(name), bytes).expect("written");
        self.path(name).display().to_string()
    }

    /// Runs the program here; words are split at spaces, and `|` stands for a space within one.
    pub fn run(&self, words: &str) -> Ended {
        Ended::of(self.command(words).output().expect("the program runs"))
    }

    pub fn command(&self, words: &str) -> Command {
        let mut command = Command::new(env!("CARGO_BIN_EXE_lezantsiro"));
        command.current_dir(&self.0).args(words.split(' ').map(|word| word.replace('|', " ")));
        command
    }

    /// A run that must end well.
    pub fn well(&self, words: &str) -> Ended {
        let ended = self.run(words);
        assert_eq!(ended.status, Some(0), "{words}\n{}{}", ended.out, ended.err);
        ended
    }

    pub fn bytes(&self, name: &str) -> Vec<u8> {
        fs::read(self.path(name)).unwrap_or_else(|error| panic!("{name}: {error}"))
    }

    pub fn mask(&self, name: &str) -> (Mask, Style) {
        decode(&self.bytes(name), Material::White).unwrap_or_else(|error| panic!("{name}: {error}"))
    }

    pub fn json(&self, name: &str) -> Value {
        json::parse(&String::from_utf8(self.bytes(name)).expect("a text")).expect("JSON")
    }
}

impl Drop for Folder {
    fn drop(&mut self) {
        let _ = fs::remove_dir_all(&self.0);
    }
}

/// How a run ended.
#[derive(Debug)]
pub struct Ended {
    /// `None` by a signal.
    pub status: Option<i32>,
    pub out: String,
    pub err: String,
}

impl Ended {
    pub fn of(output: Output) -> Ended {
        let text = |bytes: Vec<u8>| String::from_utf8(bytes).expect("a text");
        Ended { status: output.status.code(), out: text(output.stdout), err: text(output.stderr) }
    }
}

/// The names in a folder, sorted.
pub fn names(dir: &Path) -> Vec<String> {
    let entries = fs::read_dir(dir).expect("a folder");
    let mut names: Vec<String> =
        entries.map(|entry| entry.expect("an entry").file_name().to_string_lossy().into_owned()).collect();
    names.sort();
    names
}

/// Every file of a folder, by name.
pub fn contents(dir: &Path) -> Vec<(String, Vec<u8>)> {
    names(dir).into_iter().map(|name| (name.clone(), fs::read(dir.join(name)).expect("read"))).collect()
}
