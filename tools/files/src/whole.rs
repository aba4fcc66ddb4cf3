//! Files that are whole or not there.
//!
//! A file is written under another name in its own folder, `.NAME.PID-N.unfinished`, and gets its name when the last
//! byte is on the disk. A run that ends at any moment, by `kill -9` too, so leaves only whole files and such leftovers.
//! Its writer holds a lock on an unfinished file; the kernel frees it with the process. Who can have the lock knows
//! that nobody writes there any more.

use std::fs::{self, File, OpenOptions, TryLockError};
use std::io::{self, BufWriter, ErrorKind, Write};
use std::os::unix::fs::MetadataExt;
use std::path::{Path, PathBuf};
use std::process;
use std::sync::atomic::{AtomicU64, Ordering};

const ENDING: &str = ".unfinished";

/// Writes a file: under another name in its folder first, which becomes its own when all is written. A file of that
/// name is there whole, the old one or the new one, at every moment.
pub fn write(path: &Path, fill: impl FnOnce(&mut dyn Write) -> io::Result<()>) -> io::Result<()> {
    let (file, unfinished) = begin(path)?;
    let written = fill_up(&file, fill).and_then(|()| fs::rename(&unfinished, path));
    if written.is_err() {
        // What went wrong first is what is told. If this goes wrong too, a leftover stays.
        let _ = fs::remove_file(&unfinished);
    }
    written
}

/// Everything to the disk: a file system may tell only then that it is full.
fn fill_up(file: &File, fill: impl FnOnce(&mut dyn Write) -> io::Result<()>) -> io::Result<()> {
    let mut writer = BufWriter::with_capacity(1 << 16, file);
    fill(&mut writer)?;
    writer.flush()?;
    file.sync_data()
}

/// A new file in the folder of `path`, and its name; nobody else has it or removes it.
fn begin(path: &Path) -> io::Result<(File, PathBuf)> {
    static COUNT: AtomicU64 = AtomicU64::new(0);
    let name = path.file_name().ok_or_else(|| io::Error::new(ErrorKind::InvalidInput, "a file without a name"))?;
    loop {
        let mut unfinished = std::ffi::OsString::from(".");
        unfinished.push(name);
        unfinished.push(format!(".{}-{}{ENDING}", process::id(), COUNT.fetch_add(1, Ordering::Relaxed)));
        let unfinished = path.with_file_name(unfinished);
        let file = match OpenOptions::new().write(true).create_new(true).open(&unfinished) {
            Err(error) if error.kind() == ErrorKind::AlreadyExists => continue,
            opened => opened?,
        };
        // Before the lock was there, another run may have taken the file for a leftover.
        if hold(&file) && is_at(&file, &unfinished) {
            return Ok((file, unfinished));
        }
    }
}

/// Locks a file, unless somebody else has. On a file system without locks it counts as locked, here and by
/// [`remove_if_left`]: leftovers then stay.
fn hold(file: &File) -> bool {
    !matches!(file.try_lock(), Err(TryLockError::WouldBlock))
}

/// Whether this file is the one at this path.
fn is_at(file: &File, path: &Path) -> bool {
    match (file.metadata(), fs::symlink_metadata(path)) {
        (Ok(here), Ok(there)) => (here.dev(), here.ino()) == (there.dev(), there.ino()),
        _ => false,
    }
}

/// Removes what runs that ended early left in this folder, and says how many files. What a run still writes stays, so
/// that several can share a folder. A folder that is not there has none.
pub fn remove_leftovers(dir: &Path) -> io::Result<usize> {
    let entries = match fs::read_dir(dir) {
        Err(error) if error.kind() == ErrorKind::NotFound => return Ok(0),
        entries => entries?,
    };
    let mut removed = 0;
    for entry in entries {
        let entry = entry?;
        if is_unfinished(&entry.file_name().to_string_lossy()) && entry.file_type()?.is_file() {
            removed += usize::from(remove_if_left(&entry.path())?);
        }
    }
    Ok(removed)
}

/// Whether a name is `.NAME.PID-N.unfinished`.
fn is_unfinished(name: &str) -> bool {
    let digits = |text: &str| !text.is_empty() && text.bytes().all(|byte| byte.is_ascii_digit());
    name.strip_prefix('.')
        .and_then(|name| name.strip_suffix(ENDING))
        .and_then(|name| name.rsplit_once('.'))
        .and_then(|(name, tag)| Some((name, tag.split_once('-')?)))
        .is_some_and(|(name, (pid, count))| !name.is_empty() && digits(pid) && digits(count))
}

/// Removes a file that nobody writes. Another run may be quicker.
fn remove_if_left(path: &Path) -> io::Result<bool> {
    let file = match OpenOptions::new().write(true).open(path) {
        Err(error) if error.kind() == ErrorKind::NotFound => return Ok(false),
        opened => opened?,
    };
    if file.try_lock().is_err() || !is_at(&file, path) {
        return Ok(false);
    }
    match fs::remove_file(path) {
        Err(error) if error.kind() == ErrorKind::NotFound => Ok(false),
        removed => removed.map(|()| true),
    }
}

#[cfg(test)]
mod tests {
    use super::*;
    use crate::tests::Folder;
    use std::process::Command;
    use std::thread;
    use std::time::Duration;

    #[test]
    fn a_file_comes_whole_and_replaces_another() {
        let folder = Folder::new();
        let path = folder.path("layer.png");
        write(&path, |to| to.write_all(b"first")).unwrap();
        write(&path, |to| {
            to.write_all(b"second")?;
            assert_eq!(fs::read(&path)?, b"first");
            assert_eq!(folder.names().len(), 2);
            Ok(())
        })
        .unwrap();
        assert_eq!(fs::read(&path).unwrap(), b"second");
        assert_eq!(folder.names(), ["layer.png"]);
    }

    #[test]
    fn a_file_that_is_not_filled_is_not_there() {
        let folder = Folder::new();
        let path = folder.path("layer.png");
        let full = |to: &mut dyn Write| {
            to.write_all(b"half of")?;
            Err(io::Error::from(ErrorKind::StorageFull))
        };
        assert_eq!(write(&path, full).unwrap_err().kind(), ErrorKind::StorageFull);
        assert!(folder.names().is_empty());
        fs::write(&path, b"old").unwrap();
        assert_eq!(write(&path, full).unwrap_err().kind(), ErrorKind::StorageFull);
        assert_eq!(fs::read(&path).unwrap(), b"old");
        assert_eq!(folder.names(), ["layer.png"]);
    }

    /// What is still in the writer's buffer when the filling ends goes wrong at the flush.
    #[test]
    fn a_full_disk_is_told_at_the_flush() {
        let full = OpenOptions::new().write(true).open("/dev/full").unwrap();
        let wrong = fill_up(&full, |to| to.write_all(b"a few bytes")).unwrap_err();
        assert_eq!(wrong.kind(), ErrorKind::StorageFull);
    }

    #[test]
    fn a_folder_that_is_not_there_is_told() {
        let folder = Folder::new();
        let path = folder.path("none/layer.png");
        assert_eq!(write(&path, |_| Ok(())).unwrap_err().kind(), ErrorKind::NotFound);
        assert_eq!(remove_leftovers(&folder.path("none")).unwrap(), 0);
    }

    #[test]
    fn leftovers_go_and_nothing_else() {
        let folder = Folder::new();
        let kept = ["layer00000.png", ".layer.unfinished", ".a.1-.unfinished", ".1-2.unfinished", "a.1-2.unfinished"];
        for name in kept.iter().chain(&[".layer00001.png.77-0.unfinished", ".manifest.json.1-12.unfinished"]) {
            fs::write(folder.path(name), b"bytes").unwrap();
        }
        fs::create_dir(folder.path(".b.1-2.unfinished")).unwrap();
        assert_eq!(remove_leftovers(&folder.0).unwrap(), 2);
        let mut kept: Vec<_> = kept.iter().map(ToString::to_string).collect();
        kept.push(".b.1-2.unfinished".into());
        kept.sort();
        assert_eq!(folder.names(), kept);
    }

    #[test]
    fn what_is_being_written_is_no_leftover() {
        let folder = Folder::new();
        let path = folder.path("layer.png");
        write(&path, |to| {
            to.write_all(b"bytes")?;
            assert_eq!(remove_leftovers(&folder.0)?, 0);
            Ok(())
        })
        .unwrap();
        assert_eq!(folder.names(), ["layer.png"]);
    }

    /// Not a test of its own: what the next one kills.
    #[test]
    #[ignore = "run by kill_9_leaves_whole_files"]
    fn writes_until_killed() {
        let Some(dir) = std::env::var_os("FILES_KILLED_IN") else { return };
        for number in 0.. {
            let path = Path::new(&dir).join(format!("layer{}", number % 8));
            write(&path, |to| (0..200).try_for_each(|_| to.write_all(&[number as u8; 997]))).unwrap();
        }
    }

    #[test]
    fn kill_9_leaves_whole_files() {
        let folder = Folder::new();
        let mut whole = 0;
        for round in 0..12 {
            let mut child = Command::new(std::env::current_exe().unwrap())
                .args(["--ignored", "--exact", "whole::tests::writes_until_killed"])
                .env("FILES_KILLED_IN", &folder.0)
                .stdout(process::Stdio::null())
                .spawn()
                .unwrap();
            thread::sleep(Duration::from_millis(20 + 7 * round));
            child.kill().unwrap();
            child.wait().unwrap();
            remove_leftovers(&folder.0).unwrap();
            for name in folder.names() {
                let bytes = fs::read(folder.path(&name)).unwrap();
                assert!(name.starts_with("layer"), "{name} is left");
                assert_eq!(bytes.len(), 200 * 997, "{name} is not whole");
                assert!(bytes.iter().all(|byte| *byte == bytes[0]), "{name} is of two writings");
                whole += 1;
            }
        }
        assert!(whole > 0, "nothing was written");
    }

    /// Writers and removers at once: no writing fails.
    #[test]
    fn runs_that_share_a_folder_do_not_disturb_each_other() {
        let folder = Folder::new();
        thread::scope(|scope| {
            for _ in 0..2 {
                scope.spawn(|| (0..300).for_each(|_| assert!(remove_leftovers(&folder.0).is_ok())));
            }
            for writer in 0..2 {
                let path = folder.path(&format!("layer{writer}"));
                scope.spawn(move || (0..100).for_each(|_| write(&path, |to| to.write_all(b"bytes")).unwrap()));
            }
        });
        assert_eq!(folder.names(), ["layer0", "layer1"]);
    }
}
