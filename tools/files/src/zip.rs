//! Stored zip archives: the files one behind the other as they are, then a directory of them.

use std::io::{self, ErrorKind, Write};

/// What CRC-32 makes of each byte, by the polynomial that zip and PNG use.
const CRC: [u32; 256] = {
    let mut table = [0; 256];
    let mut byte = 0;
    while byte < 256 {
        let mut rest = byte as u32;
        let mut bit = 0;
        while bit < 8 {
            rest = (rest >> 1) ^ (0xedb8_8320 & (rest & 1).wrapping_neg());
            bit += 1;
        }
        table[byte] = rest;
        byte += 1;
    }
    table
};

/// The CRC-32 of these bytes.
pub fn crc32(bytes: &[u8]) -> u32 {
    !bytes.iter().fold(!0, |rest: u32, byte| (rest >> 8) ^ CRC[usize::from(rest as u8 ^ byte)])
}

const LOCAL: u32 = 0x0403_4b50;
const CENTRAL: u32 = 0x0201_4b50;
const END: u32 = 0x0605_4b50;

/// A file system that says nothing of permissions, and version 2.0: no compression, no encryption.
const VERSION: u16 = 20;
/// The name is UTF-8.
const FLAGS: u16 = 1 << 11;
const STORED: u16 = 0;
/// The first moment that a zip can say, 1980-01-01 at 0:00, so that the same files give the same archive.
const TIME: u16 = 0;
const DATE: u16 = 1 << 5 | 1;

/// What the directory has of a file.
struct Entry {
    name: String,
    crc: u32,
    size: u32,
    at: u32,
}

/// An archive under way. It goes to its writer file by file; only the directory is kept.
pub struct Zip<W> {
    to: W,
    at: u32,
    entries: Vec<Entry>,
}

fn too_large<E>(_: E) -> io::Error {
    io::Error::new(ErrorKind::FileTooLarge, "a zip has at most 65,535 files of 4 GiB together")
}

impl<W: Write> Zip<W> {
    /// An archive without files yet.
    pub fn new(to: W) -> Self {
        Self { to, at: 0, entries: Vec::new() }
    }

    /// Adds a file.
    pub fn add(&mut self, name: &str, bytes: &[u8]) -> io::Result<()> {
        let size = u32::try_from(bytes.len()).map_err(too_large)?;
        let entry = Entry { name: name.to_owned(), crc: crc32(bytes), size, at: self.at };
        let mut head = LOCAL.to_le_bytes().to_vec();
        entry.describe(&mut head)?;
        head.extend([0; 2]);
        head.extend(name.as_bytes());
        let after = self.at.checked_add(head.len() as u32).and_then(|at| at.checked_add(size));
        self.at = after.ok_or(()).map_err(too_large)?;
        self.to.write_all(&head)?;
        self.to.write_all(bytes)?;
        self.entries.push(entry);
        Ok(())
    }

    /// Writes the directory, and gives the writer back.
    pub fn finish(mut self) -> io::Result<W> {
        let mut directory = Vec::new();
        for entry in &self.entries {
            directory.extend(CENTRAL.to_le_bytes());
            directory.extend(VERSION.to_le_bytes());
            entry.describe(&mut directory)?;
            // Nothing extra, no comment, the first disk, no attributes.
            directory.extend([0; 12]);
            directory.extend(entry.at.to_le_bytes());
            directory.extend(entry.name.as_bytes());
        }
        let size = u32::try_from(directory.len()).map_err(too_large)?;
        let count = u16::try_from(self.entries.len()).map_err(too_large)?.to_le_bytes();
        self.at.checked_add(size).ok_or(()).map_err(too_large)?;
        directory.extend(END.to_le_bytes());
        directory.extend([0; 4]);
        directory.extend([count, count].concat());
        directory.extend(size.to_le_bytes());
        directory.extend(self.at.to_le_bytes());
        directory.extend([0; 2]);
        self.to.write_all(&directory)?;
        Ok(self.to)
    }
}

impl Entry {
    /// What a file's head and the directory say alike, up to the lengths of the name and of nothing extra.
    fn describe(&self, to: &mut Vec<u8>) -> io::Result<()> {
        let name = u16::try_from(self.name.len()).map_err(too_large)?;
        for half in [VERSION, FLAGS, STORED, TIME, DATE] {
            to.extend(half.to_le_bytes());
        }
        for word in [self.crc, self.size, self.size] {
            to.extend(word.to_le_bytes());
        }
        to.extend(name.to_le_bytes());
        Ok(())
    }
}

/// The files of a stored archive as this module writes them, in order. Whatever is otherwise is an error.
pub fn read(archive: &[u8]) -> io::Result<Vec<(String, &[u8])>> {
    files(archive).ok_or_else(|| io::Error::new(ErrorKind::InvalidData, "not a whole stored zip"))
}

fn files(archive: &[u8]) -> Option<Vec<(String, &[u8])>> {
    let end = archive.len().checked_sub(22)?;
    let mut tail = Fields(&archive[end..]);
    tail.is(&END.to_le_bytes())?;
    tail.is(&[0; 4])?;
    let count = tail.half()?;
    tail.is(&count.to_le_bytes())?;
    let (size, at) = (tail.word()? as usize, tail.word()? as usize);
    tail.is(&[0; 2])?;
    let mut directory = Fields(archive.get(at..at.checked_add(size)?)?);
    let mut next = 0;
    let mut found = Vec::new();
    for _ in 0..count {
        directory.is(&CENTRAL.to_le_bytes())?;
        directory.is(&VERSION.to_le_bytes())?;
        let (crc, length) = directory.described()?;
        directory.is(&[0; 12])?;
        directory.is(&(next as u32).to_le_bytes())?;
        let name = directory.take(length.0)?;
        let mut head = Fields(archive.get(next..at)?);
        head.is(&LOCAL.to_le_bytes())?;
        (head.described()? == (crc, length)).then_some(())?;
        head.is(&[0; 2])?;
        head.is(name)?;
        let bytes = head.take(length.1)?;
        (crc32(bytes) == crc).then_some(())?;
        next = at - head.0.len();
        found.push((String::from_utf8(name.to_vec()).ok()?, bytes));
    }
    (directory.0.is_empty() && next == at && at + size == end).then_some(found)
}

/// Bytes that are read field by field.
struct Fields<'a>(&'a [u8]);

impl<'a> Fields<'a> {
    fn take(&mut self, size: usize) -> Option<&'a [u8]> {
        let (taken, rest) = self.0.split_at_checked(size)?;
        self.0 = rest;
        Some(taken)
    }

    fn is(&mut self, bytes: &[u8]) -> Option<()> {
        (self.take(bytes.len())? == bytes).then_some(())
    }

    fn half(&mut self) -> Option<u16> {
        Some(u16::from_le_bytes(self.take(2)?.try_into().ok()?))
    }

    fn word(&mut self) -> Option<u32> {
        Some(u32::from_le_bytes(self.take(4)?.try_into().ok()?))
    }

    /// What [`Entry::describe`] writes: the CRC, and the lengths of the name and of the file.
    fn described(&mut self) -> Option<(u32, (usize, usize))> {
        for half in [VERSION, FLAGS, STORED, TIME, DATE] {
            self.is(&half.to_le_bytes())?;
        }
        let (crc, size) = (self.word()?, self.word()?);
        self.is(&size.to_le_bytes())?;
        Some((crc, (usize::from(self.half()?), size as usize)))
    }
}

#[cfg(test)]
mod tests {
    use super::*;
    use crate::tests::{Folder, other};
    use std::fs;

    fn archive(files: &[(&str, &[u8])]) -> Vec<u8> {
        let mut zip = Zip::new(Vec::new());
        files.iter().for_each(|(name, bytes)| zip.add(name, bytes).unwrap());
        zip.finish().unwrap()
    }

    const FILES: &[(&str, &[u8])] =
        &[("config.ini", b"jobDir = part\n"), ("part00000.png", &[0, 255, 10, 13, 26]), ("empty", b""), ("ö/ü", b"x")];

    #[test]
    fn the_crc_is_the_known_one() {
        assert_eq!(crc32(b"123456789"), 0xcbf4_3926);
        assert_eq!(crc32(b""), 0);
        // The chunk that ends a PNG.
        assert_eq!(crc32(b"IEND"), 0xae42_6082);
    }

    #[test]
    fn what_is_stored_is_read_again() {
        for files in [&FILES[..0], &FILES[..1], FILES] {
            let archive = archive(files);
            let read = read(&archive).unwrap();
            let read: Vec<_> = read.iter().map(|(name, bytes)| (name.as_str(), *bytes)).collect();
            assert_eq!(read, files);
        }
    }

    /// Each cut and each changed byte is noticed.
    #[test]
    fn damaged_archives_are_refused() {
        let whole = archive(FILES);
        for length in 0..whole.len() {
            assert!(read(&whole[..length]).is_err(), "cut to {length}");
        }
        for place in 0..whole.len() {
            let mut archive = whole.clone();
            archive[place] ^= 1;
            assert!(read(&archive).is_err(), "byte {place}");
        }
    }

    #[test]
    fn more_files_than_a_zip_holds_are_refused() {
        let mut zip = Zip::new(io::sink());
        for _ in 0..65_536 {
            zip.add("a", b"").unwrap();
        }
        assert_eq!(zip.finish().map(drop).unwrap_err().kind(), ErrorKind::FileTooLarge);
    }

    #[test]
    fn more_bytes_than_a_zip_holds_are_refused() {
        let mut zip = Zip::new(io::sink());
        zip.at = u32::MAX - 100;
        zip.add("a", &[0; 50]).unwrap();
        assert_eq!(zip.add("b", &[0; 50]).unwrap_err().kind(), ErrorKind::FileTooLarge);
        assert_eq!(zip.finish().map(drop).unwrap_err().kind(), ErrorKind::FileTooLarge);
    }

    const READER: &str = r"
import sys, zipfile
with zipfile.ZipFile(sys.argv[1]) as archive:
    assert archive.testzip() is None
    for info in archive.infolist():
        assert info.compress_type == zipfile.ZIP_STORED
        print(info.filename.encode().hex(), archive.read(info).hex() or '-')
";

    #[test]
    fn another_program_reads_the_same() {
        let folder = Folder::new();
        let path = folder.path("archive.zip");
        fs::write(&path, archive(FILES)).unwrap();
        let Some(said) = other("python3", &["-c".as_ref(), READER.as_ref(), path.as_ref()]) else { return };
        let hex = |bytes: &[u8]| if bytes.is_empty() { "-".into() } else { crate::sha256::hex(bytes) };
        let expected: Vec<_> =
            FILES.iter().map(|(name, bytes)| format!("{} {}\n", hex(name.as_bytes()), hex(bytes))).collect();
        assert_eq!(said, expected.concat());
    }

    #[test]
    fn unzip_finds_no_fault() {
        let folder = Folder::new();
        let path = folder.path("archive.zip");
        fs::write(&path, archive(FILES)).unwrap();
        let Some(said) = other("unzip", &["-tq".as_ref(), path.as_ref()]) else { return };
        assert!(said.contains("No errors"), "{said}");
    }
}
