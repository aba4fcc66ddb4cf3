//! The lanes run several at once: the archive has the machine's operations on four numbers side by side, and for squares and
//! roots those on two of twice the width; and the loop that cuts calls nothing. The compiler does so or does not, and says
//! nothing.

use std::path::{Path, PathBuf};

/// The archive that these tests are linked with.
fn archive() -> Vec<u8> {
    let built = || Path::new(env!("CARGO_MANIFEST_DIR")).join("../../target/staticlib");
    let folder = option_env!("LAYERS_LIB_DIR").map_or_else(built, PathBuf::from);
    std::fs::read(folder.join("liblayers_c.a")).expect("the archive is read")
}

/// How often an operation stands there: 66, a byte from 40 to 4F where it uses later registers, 0F, and its own byte.
fn count(code: &[u8], operation: u8) -> usize {
    let plain = code.windows(3).filter(|bytes| *bytes == [0x66, 0x0F, operation]).count();
    let later =
        code.windows(4).filter(|bytes| bytes[0] == 0x66 && bytes[1] & 0xF0 == 0x40 && bytes[2..] == [0x0F, operation]);
    plain + later.count()
}

/// Sums, differences and comparisons of four lanes, products and quotients of two.
const OPERATIONS: [(&str, u8); 5] =
    [("paddd", 0xFE), ("psubd", 0xFA), ("pcmpgtd", COMPARED), ("pmuludq", 0xF4), ("divpd", DIVIDED)];
const COMPARED: u8 = 0x66;
const DIVIDED: u8 = 0x5E;

/// A little-endian number of so many bytes.
fn number(bytes: &[u8], at: usize, length: usize) -> usize {
    bytes[at..at + length].iter().rev().fold(0, |n, byte| n << 8 | usize::from(*byte))
}

/// The files of an archive: behind 8 bytes each has a head of 60 with its length in decimal, and begins at an even place.
fn files(archive: &[u8]) -> Vec<&[u8]> {
    let mut found = Vec::new();
    let mut at = 8;
    while at + 60 <= archive.len() {
        let length =
            std::str::from_utf8(&archive[at + 48..at + 58]).expect("a length").trim().parse().expect("a number");
        let file: &[u8] = &archive[at + 60..][..length];
        found.push(file);
        at += 60 + length + length % 2;
    }
    found
}

/// The sections of an object file: the name of each, and its bytes. A function that is compiled apart has its own, by its
/// name.
fn sections(object: &[u8]) -> Vec<(&[u8], &[u8])> {
    let (headers, size, count) = (number(object, 0x28, 8), number(object, 0x3A, 2), number(object, 0x3C, 2));
    let header = |i: usize| &object[headers + i * size..][..size];
    let names = number(header(number(object, 0x3E, 2)), 0x18, 8);
    let named = |h: &[u8]| object[names + number(h, 0, 4)..].split(|byte| *byte == 0).next().expect("a name");
    // what is not code may have a length and no bytes
    let code = (0..count).map(header).filter(|h| number(h, 4, 4) == 1);
    code.map(|h| (named(h), &object[number(h, 0x18, 8)..][..number(h, 0x20, 8)])).collect()
}

/// The code of every function of a crate that stands in an object file by itself.
fn code_of(object: &[u8], crate_name: &str) -> Vec<u8> {
    let start = format!(".text.{crate_name}::");
    let own = sections(object).into_iter().filter(|(name, _)| name.starts_with(start.as_bytes()));
    own.flat_map(|(_, code)| code.to_vec()).collect()
}

#[test]
fn lanes_run_several_at_once() {
    let code = archive();
    for (name, operation) in OPERATIONS {
        assert!(count(&code, operation) > 0, "no {name} in the archive: its lanes run one by one");
    }
}

/// The object files of an archive.
fn objects(archive: &[u8]) -> impl Iterator<Item = &[u8]> {
    files(archive).into_iter().filter(|file| file.starts_with(b"\x7FELF"))
}

/// How often an operation stands in the functions of a crate that the archive has by themselves.
fn count_in(crate_name: &str, operation: u8) -> usize {
    objects(&archive()).map(|object| count(&code_of(object, crate_name), operation)).sum()
}

/// A run over eight boxes compares the ends of several at once, for each minimum and maximum and for their choices: one by
/// one there would be none of these comparisons.
#[test]
fn ranges_run_several_at_once() {
    let found = count_in("child_lanes", COMPARED);
    assert!(found >= 24, "{found} comparisons of four lanes in the run over eight boxes");
}

/// Eight roots take one division of two numbers for each two of them, and are compiled apart, with the lanes.
#[test]
fn roots_run_two_at_once() {
    let found = count_in("lanes", DIVIDED);
    assert_eq!(found, 4, "divisions of two lanes in the root of a row");
}

/// The step over one clause of shortening is compiled into the loop that cuts, which is the only one that calls it: called as
/// a function of its own, flat drawings are slower by a twelfth.
#[test]
fn a_clause_is_cut_within_the_loop() {
    let archive = archive();
    let apart = |name: &[u8]| objects(&archive).flat_map(sections).any(|section| section.0 == name);
    assert!(apart(b".text.shortening::cut::cut_by"), "the loop that cuts is not found in the archive");
    assert!(!apart(b".text.shortening::cut::mark_clause"), "the step over one clause is a function of its own");
}
