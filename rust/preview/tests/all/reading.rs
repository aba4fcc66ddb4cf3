//! The program's files are read, and what is wrong with a damaged one is said.

use preview::{Bitmap, Fault, Grid, Heights, Picture};

fn wrong(file: &[u8]) -> Fault {
    Picture::read(file).expect_err("a damaged file")
}

#[test]
fn a_bitmap_of_odd_width() {
    let read = Picture::read(b"P4\n11 2\n\xFF\xE0\x01\x20");
    let rows = vec![0xFF, 0xE0, 0x01, 0x20];
    assert_eq!(read, Ok(Picture::Bitmap(Bitmap { width: 11, height: 2, rows })));
}

#[test]
fn heights_have_their_high_byte_first() {
    let read = Picture::read(b"P5\n3 1\n65535\n\x00\x01\x01\x00\x00\x0A");
    assert_eq!(read, Ok(Picture::Heights(Heights { width: 3, height: 1, values: vec![1, 256, 10] })));
}

#[test]
fn wrong_marks() {
    for file in [&b""[..], b"P", b"P4", b"P6\n1 1\n65535\n\0\0", b"P4 1 1\n\0", b"refused 15 at 0\n"] {
        assert_eq!(wrong(file), Fault::Mark, "{}", file.escape_ascii());
    }
}

#[test]
fn wrong_sizes() {
    let lines =
        ["", "3", "3 2", "3 2 \n", "3\n2\n", " 3 2\n", "03 2\n", "+3 2\n", "0 2\n", "3 0\n", "-3 2\n", "70000 2\n"];
    for line in lines {
        let file = format!("P4\n{line}").into_bytes();
        assert_eq!(wrong(&[file, vec![0; 2]].concat()), Fault::Sizes, "{line:?}");
    }
}

#[test]
fn a_wrong_greatest_value() {
    for line in ["", "655", "255\n", "65535", "65535 "] {
        let file = format!("P5\n1 1\n{line}").into_bytes();
        assert_eq!(wrong(&file), Fault::Greatest, "{line:?}");
    }
}

#[test]
fn files_cut_off_and_too_long() {
    assert_eq!(wrong(b"P4\n11 2\n\0\0\0"), Fault::Length { asked: 4, found: 3 });
    assert_eq!(wrong(b"P4\n11 2\n\0\0\0\0\0"), Fault::Length { asked: 4, found: 5 });
    assert_eq!(wrong(b"P5\n3 1\n65535\n\0\0\0\0\0"), Fault::Length { asked: 6, found: 5 });
    assert_eq!(wrong(b"P5\n3 1\n65535\n\0\0\0\0\0\0\0"), Fault::Length { asked: 6, found: 7 });
}

#[test]
fn every_cut_is_seen() {
    for file in [&b"P4\n11 2\n\x01\x02\x03\x04"[..], b"P5\n2 1\n65535\n\x01\x02\x03\x04"] {
        assert!(Picture::read(file).is_ok());
        for at in 0..file.len() {
            wrong(&file[..at]);
        }
    }
}

fn record(depth: u8, zstep: i32) -> Vec<u8> {
    let mut bytes = b"GR\x00\x02\x81\x00".to_vec();
    bytes.extend([depth, 0]);
    for number in [-5, -6, -7, 70_000, 80_000, zstep] {
        bytes.extend(i32::to_le_bytes(number));
    }
    bytes
}

#[test]
fn a_grid_record() {
    let grid = Grid { width: 512, height: 129, depth: 3, xstep: 70_000, ystep: 80_000, zstep: 9 };
    assert_eq!(Grid::read(&record(3, 9)), Ok(grid));
    assert_eq!(Grid::read(&[record(3, 9), vec![1; 40]].concat()), Ok(grid));
}

#[test]
fn wrong_grid_records() {
    let good = record(3, 9);
    assert_eq!(Grid::read(&good[..31]), Err(Fault::Record));
    assert_eq!(Grid::read(&[&b"RG"[..], &good[2..]].concat()), Err(Fault::Record));
    assert_eq!(Grid::read(&record(3, 0)), Err(Fault::Step(0)));
    assert_eq!(Grid::read(&record(3, -1)), Err(Fault::Step(-1)));
    assert!(Grid::read(&record(0, 0)).is_ok(), "a layer has no step on z");
}
