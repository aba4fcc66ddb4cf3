//! Every number of the table of refusals, with its place: each thing that can be wrong alone, and any two at once, of
//! which the one that is checked first is returned. The comparisons see that every lent buffer, full of noise, stays as it
//! was.

use checks::drawing::Drawing;
use checks::files::File;
use checks::packing::{Packing, Unpacking};
use checks::program;
use checks::random::Random;
use layers::raw;
use slow::call::Answer;
use slow::draw::Grid;
use slow::tape::Tape;

/// Slots 4 to 7 are never written. Clause 2 is a constant, clause 3 an addition.
pub const SLOTS: u32 = 8;
const LIST: [[i32; 5]; 5] = [[1, 0, 0, 0, 0], [2, 1, 0, 0, 0], [0, 2, 0, 0, 5], [9, 3, 0, 1, 0], [13, 0, 3, 2, 0]];

/// Clause, field, a wrong value of it, the number returned: in the order of the checks.
const CLAUSE_FAULTS: [(usize, usize, i32, u8); 22] = [
    (2, 0, 15, 5),
    (2, 0, 255, 5),
    (2, 0, -1, 5),
    (2, 1, 8, 6),
    (2, 1, 255, 6),
    (2, 1, -1, 6),
    (2, 2, 1, 7),
    (2, 3, 255, 7),
    (2, 3, i32::MIN, 7),
    (2, 4, i32::MIN, 8),
    (3, 0, 15, 5),
    (3, 0, i32::MAX, 5),
    (3, 1, 8, 6),
    (3, 2, 64, 6),
    (3, 3, 255, 6),
    (3, 3, i32::MIN, 6),
    (3, 4, 1, 7),
    (3, 4, i32::MIN, 7),
    (3, 2, 7, 9),
    (3, 3, 7, 9),
    (3, 2, 3, 9),
    (4, 2, 6, 9),
];

/// Something put wrong, and the number and the place that come back for it alone.
pub struct Wrong<T> {
    number: u8,
    place: u32,
    put: Box<dyn Fn(&mut T)>,
}

pub fn wrong<T>(number: u8, put: impl Fn(&mut T) + 'static) -> Wrong<T> {
    Wrong { number, place: 0, put: Box::new(put) }
}

pub fn wrong_at<T>(number: u8, place: usize, put: impl Fn(&mut T) + 'static) -> Wrong<T> {
    Wrong { number, place: place as u32, put: Box::new(put) }
}

/// Tries each alone and any two at once on a good input; they stand in the order of the checks.
pub fn try_all<T: Clone>(good: &T, wrongs: &[Wrong<T>], mut answers: impl FnMut(&T, Answer)) {
    for (i, first) in wrongs.iter().enumerate() {
        for second in &wrongs[i..] {
            let mut input = good.clone();
            (second.put)(&mut input);
            (first.put)(&mut input);
            answers(&input, Answer { number: first.number, place: first.place, count: 0 });
        }
    }
}

/// Also the same list in more slots, of which the tape is of edition 02.
pub const WIDE_SLOTS: u32 = 72;

pub fn tape_of(slots: u32) -> Vec<u8> {
    Tape::from_list(slots, &LIST.concat()).expect("an accepted list").to_bytes()
}

/// Its pictures have 10 bytes and 45 heights.
pub fn good_drawing() -> Drawing {
    drawing_of(SLOTS)
}

fn drawing_of(slots: u32) -> Drawing {
    Drawing::new(tape_of(slots), Grid { sizes: [9, 5, 3], origins: [-300_000; 3], steps: [65_536; 3] })
}

/// A fault's value where the tape has another slot count: slots that it does not have, or has and never writes.
fn fault_value(slots: u32, field: usize, value: i32) -> i32 {
    let more = (slots - SLOTS) as i32;
    if (1..=3).contains(&field) && (6..=64).contains(&value) { value + more } else { value }
}

/// A head with other counts and another edition.
fn head(edition: u8, slots: u8, clauses: u16) -> impl Fn(&mut Vec<u8>) {
    move |t: &mut Vec<u8>| {
        (t[2], t[3]) = (edition, slots);
        t[4..6].copy_from_slice(&clauses.to_le_bytes());
    }
}

/// What can be wrong with the counts and the edition of a tape's head: 3.
fn count_wrongs(slots: u32) -> Vec<Wrong<Vec<u8>>> {
    let (edition, other) = if slots == SLOTS { (1, 2) } else { (2, 1) };
    let own = slots as u8;
    let mut heads = vec![(other, own, 5), (edition, 0, 5), (edition, 129, 5), (edition, own, 0), (edition, own, 6145)];
    heads.push(if edition == 1 { (1, 65, 5) } else { (2, 64, 5) });
    heads.push(if edition == 1 { (1, own, 1025) } else { (2, 64, 1024) });
    heads.into_iter().map(|(edition, slots, clauses)| wrong(3, head(edition, slots, clauses))).collect()
}

/// What can be wrong with a tape's head and length: 1 to 4.
fn head_wrongs(slots: u32) -> Vec<Wrong<Vec<u8>>> {
    let set = |at: usize, byte: u8| move |t: &mut Vec<u8>| t[at] = byte;
    let mut wrongs = vec![
        wrong(1, |t: &mut Vec<u8>| t.truncate(7)),
        wrong(1, |t: &mut Vec<u8>| t.clear()),
        wrong(2, set(0, 0x55)),
        wrong(2, set(1, 0)),
        wrong(2, set(2, 0)),
        wrong(2, set(2, 3)),
        wrong(2, set(6, 1)),
        wrong(2, set(7, 255)),
    ];
    wrongs.extend(count_wrongs(slots));
    wrongs.extend([
        wrong(4, |t: &mut Vec<u8>| t.push(0)),
        wrong(4, |t: &mut Vec<u8>| t.truncate(48)),
        wrong(4, set(4, 6)),
    ]);
    wrongs
}

/// What can be wrong with a tape's clauses: 5 to 9, clause by clause.
fn clause_wrongs(slots: u32) -> Vec<Wrong<Vec<u8>>> {
    let mut wrongs = Vec::new();
    for clause in 2..5 {
        let at = 8 + 10 * clause;
        wrongs.push(wrong_at(5, clause, move |t: &mut Vec<u8>| t[at] = 0x63));
        wrongs.push(wrong_at(5, clause, move |t: &mut Vec<u8>| t[at + 1] = 0x4D));
        // a tape has one byte for an opcode or a slot
        let fits = |f: &&(usize, usize, i32, u8)| f.0 == clause && (f.1 == 4 || (0..256).contains(&f.2));
        for &(_, field, value, number) in CLAUSE_FAULTS.iter().filter(fits) {
            let bytes = fault_value(slots, field, value).to_le_bytes();
            let len = if field == 4 { 4 } else { 1 };
            wrongs.push(wrong_at(number, clause, move |t: &mut Vec<u8>| {
                t[at + 2 + field..at + 2 + field + len].copy_from_slice(&bytes[..len])
            }));
        }
    }
    wrongs
}

/// What can be wrong with the tape of a larger input.
pub fn tape_wrongs<T: 'static>(slots: u32, tape: fn(&mut T) -> &mut Vec<u8>) -> Vec<Wrong<T>> {
    let of = |w: Wrong<Vec<u8>>| wrong_at(w.number, w.place as usize, move |t: &mut T| (w.put)(tape(t)));
    head_wrongs(slots).into_iter().chain(clause_wrongs(slots)).map(of).collect()
}

/// What can be wrong with width, height and their axes, in a flat drawing and a solid: 10 and 11.
pub fn grid_wrongs<T: 'static>(grid: fn(&mut T) -> &mut Grid) -> Vec<Wrong<T>> {
    vec![
        wrong(10, move |t: &mut T| grid(t).sizes[0] = 0),
        wrong(10, move |t: &mut T| grid(t).sizes[1] = 0),
        wrong(10, move |t: &mut T| grid(t).sizes[1] = 513),
        wrong(11, move |t: &mut T| grid(t).steps[0] = 0),
        wrong(11, move |t: &mut T| grid(t).steps[1] = i32::MIN),
        wrong(11, move |t: &mut T| grid(t).steps[1] = i32::MAX),
        wrong(11, move |t: &mut T| grid(t).origins[0] = i32::MIN),
        wrong(11, move |t: &mut T| grid(t).origins[1] = i32::MAX),
        wrong(11, move |t: &mut T| grid(t).origins[2] = i32::MIN),
    ]
}

#[test]
fn drawings() {
    try_drawings(SLOTS);
}

#[test]
fn drawings_of_edition_02() {
    try_drawings(WIDE_SLOTS);
}

fn try_drawings(slots: u32) {
    let mut wrongs = tape_wrongs(slots, |d: &mut Drawing| &mut d.tape);
    wrongs.extend(grid_wrongs(|d: &mut Drawing| &mut d.grid));
    wrongs.extend([
        wrong(12, |d: &mut Drawing| (d.flat, d.solid) = (9, 44)),
        wrong(12, |d: &mut Drawing| (d.flat, d.solid) = (11, 46)),
        wrong(12, |d: &mut Drawing| (d.flat, d.solid) = (0, 0)),
        wrong(13, |d: &mut Drawing| d.work = 32_767),
        wrong(13, |d: &mut Drawing| d.work = 0),
    ]);
    let mut noise = Random::seeded("drawings", 0x5EED_0020);
    try_all(&drawing_of(slots), &wrongs, |drawing, expected| {
        let [full_flat, full_solid, tile_flat, tile_solid] =
            drawing.compare(&mut noise).unwrap_or_else(|e| panic!("{e}"));
        assert_eq!([tile_flat, tile_solid], [expected; 2], "{drawing:?}");
        // a full drawing takes no work buffer
        let full = if expected.number == 13 { 0 } else { expected.number };
        assert_eq!([full_flat, full_solid].map(|a| (a.number, a.place)), [(full, expected.place); 2], "{drawing:?}");
    });
}

/// What a solid reads and a flat drawing does not: depth and the third step.
#[test]
fn depth_and_its_step() {
    let mut noise = Random::seeded("depth_and_its_step", 0x5EED_0021);
    let wrongs = [
        wrong(10, |d: &mut Drawing| d.grid.sizes[2] = 0),
        wrong(10, |d: &mut Drawing| d.grid.sizes[2] = 513),
        wrong(10, |d: &mut Drawing| d.grid.sizes[2] = u32::MAX),
        wrong(11, |d: &mut Drawing| d.grid.steps[2] = 0),
        wrong(11, |d: &mut Drawing| d.grid.steps[2] = i32::MIN),
        wrong(11, |d: &mut Drawing| d.grid.steps[2] = i32::MAX),
    ];
    try_all(&good_drawing(), &wrongs, |drawing, expected| {
        let numbers = drawing.compare(&mut noise).unwrap_or_else(|e| panic!("{e}")).map(|a| a.number);
        assert_eq!(numbers, [0, expected.number, 0, expected.number], "{drawing:?}");
    });
}

/// The last sample may be at M and the origin at −M, and neither may be one further.
#[test]
fn samples_at_the_ends() {
    let mut noise = Random::seeded("samples_at_the_ends", 0x5EED_0022);
    let m = i32::MAX;
    let ends = [
        (1, m, 1, 0),
        (1, m, 2, 11),
        (1, m - 1, 2, 0),
        (1, m - 1, 3, 0),
        (1, m - 1, 4, 11),
        (1, -m, m, 0),
        (1, i32::MIN, 2, 11),
        (2, -m, m, 0),
        (2, 0, m, 11),
        (3, -m, m, 11),
        (3, -m, 1_717_986_917, 0),
        (3, -m, 1_717_986_918, 11),
        (3, i32::MIN, 10, 11),
        (3, -m, 1, 0),
        (3, m - 25, 10, 0),
        (3, m - 24, 10, 11),
        (3, m - 22, 9, 0),
        (3, m - 21, 9, 11),
        (3, m - 2, 1, 0),
        (3, m, 1, 11),
    ];
    for axis in 0..3 {
        for (size, origin, step, number) in ends {
            let Drawing { tape, mut grid, .. } = good_drawing();
            grid.sizes = [3; 3];
            (grid.sizes[axis], grid.origins[axis], grid.steps[axis]) = (size, origin, step);
            let drawing = Drawing::new(tape, grid);
            let numbers = drawing.compare(&mut noise).unwrap_or_else(|e| panic!("{e}")).map(|a| a.number);
            // a flat drawing has one z, which is a value or not
            let flat = if axis == 2 && origin > i32::MIN { 0 } else { number };
            assert_eq!(numbers, [flat, number, flat, number], "{drawing:?}");
        }
    }
}

#[test]
fn unpacking() {
    let mut noise = Random::seeded("unpacking", 0x5EED_0023);
    for slots in [SLOTS, WIDE_SLOTS] {
        let mut wrongs = tape_wrongs(slots, |u: &mut Unpacking| &mut u.tape);
        wrongs.push(wrong(14, |u: &mut Unpacking| u.out += 1));
        wrongs.push(wrong(14, |u: &mut Unpacking| u.out = 0));
        try_all(&Unpacking::new(tape_of(slots)), &wrongs, |unpacking, expected| {
            assert_eq!(unpacking.compare(&mut noise), Ok((expected, 0)));
        });
    }
}

/// Packing checks 4 before 3, and lists are bound by the counts alone.
#[test]
fn packing() {
    let mut noise = Random::seeded("packing", 0x5EED_0024);
    for slots in [SLOTS, WIDE_SLOTS] {
        let mut wrongs = vec![
            wrong(4, |p: &mut Packing| p.list.push(0)),
            wrong(4, |p: &mut Packing| p.list.resize(3, 0)),
            wrong(3, |p: &mut Packing| p.slots = 0),
            wrong(3, |p: &mut Packing| p.slots = 129),
            wrong(3, |p: &mut Packing| p.slots += 256),
            wrong(3, |p: &mut Packing| p.list.clear()),
            wrong(3, |p: &mut Packing| p.list = [0; 5 * 6145].to_vec()),
        ];
        for (clause, field, value, number) in CLAUSE_FAULTS {
            let value = fault_value(slots, field, value);
            wrongs.push(wrong_at(number, clause, move |p: &mut Packing| p.list[5 * clause + field] = value));
        }
        wrongs.push(wrong(14, |p: &mut Packing| p.out -= 1));
        wrongs.push(wrong(14, |p: &mut Packing| p.out += 10));
        try_all(&Packing::new(slots, LIST.concat()), &wrongs, |packing, expected| {
            assert_eq!(packing.compare(&mut noise), Ok(expected), "{packing:?}");
        });
    }
}

#[test]
fn files() {
    let wrongs = [
        wrong(10, |f: &mut File| f.width = 0),
        wrong(10, |f: &mut File| f.width = 513),
        wrong(10, |f: &mut File| f.height = 0),
        wrong(10, |f: &mut File| f.height = 513),
        wrong(12, |f: &mut File| f.picture = -1),
        wrong(12, |f: &mut File| f.picture = 1),
        wrong(14, |f: &mut File| f.out = -1),
        wrong(14, |f: &mut File| f.out = 1),
    ];
    let mut noise = Random::seeded("files", 0x5EED_0025);
    try_all(&File::new(13, 7), &wrongs, |file, expected| {
        assert_eq!(file.compare_bitmap(&mut noise), Ok(expected));
        assert_eq!(file.compare_heights(&mut noise), Ok(expected));
    });
}

/// Sizes of which the product is past 32 and past 64 bits.
#[test]
fn files_of_great_sizes() {
    let expected = raw::Answer { number: 10, place: 0, count: 0 };
    for (width, height) in [(u32::MAX, u32::MAX), (1 << 31, 2), (1 << 16, 1 << 16)] {
        let mut out = [0xA5; 20];
        assert_eq!(raw::write_bitmap(width, height, &[], &mut out), expected);
        assert_eq!(raw::write_heights(width, height, &[], &mut out), expected);
        assert_eq!(out, [0xA5; 20]);
    }
}

#[test]
fn noise_as_a_tape() {
    let mut r = Random::seeded("noise_as_a_tape", 0x5EED_0026);
    for len in (0..200).chain([10_248, 61_448, 1_000_000]) {
        let tape = r.bytes(len);
        let drawing = Drawing { tape: tape.clone(), ..good_drawing() };
        let numbers = drawing.compare(&mut r).map(|a| a.map(|a| a.number)).unwrap_or_else(|e| panic!("{e}"));
        assert_eq!(numbers, [if len < 8 { 1 } else { 2 }; 4]);
        Unpacking::new(tape).compare(&mut r).unwrap_or_else(|e| panic!("{e}"));
    }
}

/// Input of the program as a grid, a tape and what becomes of the grid's record.
#[derive(Clone)]
struct Input {
    grid: Grid,
    tape: Vec<u8>,
    mark: [u8; 2],
    cut: usize,
}

impl Input {
    fn bytes(&self) -> Vec<u8> {
        let mut bytes = program::input(&self.grid, &self.tape);
        bytes[..2].copy_from_slice(&self.mark);
        bytes.truncate(self.cut);
        bytes
    }
}

/// The program's order: 15, 16, the tape, then the grid.
fn program_wrongs(slots: u32) -> Vec<Wrong<Input>> {
    let mut wrongs = vec![
        wrong(15, |i: &mut Input| i.cut = 0),
        wrong(15, |i: &mut Input| i.cut = 31),
        wrong(15, |i: &mut Input| i.mark = [0x47, 0x53]),
        wrong(15, |i: &mut Input| i.mark = [0, 0x52]),
        wrong(16, |i: &mut Input| (i.grid.sizes[0], i.grid.sizes[2]) = (129, 1)),
        wrong(16, |i: &mut Input| (i.grid.sizes[1], i.grid.sizes[2]) = (600, 65_535)),
    ];
    wrongs.extend(tape_wrongs(slots, |i: &mut Input| &mut i.tape));
    wrongs
}

fn try_program(slots: u32, depth: u32, wrongs: &[Wrong<Input>]) {
    let Drawing { tape, mut grid, .. } = drawing_of(slots);
    grid.sizes[2] = depth;
    let good = Input { grid, tape, mark: [0x47, 0x52], cut: usize::MAX };
    assert_eq!(program::compare(&good.bytes()).map(|a| a.number), Ok(0));
    try_all(&good, wrongs, |input, expected| {
        let bytes = input.bytes();
        let ran = program::run(&bytes);
        program::check(&ran, &bytes).unwrap_or_else(|e| panic!("{e}"));
        assert_eq!(ran.first, format!("refused {} at {}\n", expected.number, expected.place).into_bytes());
        assert!(ran.second.is_empty());
    });
}

#[test]
fn program_flat() {
    let mut wrongs = program_wrongs(SLOTS);
    wrongs.extend(grid_wrongs(|i: &mut Input| &mut i.grid));
    try_program(SLOTS, 0, &wrongs);
}

/// On a tape of edition 02.
#[test]
fn program_solid() {
    let mut wrongs = program_wrongs(WIDE_SLOTS);
    wrongs.extend([
        wrong(10, |i: &mut Input| i.grid.sizes[0] = 0),
        wrong(10, |i: &mut Input| i.grid.sizes[2] = 513),
        wrong(11, |i: &mut Input| i.grid.steps[2] = 0),
        wrong(11, |i: &mut Input| i.grid.origins[1] = i32::MIN),
    ]);
    try_program(WIDE_SLOTS, 3, &wrongs);
}
