//! Tables of verdicts that those share who draw rectangles of one flat picture, against the slow calls: the request's
//! figures, random turns and runs of them, tables not made by these calls, refusals, planted faults.

use crate::refusals::{SLOTS, WIDE_SLOTS, Wrong, good_drawing, grid_wrongs, tape_of, tape_wrongs, try_all, wrong};
use crate::stack::mixed;
use checks::drawing::Drawing;
use checks::grids;
use checks::lists::List;
use checks::random::{Random, cases};
use checks::table::{Lent, Turn, rectangle};
use layers::raw;
use slow::call::Answer;
use slow::draw::{self, Grid};
use slow::fault;
use slow::table::{ENTRY, Fault, HEAD, Rectangle, TABLE, TILES};
use slow::tape::Tape;
use slow::walk::{Region, tiles, walk_over};
use std::collections::BTreeSet;

const ONE: i32 = 65_536;

/// The core's call.
fn core(turn: &Turn, (table, picture, work): &mut Lent) -> raw::Answer {
    let (tape, grid) = (&turn.drawing.tape, turn.drawing.core_grid());
    raw::table_draw(tape, grid, turn.core_rectangle(), table, picture, work)
}

fn compared(turn: &Turn, noise: &mut Random) -> Answer {
    turn.compare(noise, core).unwrap_or_else(|e| panic!("{e}"))
}

fn begun(turn: &Turn, noise: &mut Random) -> Answer {
    turn.compare_begin(noise, raw::table_begin).unwrap_or_else(|e| panic!("{e}"))
}

const fn done(count: u64) -> Answer {
    Answer { number: 0, place: 0, count }
}

/// A drawing of this tape, with the core's table begun for it.
fn fresh(tape: Vec<u8>, grid: Grid) -> Turn {
    let drawing = Drawing::new(tape, grid);
    let mut table = vec![9; TABLE];
    assert_eq!(raw::table_begin(&drawing.tape, drawing.core_grid(), &mut table).into_result(), Ok(0));
    Turn { drawing, rectangle: at(0, 0, 1, 1), table }
}

fn at(column: u32, row: u32, columns: u32, rows: u32) -> Rectangle {
    Rectangle { column, row, columns, rows }
}

fn plain(width: u32, height: u32) -> Grid {
    Grid { sizes: [width, height, 0], origins: [0; 3], steps: [ONE; 3] }
}

/// x less so many units of length.
fn x_less(length: i32) -> Vec<u8> {
    List { slots: 2, clauses: vec![[1, 0, 0, 0, 0], [0, 1, 0, 0, length * ONE], [10, 0, 0, 1, 0]] }.tape()
}

/// root((x − 60)² + (y − 40)²) − 30.
fn disc() -> Vec<u8> {
    let square = |axis: i32, slot: i32, middle: i32| {
        [[axis, slot, 0, 0, 0], [0, 2, 0, 0, middle * ONE], [10, slot, slot, 2, 0], [7, slot, slot, 0, 0]]
    };
    let mut clauses = [square(1, 0, 60), square(2, 1, 40)].concat();
    clauses.extend([[9, 0, 0, 1, 0], [8, 0, 0, 0, 0], [0, 1, 0, 0, 30 * ONE], [10, 0, 0, 1, 0]]);
    List { slots: 3, clauses }.tape()
}

/// Both calls on the turn's table, of which the core's stays.
fn draw(turn: &mut Turn, rectangle: Rectangle, picture: &mut Vec<u8>) -> Answer {
    turn.rectangle = rectangle;
    let mut lent = (turn.table.clone(), picture.clone(), vec![9; turn.drawing.work]);
    let said = turn.compare_on(&lent, core).unwrap_or_else(|e| panic!("{e}"));
    core(turn, &mut lent);
    (turn.table, *picture) = (lent.0, lent.1);
    said
}

fn entry(turn: &mut Turn, number: usize) -> &mut [u8] {
    &mut turn.table[HEAD + ENTRY * number..HEAD + ENTRY * (number + 1)]
}

fn verdicts(turn: &Turn) -> Vec<u8> {
    turn.table[HEAD..].iter().step_by(ENTRY).copied().collect()
}

#[test]
fn figures() {
    let mut turn = fresh(x_less(2), plain(3, 2));
    for count in [24, 21] {
        let mut picture = vec![0xA5; 2];
        assert_eq!(draw(&mut turn, at(0, 0, 1, 1), &mut picture), done(count));
        assert_eq!(picture, [0xC0; 2]);
        assert_eq!(entry(&mut turn, 0)[..3], [0x03, 0x15, 0x00]);
        assert!(turn.table[HEAD + 2..].iter().all(|&byte| byte == 0));
    }
    let mut turn = fresh(disc(), plain(100, 70));
    let mut picture = vec![0xA5; turn.drawing.flat];
    let rectangles = [at(0, 0, 1, 1), at(0, 0, 2, 1), at(0, 0, 2, 2), at(1, 1, 1, 1)];
    let said = rectangles.map(|rectangle| draw(&mut turn, rectangle, &mut picture));
    assert_eq!(said, [10_764, 20_460, 22_932, 1_212].map(done));
    assert_eq!(verdicts(&turn), [[3; 4].as_slice(), &[0; 60]].concat());
    for number in 0..4 {
        assert_eq!(entry(&mut turn, number)[..5], [3, 0x55, 0x55, 0x55, 0]);
    }
    let mut whole = vec![0xA5; turn.drawing.flat];
    raw::draw_flat(&turn.drawing.tape, turn.drawing.core_grid(), &mut whole);
    assert_eq!(picture, whole);
}

/// The tape, zeros, the record of the grid with depth and third step 0, and nothing known.
#[test]
fn a_table_begun() {
    let grid = Grid { sizes: [100, 70, 77], origins: [1, -2, 3], steps: [ONE, 5, -6] };
    let Turn { table, drawing, .. } = fresh(disc(), grid);
    assert_eq!((table.len(), HEAD, ENTRY, TILES), (163_936, 65_568, 1_537, 64));
    assert_eq!(table[..drawing.tape.len()], drawing.tape);
    assert!(table[drawing.tape.len()..65_536].iter().all(|&byte| byte == 0));
    let record = "GR\x64\0\x46\0\0\0";
    assert_eq!(&table[65_536..65_544], record.as_bytes());
    let numbers = [1, -2, 3, ONE, 5, 0].map(i32::to_le_bytes).concat();
    assert_eq!(table[65_544..HEAD], numbers);
    assert!(table[HEAD..].iter().all(|&byte| byte == 0));
}

#[test]
fn random_beginnings() {
    let cases = cases(2_000);
    let mut r = Random::seeded(&format!("random_beginnings: {cases} cases"), 0x5EED_00C0);
    let mut noise = Random::new(0x5EED_00C1);
    let mut met = [0; 25];
    for i in 0..cases {
        let turn = if i % 2 == 0 { Turn::random(&mut r) } else { Turn::damaged(&mut r) };
        let number = begun(&turn, &mut noise).number;
        assert!(i % 2 == 1 || number == 0);
        met[number as usize] += 1;
    }
    println!("random_beginnings: answers by number: {met:?}");
    let least = [0].into_iter().chain(2..=11).chain([24]).map(|number| met[number]).min().expect("a number");
    assert!(cases < 2_000 || least > 0, "answers by number: {met:?}");
}

#[test]
fn random_turns() {
    let cases = cases(3_000);
    let mut r = Random::seeded(&format!("random_turns: {cases} cases"), 0x5EED_00C2);
    let mut noise = Random::new(0x5EED_00C3);
    let mut known = 0;
    for _ in 0..cases {
        let turn = Turn::random(&mut r);
        assert_eq!(compared(&turn, &mut noise).number, 0, "{:?}", turn.drawing);
        known += verdicts(&turn).iter().any(|&verdict| verdict != 0) as u64;
    }
    assert!(cases < 1_000 || known > cases / 2, "{known} of {cases} tables had verdicts");
}

/// Tables with entries that were not made by these calls: accepted, and what is drawn is fixed by the bytes.
#[test]
fn foreign_entries() {
    let cases = cases(3_000);
    let mut r = Random::seeded(&format!("foreign_entries: {cases} cases"), 0x5EED_00C4);
    let mut noise = Random::new(0x5EED_00C5);
    for _ in 0..cases {
        let turn = Turn::foreign(&mut r);
        assert_eq!(compared(&turn, &mut noise).number, 0, "{:?}", turn.drawing);
    }
}

/// Tables of noise behind a right head.
#[test]
fn tables_of_noise() {
    let cases = cases(2_000);
    let mut r = Random::seeded(&format!("tables_of_noise: {cases} cases"), 0x5EED_00C6);
    let mut noise = Random::new(0x5EED_00C7);
    let mut met = [0; 25];
    for _ in 0..cases {
        met[compared(&Turn::noisy(&mut r), &mut noise).number as usize] += 1;
    }
    println!("tables_of_noise: {} accepted, {} refused with 24", met[0], met[24]);
    assert_eq!(met[0] + met[24], cases);
    assert!(cases < 1_000 || met[0].min(met[24]) > cases / 10, "answers by number: {met:?}");
}

/// Each number of the call's refusals is met.
#[test]
fn damaged_turns() {
    let cases = cases(4_000);
    let mut r = Random::seeded(&format!("damaged_turns: {cases} cases"), 0x5EED_00C8);
    let mut noise = Random::new(0x5EED_00C9);
    let mut met = [0; 25];
    for _ in 0..cases {
        met[compared(&Turn::damaged(&mut r), &mut noise).number as usize] += 1;
    }
    println!("damaged_turns: answers by number: {met:?}");
    let least = [0].into_iter().chain(2..=13).chain([24]).map(|number| met[number]).min().expect("a number");
    assert!(cases < 4_000 || least > 0, "answers by number: {met:?}");
}

/// Whether a byte of an entry is named by no line: behind a verdict that keeps no tape, and behind the marks of the last
/// clause. Two bits that the last byte of marks has too many are left to `spare_bits`.
fn unnamed(verdict: u8, clauses: usize, byte: usize) -> bool {
    byte > 0 && (verdict != 3 || byte > clauses.div_ceil(4))
}

/// Noise in the bytes that no line names changes neither answer nor picture, and stays where no entry is written.
#[test]
fn bytes_that_no_line_names() {
    let cases = cases(1_000);
    let mut r = Random::seeded(&format!("bytes_that_no_line_names: {cases} cases"), 0x5EED_00CA);
    for i in 0..cases {
        let turn = if i % 2 == 0 { Turn::random(&mut r) } else { Turn::foreign(&mut r) };
        let clauses = Tape::from_bytes(&turn.drawing.tape).expect("an accepted tape").clauses.len();
        let mut noisy = turn.clone();
        for number in 0..TILES {
            let entry = entry(&mut noisy, number);
            let verdict = entry[0];
            let open = (0..ENTRY).filter(|&byte| unnamed(verdict, clauses, byte));
            open.for_each(|byte| entry[byte] = r.number() as u8);
        }
        let (picture, work) = (r.bytes(turn.drawing.flat), r.bytes(turn.drawing.work));
        let mut ours = (turn.table.clone(), picture.clone(), work.clone());
        let mut theirs = (noisy.table.clone(), picture, work);
        noisy.compare_on(&theirs, core).unwrap_or_else(|e| panic!("{e}"));
        assert_eq!(core(&turn, &mut ours), core(&noisy, &mut theirs));
        assert!((&ours.1, &ours.2) == (&theirs.1, &theirs.2));
        for number in 0..TILES {
            let at = HEAD + ENTRY * number..HEAD + ENTRY * (number + 1);
            let written = ours.0[at.clone()] != turn.table[at.clone()];
            let expected = if written { &ours.0 } else { &noisy.table };
            assert!(theirs.0[at.clone()] == expected[at]);
        }
    }
}

/// The bits behind the last clause's mark in its byte.
#[test]
fn spare_bits() {
    let grid = plain(3, 2);
    for bits in [0x00, 0x40, 0x80, 0xC0] {
        let mut turn = fresh(x_less(2), grid);
        entry(&mut turn, 0)[..2].copy_from_slice(&[3, 0x15 | bits]);
        let mut picture = vec![9; 2];
        assert_eq!((draw(&mut turn, at(0, 0, 1, 1), &mut picture), picture), (done(21), vec![0xC0; 2]));
        assert_eq!(entry(&mut turn, 0)[..2], [3, 0x15 | bits]);
    }
}

/// Depth and the third step are not read: the table is begun with others than it is drawn with.
#[test]
fn unread_fields() {
    let mut r = Random::seeded("unread_fields: table", 0x5EED_00CB);
    for _ in 0..cases(60) {
        let turn = Turn::random(&mut r);
        let lent = (turn.table.clone(), r.bytes(turn.drawing.flat), r.bytes(turn.drawing.work));
        let mut other = turn.clone();
        grids::unread(&mut r, &mut other.drawing.grid);
        let [mut ours, mut theirs] = [lent.clone(), lent];
        assert_eq!(core(&turn, &mut ours), core(&other, &mut theirs));
        assert!(ours == theirs);
        let [mut ours, mut theirs] = [r.bytes(TABLE), r.bytes(TABLE)];
        raw::table_begin(&turn.drawing.tape, turn.drawing.core_grid(), &mut ours);
        raw::table_begin(&turn.drawing.tape, other.drawing.core_grid(), &mut theirs);
        assert!(ours == theirs);
    }
}

/// One who draws by turns: the picture, and the picture and the table of one who does the same without the others.
struct User {
    picture: Vec<u8>,
    alone: Vec<u8>,
    table: Vec<u8>,
}

/// What a run is to say: the full drawing, and which tiles are known.
struct Expected {
    tape: Tape,
    grid: Grid,
    bits: Vec<u8>,
    known: BTreeSet<usize>,
}

impl Expected {
    fn of(drawing: &Drawing) -> Self {
        let (tape, grid) = (Tape::from_bytes(&drawing.tape).expect("an accepted tape"), drawing.grid);
        let bits = draw::bits(&grid, &draw::heights(&tape, &grid, false));
        Expected { tape, grid, bits, known: BTreeSet::new() }
    }

    /// The rectangle's tiles with their numbers.
    fn tiles(&self, Rectangle { column, row, columns, rows }: Rectangle) -> Vec<(usize, Region)> {
        let inside = |tile: &Region| {
            let [x, y] = [0, 1].map(|axis| tile.first[axis] / 64);
            (column..column + columns).contains(&x) && (row..row + rows).contains(&y)
        };
        tiles(&self.grid, false).into_iter().enumerate().filter(|(_, tile)| inside(tile)).collect()
    }

    /// The walk's sum over the tiles, without the regions of side 64 that were known, which all of them are then.
    fn count(&mut self, tiles: &[(usize, Region)]) -> u64 {
        let regions: Vec<Region> = tiles.iter().map(|(_, tile)| *tile).collect();
        let (_, count) = walk_over(&self.tape, &self.grid, false, &regions);
        let known = tiles.iter().filter(|(number, _)| !self.known.insert(*number)).count();
        count - (known * self.tape.clauses.len()) as u64
    }
}

/// A turn that the run's table may meet: most are right, some refused, a few with another tape or grid.
fn any_turn(r: &mut Random, of: &Drawing) -> Turn {
    let mut turn = Turn { drawing: of.clone(), rectangle: rectangle(r, of), table: Vec::new() };
    grids::unread(r, &mut turn.drawing.grid);
    match r.below(16) {
        0 => turn.damage_rectangle(r),
        1 => turn.drawing.damage(r),
        2 => turn.drawing.tape = disc(),
        3 => turn.drawing.grid.origins[r.index(3)] ^= 1,
        _ => {}
    }
    turn
}

/// Several users by turns from a table begun, refused and stray calls among them: the rectangle's pixels are the full
/// drawing's, each picture is what it would be without the others, and only the count shows who was first.
#[test]
fn runs() {
    let runs = cases(40);
    let mut r = Random::seeded(&format!("runs of turns: {runs}"), 0x5EED_00CC);
    let mut numbers = BTreeSet::new();
    for _ in 0..runs {
        let drawing = Drawing::flat(&mut r, 20_000);
        let Turn { drawing, table: begun, .. } = fresh(drawing.tape, drawing.grid);
        let mut expected = Expected::of(&drawing);
        let mut shared = begun.clone();
        let mut users: Vec<User> = (0..2 + r.below(2))
            .map(|_| r.bytes(drawing.flat))
            .map(|noise| User { picture: noise.clone(), alone: noise, table: begun.clone() })
            .collect();
        for _ in 0..30 {
            let (turn, which) = (any_turn(&mut r, &drawing), r.index(users.len()));
            if r.below(16) == 0 {
                begin_again(&drawing, [&mut shared, &mut users[which].table]);
                expected.known.clear();
            }
            numbers.insert(one_turn(&turn, &mut shared, &mut users[which], &mut expected, &mut r));
        }
    }
    assert!(runs < 40 || [0, 10, 11, 12, 13, 24].iter().all(|number| numbers.contains(number)), "{numbers:?}");
}

/// A user begins the table anew, and its own: no tile is known then, and no picture changes.
fn begin_again(drawing: &Drawing, tables: [&mut Vec<u8>; 2]) {
    for table in tables {
        assert_eq!(raw::table_begin(&drawing.tape, drawing.core_grid(), table).number, 0);
    }
}

/// Makes the turn on the shared table and on the user's own, and compares. Returns the answer's number.
fn one_turn(turn: &Turn, shared: &mut Vec<u8>, user: &mut User, expected: &mut Expected, r: &mut Random) -> u8 {
    let work = r.bytes(turn.drawing.work);
    let lend = |table: &[u8], picture: &[u8]| {
        let mut picture = picture.to_vec();
        picture.resize(turn.drawing.flat, 0);
        (table.to_vec(), picture, work.clone())
    };
    let (mut lent, mut own) = (lend(shared, &user.picture), lend(&user.table, &user.alone));
    let said = turn.compare_on(&lent, core).unwrap_or_else(|e| panic!("{e}"));
    core(turn, &mut lent);
    let alone = core(turn, &mut own);
    assert_eq!((said.number, said.place), (alone.number, alone.place));
    assert!(lent.1 == own.1 && lent.2 == own.2);
    if said.number == 0 {
        (*shared, user.picture, user.table, user.alone) = (lent.0, lent.1, own.0, own.1);
        let tiles = expected.tiles(turn.rectangle);
        assert_eq!(said.count, expected.count(&tiles));
        let bytes = tiles.iter().flat_map(|(_, tile)| tile.bytes(&expected.grid));
        bytes.for_each(|byte| assert_eq!(user.picture[byte], expected.bits[byte]));
    }
    said.number
}

/// 64 tiles, the largest tapes of both editions, samples at both ends of the values.
#[test]
fn extremes() {
    let grid = Grid { sizes: [512, 512, 0], origins: [-i32::MAX; 3], steps: [8_396_800; 3] };
    let mut turn = fresh(x_less(-30_000), grid);
    let mut picture = vec![9; 64 * 512];
    let first = draw(&mut turn, at(0, 0, 8, 8), &mut picture);
    assert_eq!(verdicts(&turn), [3, 2, 2, 2, 2, 2, 2, 2].repeat(8));
    assert_eq!(draw(&mut turn, at(0, 0, 8, 8), &mut picture), done(first.count - 3 * 64));
    assert_eq!(draw(&mut turn, at(7, 7, 1, 1), &mut picture), done(0));
    for (slots, clauses) in [(64, 1_024), (128, 6_144)] {
        let grid = Grid { sizes: [66, 2, 0], origins: [-33_300, -1_300, 100], steps: [1000; 3] };
        let mut turn = fresh(mixed(slots, clauses).tape(), grid);
        let mut picture = vec![9; turn.drawing.flat];
        let counts = [0, 1].map(|_| draw(&mut turn, at(0, 0, 2, 1), &mut picture).count);
        assert_eq!(counts[0] - counts[1], 2 * clauses as u64);
        assert_eq!(verdicts(&turn)[2..], [0; 62]);
        assert!(picture.iter().any(|&byte| byte != 0));
    }
    // marks in every byte of an entry: x − 2 by way of 6,141 minima of x and itself
    let mut clauses = vec![[1, 0, 0, 0, 0], [0, 1, 0, 0, 2 * ONE]];
    clauses.extend([[12, 0, 0, 0, 0]; 6_141]);
    clauses.push([10, 0, 0, 1, 0]);
    let mut turn = fresh(List { slots: 128, clauses }.tape(), plain(3, 2));
    let mut picture = vec![9; 2];
    let counts = [0, 1].map(|_| draw(&mut turn, at(0, 0, 1, 1), &mut picture));
    assert_eq!((counts, &picture), ([8, 7].map(|runs| done(runs * 6_144)), &vec![0xC0; 2]));
    assert!(entry(&mut turn, 0)[1..].iter().all(|&byte| byte == 0x55));
}

/// Sums of column and columns that leave 32 bits, and every edge of the grid.
#[test]
fn rectangles() {
    let mut noise = Random::seeded("rectangles", 0x5EED_00CD);
    let good = fresh(disc(), plain(100, 70));
    let numbers = [0, 1, 2, 3, u32::MAX - 1, u32::MAX];
    for column in numbers {
        for row in numbers {
            for (columns, rows) in numbers.iter().flat_map(|&columns| numbers.map(|rows| (columns, rows))) {
                let inside = |first: u32, many: u32| many > 0 && first as u64 + many as u64 <= 2;
                let expected = if inside(column, columns) && inside(row, rows) { 0 } else { 10 };
                let turn = Turn { rectangle: at(column, row, columns, rows), ..good.clone() };
                assert_eq!(compared(&turn, &mut noise).number, expected, "{:?}", turn.rectangle);
            }
        }
    }
}

/// What can be wrong with the table: its length, its head, a verdict or a kept tape of any entry. The list's clauses are x,
/// y, a constant, a sum, a maximum; marks of the first four are in the first byte.
fn table_wrongs() -> Vec<Wrong<Turn>> {
    let lengths = [0, HEAD, TABLE - 1, TABLE + 1];
    let mut wrongs: Vec<Wrong<Turn>> = lengths.map(|len| wrong(24, move |t: &mut Turn| t.table.resize(len, 0))).into();
    let heads = [0, 7, 57, 58, 40_000, 65_535, 65_536, 65_538, 65_542, 65_543, 65_564, 65_567];
    wrongs.extend(heads.map(|at| wrong(24, move |t: &mut Turn| set(t, at, 0xEE))));
    // no verdict, nothing kept, a copy of the sum's side, x dropped where the sum reads it
    let entries: [&[u8]; 5] = [&[4], &[255], &[3], &[3, 0x95, 1], &[3, 0x54, 1]];
    for (number, bytes) in [0, 1, 63].into_iter().flat_map(|number| entries.map(|bytes| (number, bytes))) {
        wrongs.push(wrong(24, move |t: &mut Turn| put(t, number, bytes)));
    }
    wrongs.push(wrong(24, |t: &mut Turn| t.drawing.grid.origins[2] = 7));
    wrongs.push(wrong(24, |t: &mut Turn| t.drawing.grid.steps[1] = ONE + 1));
    wrongs
}

/// Sets a byte, if the table has it.
fn set(turn: &mut Turn, at: usize, byte: u8) {
    turn.table.get_mut(at).into_iter().for_each(|old| *old = byte);
}

/// Puts bytes at the front of an entry, as far as the table has it.
fn put(turn: &mut Turn, number: usize, bytes: &[u8]) {
    let entry = turn.table.iter_mut().skip(HEAD + ENTRY * number);
    entry.zip(bytes).for_each(|(byte, new)| *byte = *new);
}

/// 1 to 9, 10 for a size or the rectangle, 11, 24, 12, 13: each alone and any two at once.
#[test]
fn refusals() {
    let mut noise = Random::seeded("table: refusals", 0x5EED_00CE);
    for slots in [SLOTS, WIDE_SLOTS] {
        let mut wrongs = tape_wrongs(slots, |t: &mut Turn| &mut t.drawing.tape);
        let mut sizes = grid_wrongs(|t: &mut Turn| &mut t.drawing.grid);
        let samples = sizes.split_off(3);
        wrongs.extend(sizes);
        let outside = [at(0, 0, 0, 1), at(0, 0, 1, 0), at(1, 0, 1, 1), at(0, 1, 1, 1), at(1, 1, u32::MAX, u32::MAX)];
        wrongs.extend(outside.map(|rectangle| wrong(10, move |t: &mut Turn| t.rectangle = rectangle)));
        wrongs.extend(samples);
        wrongs.extend(table_wrongs());
        wrongs.extend([9, 11, 0].map(|len| wrong(12, move |t: &mut Turn| t.drawing.flat = len)));
        wrongs.extend([32_767, 0].map(|len| wrong(13, move |t: &mut Turn| t.drawing.work = len)));
        let good = fresh(tape_of(slots), good_drawing().grid);
        assert_eq!(compared(&good, &mut noise).number, 0);
        try_all(&good, &wrongs, |turn, expected| {
            assert_eq!(compared(turn, &mut noise), expected, "{:?}, {:?}", turn.rectangle, turn.drawing);
        });
    }
}

/// 1 to 11, then 24 for the length: each alone and any two at once.
#[test]
fn refusals_of_a_beginning() {
    let mut noise = Random::seeded("table: refusals_of_a_beginning", 0x5EED_00CF);
    for slots in [SLOTS, WIDE_SLOTS] {
        let mut wrongs = tape_wrongs(slots, |t: &mut Turn| &mut t.drawing.tape);
        wrongs.extend(grid_wrongs(|t: &mut Turn| &mut t.drawing.grid));
        let lengths = [0, HEAD, TABLE - 1, TABLE + 1];
        wrongs.extend(lengths.map(|len| wrong(24, move |t: &mut Turn| t.table.resize(len, 0))));
        let good = fresh(tape_of(slots), good_drawing().grid);
        assert_eq!(begun(&good, &mut noise), done(0));
        try_all(&good, &wrongs, |turn, expected| {
            assert_eq!(begun(turn, &mut noise), expected, "{:?}", turn.drawing);
        });
    }
}

/// A kept tape: which copies and which droppings are turned down, in entries that are asked for or not, or not there.
#[test]
fn kept_tapes() {
    // x, y, a constant, x + y, the larger of both
    let good = fresh(tape_of(SLOTS), good_drawing().grid);
    let number = |entry: usize, bytes: &[u8]| {
        let mut turn = good.clone();
        put(&mut turn, entry, bytes);
        compared(&turn, &mut Random::new(1)).number
    };
    for entry in [0, 1, 62, 63] {
        // whole, either side of the maximum, the sum alone, x alone
        for marks in [[0x55, 1], [0x55, 2], [0x55, 3], [0x45, 0], [0x01, 0], [0x05, 0], [0x10, 0]] {
            assert_eq!(number(entry, &[[3].as_slice(), &marks].concat()), 0, "{marks:x?}");
        }
        // nothing; a side of x, y, the constant, the sum; a clause dropped that another reads
        for marks in [[0x00, 0], [0x56, 1], [0x59, 1], [0x65, 1], [0x95, 1], [0xD5, 1], [0x54, 1], [0x15, 1], [0x45, 1]]
        {
            assert_eq!(number(entry, &[[3].as_slice(), &marks].concat()), 24, "{marks:x?}");
        }
        assert_eq!([4, 5, 128, 255].map(|verdict| number(entry, &[verdict])), [24; 4]);
        assert_eq!([0, 1, 2].map(|verdict| number(entry, &[verdict, 0x56, 9])), [0; 3]);
    }
}

#[test]
fn planted_faults_are_caught() {
    for &planted in Fault::ALL {
        let mut r = Random::seeded(&format!("{planted:?}"), 0x5EED_00D0);
        let mut noise = Random::new(0x5EED_00D1);
        let kinds = [Turn::random, Turn::foreign, Turn::damaged];
        let mut differs = |i: usize| {
            let turn = kinds[i % kinds.len()](&mut r);
            fault::with(planted, || turn.compare(&mut noise, core)).is_err()
        };
        assert!((0..3_000).any(&mut differs), "{planted:?} is not caught");
    }
}
