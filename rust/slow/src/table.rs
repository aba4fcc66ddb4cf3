//! The table in which those who draw rectangles of one flat picture share the verdicts of its 64-tiles.

use crate::call::{Answer, answer, enough_work, exact_len};
use crate::draw::{self, Grid};
use crate::edition::MAX_CLAUSES;
use crate::fault::planted;
use crate::program::record;
use crate::tape::{Mark, Refused, Tape, refuse};
use crate::walk::{Region, Verdict, Walk, tiles};

faults! {
    /// Faults that can be planted, one at a time.
    Fault {
        /// The region of side 64 is counted where the verdict was known.
        KnownCounted,
        VerdictNotWritten,
        /// The verdicts of a full and of an empty tile are written one for the other.
        FullAndEmptySwapped,
        /// The entry of a tile is that of its column in the first row.
        EntryOfTheColumn,
        /// A kept tape may copy a side of a sum.
        CopyOfASumAllowed,
        /// A rectangle is tested after line 11.
        RectangleAfterSamples,
    }
}

/// The bytes of a table.
pub const TABLE: usize = HEAD + TILES * ENTRY;

/// Those of the tape, with the zeros behind it.
const TAPE: usize = 65_536;

/// Those of the tape and the grid's record.
pub const HEAD: usize = TAPE + 32;

/// The entries of a table.
pub const TILES: usize = 64;

/// The bytes of an entry: a verdict, and two bits for each clause that a tape can have.
pub const ENTRY: usize = 1 + MAX_CLAUSES / 4;

/// In 64-tiles.
#[derive(Clone, Copy, Debug, PartialEq, Eq)]
pub struct Rectangle {
    pub column: u32,
    pub row: u32,
    pub columns: u32,
    pub rows: u32,
}

/// Lines 1 to 11, then 24 for the table's length.
pub fn table_begin(tape: &[u8], grid: &Grid, table: &mut [u8]) -> Answer {
    answer((|| {
        Tape::from_bytes(tape)?;
        grid.check(false)?;
        exact_len(table, TABLE, 24)?;
        table[..HEAD].copy_from_slice(&head(tape, grid));
        table[HEAD..].fill(0);
        Ok(0)
    })())
}

/// Lines 1 to 9, 10 for a size or the rectangle, 11, 24, 12, 13.
pub fn table_draw(
    tape: &[u8],
    grid: &Grid,
    rectangle: Rectangle,
    table: &mut [u8],
    picture: &mut [u8],
    work: &mut [u8],
) -> Answer {
    answer((|| {
        let whole = Tape::from_bytes(tape)?;
        grid.check_sizes(false)?;
        if planted(Fault::RectangleAfterSamples) {
            grid.check_samples(false)?;
        }
        let tiles = tiles_of(grid, rectangle)?;
        grid.check_samples(false)?;
        let entries = entries(&whole, &head(tape, grid), table)?;
        exact_len(picture, grid.picture_len(false), 12)?;
        enough_work(work)?;
        let mut walk = Walk::new(&whole, grid, false);
        for (number, tile) in &tiles {
            match &entries[*number] {
                Entry::Unknown => {
                    walk.visit_tile(&whole, tile);
                    let at = HEAD + ENTRY * number;
                    if !planted(Fault::VerdictNotWritten) {
                        table[at..at + ENTRY].copy_from_slice(&entry_of(&whole, grid, tile));
                    }
                }
                known => {
                    if planted(Fault::KnownCounted) {
                        walk.count += whole.clauses.len() as u64;
                    }
                    visit_known(&mut walk, known, tile);
                }
            }
        }
        let drawn = draw::bits(grid, &walk.heights);
        for byte in tiles.iter().flat_map(|(_, tile)| tile.bytes(grid)) {
            picture[byte] = drawn[byte];
        }
        work.fill(0);
        Ok(walk.count)
    })())
}

/// The tape, zeros behind it, and the grid's record with depth and third step 0.
fn head(tape: &[u8], grid: &Grid) -> Vec<u8> {
    let ([width, height, _], [x, y, _]) = (grid.sizes, grid.steps);
    let flat = Grid { sizes: [width, height, 0], steps: [x, y, 0], ..*grid };
    let mut head = tape.to_vec();
    head.resize(TAPE, 0);
    head.extend(record(&flat));
    head
}

/// The rectangle's 64-tiles with their numbers, as the walk meets them; 10 if it is empty or leaves the grid.
fn tiles_of(grid: &Grid, rectangle: Rectangle) -> Result<Vec<(usize, Region)>, Refused> {
    let Rectangle { column, row, columns, rows } = rectangle;
    let across = column as u64..column as u64 + columns as u64;
    let down = row as u64..row as u64 + rows as u64;
    let [in_a_row, in_a_column] = [0, 1].map(|axis| grid.sizes[axis].div_ceil(64) as u64);
    if columns == 0 || rows == 0 || across.end > in_a_row || down.end > in_a_column {
        return refuse(10);
    }
    let place = |number: usize| (number as u64 % in_a_row, number as u64 / in_a_row);
    let inside = |number: usize| across.contains(&place(number).0) && down.contains(&place(number).1);
    let numbered = tiles(grid, false).into_iter().enumerate().filter(|(number, _)| inside(*number));
    let entry = |number: usize| if planted(Fault::EntryOfTheColumn) { place(number).0 as usize } else { number };
    Ok(numbered.map(|(number, tile)| (entry(number), tile)).collect())
}

/// What a table says of a tile.
enum Entry {
    Unknown,
    Full,
    Empty,
    /// Its short tape.
    Kept(Tape),
}

/// The table's entries; 24 if its length, its first bytes or any of the entries are wrong.
fn entries(whole: &Tape, head: &[u8], table: &[u8]) -> Result<Vec<Entry>, Refused> {
    exact_len(table, TABLE, 24)?;
    if table[..HEAD] != *head {
        return refuse(24);
    }
    table[HEAD..].chunks(ENTRY).map(|entry| said(whole, entry)).collect()
}

/// What an entry says. Bytes behind a verdict that keeps no tape, and behind the marks of the last clause, are not
/// looked at.
fn said(whole: &Tape, entry: &[u8]) -> Result<Entry, Refused> {
    match entry[0] {
        0 => Ok(Entry::Unknown),
        1 => Ok(Entry::Full),
        2 => Ok(Entry::Empty),
        3 => kept(whole, &entry[1..]).map(Entry::Kept),
        _ => refuse(24),
    }
}

/// The tape that the marks keep; 24 if it copies a side of neither minimum nor maximum or, as a list, would be turned
/// down.
fn kept(whole: &Tape, bytes: &[u8]) -> Result<Tape, Refused> {
    let mark = |i: usize| Mark::ALL[(bytes[i / 4] >> (2 * (i % 4)) & 3) as usize];
    let marks: Vec<Mark> = (0..whole.clauses.len()).map(mark).collect();
    for (c, mark) in whole.clauses.iter().zip(&marks) {
        let has_side = c.chooses() || planted(Fault::CopyOfASumAllowed) && c.opcode == 9;
        if matches!(mark, Mark::CopyLeft | Mark::CopyRight) && !has_side {
            return refuse(24);
        }
    }
    let kept = whole.kept(&marks);
    match Tape::from_list(kept.slots as u32, &kept.to_list()) {
        Ok(_) => Ok(kept),
        Err(_) => refuse(24),
    }
}

/// The entry of a tile that is run over ranges with the whole tape.
fn entry_of(whole: &Tape, grid: &Grid, tile: &Region) -> Vec<u8> {
    let mut entry = vec![0; ENTRY];
    let (range, choices) = tile.range(whole, grid, false);
    let (full, empty) = if planted(Fault::FullAndEmptySwapped) { (2, 1) } else { (1, 2) };
    match Verdict::of(range) {
        Verdict::Full => entry[0] = full,
        Verdict::Empty => entry[0] = empty,
        Verdict::Mixed => {
            entry[0] = 3;
            for (i, &mark) in whole.marks(&choices).iter().enumerate() {
                entry[1 + i / 4] |= (mark as u8) << (2 * (i % 4));
            }
        }
    }
    entry
}

/// Draws a tile by its verdict, without the region of side 64.
fn visit_known(walk: &mut Walk, entry: &Entry, tile: &Region) {
    match entry {
        Entry::Full => walk.fill(tile),
        Entry::Kept(short) => walk.visit_inside(short, tile),
        Entry::Empty | Entry::Unknown => {}
    }
}

#[cfg(test)]
mod tests {
    use super::*;
    use crate::examples::{ONE, axis_less, constants, disc, done, less_axis, plain, refused, refused_tapes, tape};
    use crate::fault;
    use crate::merge::merged;
    use crate::walk::walk;

    const WORK: usize = 32_768;

    const fn rectangle(column: u32, row: u32, columns: u32, rows: u32) -> Rectangle {
        Rectangle { column, row, columns, rows }
    }

    /// A tape and a grid, with a table begun for them.
    struct Shared {
        tape: Vec<u8>,
        grid: Grid,
        table: Vec<u8>,
    }

    impl Shared {
        fn begun(tape: &Tape, grid: Grid) -> Self {
            let (tape, mut table) = (tape.to_bytes(), vec![9; TABLE]);
            assert_eq!(table_begin(&tape, &grid, &mut table), done(0));
            Shared { tape, grid, table }
        }

        /// Draws into a picture of someone's own. Refused, every byte stays; done, the work buffer is cleared.
        fn draw_with(&mut self, rectangle: Rectangle, picture: &mut [u8], work: usize) -> Answer {
            let before = (self.table.clone(), picture.to_vec());
            let mut work = vec![9; work];
            let said = table_draw(&self.tape, &self.grid, rectangle, &mut self.table, picture, &mut work);
            assert!(work.iter().all(|&byte| byte == if said.number == 0 { 0 } else { 9 }));
            assert!(said.number == 0 || before == (self.table.clone(), picture.to_vec()));
            said
        }

        fn draw(&mut self, rectangle: Rectangle, picture: &mut [u8]) -> Answer {
            self.draw_with(rectangle, picture, WORK)
        }

        /// The answer alone, on a copy of the table.
        fn answer(&self, rectangle: Rectangle) -> Answer {
            let Shared { tape, grid, table } = self;
            let mut copy = Shared { tape: tape.clone(), grid: *grid, table: table.clone() };
            copy.draw(rectangle, &mut vec![9; grid.picture_len(false)])
        }

        fn entry(&mut self, number: usize) -> &mut [u8] {
            &mut self.table[HEAD + ENTRY * number..HEAD + ENTRY * (number + 1)]
        }

        fn verdicts(&self) -> Vec<u8> {
            self.table[HEAD..].iter().step_by(ENTRY).copied().collect()
        }
    }

    #[test]
    fn a_table_begun() {
        let grid = Grid { sizes: [100, 70, 77], origins: [1, -2, 3], steps: [ONE, 5, -6] };
        let Shared { table, tape, .. } = Shared::begun(&disc(), grid);
        assert_eq!((TABLE, HEAD, table.len()), (163_936, 65_568, 163_936));
        assert_eq!(table[..tape.len()], tape);
        assert!(table[tape.len()..65_536].iter().all(|&byte| byte == 0));
        let record = [
            [0x47, 0x52, 100, 0, 70, 0, 0, 0],
            [1, 0, 0, 0, 0xFE, 0xFF, 0xFF, 0xFF],
            [3, 0, 0, 0, 0, 0, 1, 0],
            [5, 0, 0, 0, 0, 0, 0, 0],
        ];
        assert_eq!(table[65_536..HEAD], record.concat());
        assert!(table[HEAD..].iter().all(|&byte| byte == 0));
    }

    /// Figures of the request.
    #[test]
    fn a_half_plane() {
        let mut shared = Shared::begun(&axis_less(1, 2), plain(3, 2, 0));
        let mut picture = [9; 2];
        assert_eq!(shared.draw(rectangle(0, 0, 1, 1), &mut picture), done(24));
        assert_eq!((picture, &shared.entry(0)[..3]), ([0xC0; 2], &[0x03, 0x15, 0x00][..]));
        assert!(shared.table[HEAD + 2..].iter().all(|&byte| byte == 0));
        let mut picture = [9; 2];
        assert_eq!(shared.draw(rectangle(0, 0, 1, 1), &mut picture), done(21));
        assert_eq!(picture, [0xC0; 2]);
    }

    #[test]
    fn a_disc() {
        let mut shared = Shared::begun(&disc(), plain(100, 70, 0));
        let mut picture = vec![9; shared.grid.picture_len(false)];
        let turns = [(0, 0, 1, 1), (0, 0, 2, 1), (0, 0, 2, 2), (1, 1, 1, 1)];
        let counts = turns.map(|(column, row, columns, rows)| {
            let said = shared.draw(rectangle(column, row, columns, rows), &mut picture);
            assert_eq!(said.number, 0);
            said.count
        });
        assert_eq!(counts, [10_764, 20_460, 22_932, 1_212]);
        assert_eq!(picture, draw::bits(&shared.grid, &draw::heights(&disc(), &shared.grid, false)));
        assert_eq!(shared.verdicts(), [[3; 4].as_slice(), &[0; 60]].concat());
        for number in 0..4 {
            assert_eq!(shared.entry(number)[1..5], [0x55, 0x55, 0x55, 0]);
            assert!(shared.entry(number)[5..].iter().all(|&byte| byte == 0));
        }
    }

    /// The larger of x − 150 and the smaller of x − 2 and y − 2, in 11 clauses.
    fn corner() -> Tape {
        let both = merged(&axis_less(1, 2), &axis_less(2, 2)).expect("a small tape");
        let mut list = both.to_list();
        list.extend([1, 4, 0, 0, 0, 0, 5, 0, 0, 150 * ONE, 10, 4, 4, 5, 0, 13, 0, 0, 4, 0]);
        Tape::from_list(6, &list).expect("an accepted list")
    }

    /// A full tile, an empty one, and what is kept of those that are neither.
    #[test]
    fn every_verdict() {
        let grid = plain(200, 130, 0);
        let mut shared = Shared::begun(&corner(), grid);
        let mut picture = vec![9; grid.picture_len(false)];
        let said = shared.draw(rectangle(0, 0, 4, 3), &mut picture);
        let (heights, count) = walk(&corner(), &grid, false);
        assert_eq!((said, &picture), (done(count), &draw::bits(&grid, &heights)));
        // the tiles begin at x 0, 64, 128, 192 and at y 0, 64, 128
        assert_eq!(shared.verdicts()[..13], [3, 3, 3, 2, 3, 2, 2, 2, 3, 2, 2, 2, 0]);
        // beyond the first column y − 2 is the smaller, and x − 150 below it in the first two
        let marks = |number: usize, shared: &mut Shared| {
            let bytes = shared.entry(number)[1..4].to_vec();
            (0..11).map(|i| bytes[i / 4] >> (2 * (i % 4)) & 3).collect::<Vec<u8>>()
        };
        assert_eq!(marks(0, &mut shared), [1, 1, 1, 1, 1, 1, 1, 0, 0, 0, 0]);
        assert_eq!(marks(1, &mut shared), [0, 0, 0, 1, 1, 1, 3, 0, 0, 0, 0]);
        assert_eq!(marks(2, &mut shared), [0, 0, 0, 1, 1, 1, 3, 1, 1, 1, 1]);
        assert_eq!(marks(4, &mut shared), [1, 1, 1, 0, 0, 0, 0, 0, 0, 0, 0]);
        let mut full = Shared::begun(&axis_less(1, 70), plain(100, 1, 0));
        let mut picture = vec![9; 13];
        assert_eq!(full.draw(rectangle(0, 0, 2, 1), &mut picture).number, 0);
        assert_eq!(full.verdicts()[..3], [1, 3, 0]);
        assert_eq!(full.draw(rectangle(0, 0, 1, 1), &mut picture), done(0));
    }

    /// Bytes outside the rectangle stay, spare bits inside it are 0.
    #[test]
    fn a_rectangle_inside() {
        let grid = plain(201, 130, 0);
        let drawn = draw::bits(&grid, &draw::heights(&disc(), &grid, false));
        for (column, row, columns, rows) in [(0, 0, 4, 3), (1, 0, 2, 1), (3, 2, 1, 1), (0, 1, 4, 2), (2, 0, 2, 3)] {
            let mut shared = Shared::begun(&disc(), grid);
            let mut picture = vec![0xA5; grid.picture_len(false)];
            let asked = rectangle(column, row, columns, rows);
            let first = shared.draw(asked, &mut picture);
            for (at, &byte) in picture.iter().enumerate() {
                let (x, y) = (at as u32 % 26 / 8, at as u32 / 26 / 64);
                let inside = (column..column + columns).contains(&x) && (row..row + rows).contains(&y);
                assert_eq!(byte, if inside { drawn[at] } else { 0xA5 });
            }
            // known now: without the regions of side 64
            let again = shared.draw(asked, &mut picture);
            assert_eq!(first.count - again.count, 12 * (columns * rows) as u64);
            let known = (0..12).map(|k| {
                ((column..column + columns).contains(&(k % 4)) && (row..row + rows).contains(&(k / 4))) as usize
            });
            assert_eq!(shared.verdicts().iter().filter(|&&v| v != 0).count(), known.sum());
        }
    }

    /// Two users by turns, refused calls among them: each picture is what it would be without the other, and only the
    /// count shows the other's work.
    #[test]
    fn turns() {
        let grid = plain(200, 130, 0);
        let (mut state, asked) = (4_711u64, walk(&corner(), &grid, false));
        let mut below = |n: u64| {
            state = state.wrapping_mul(6_364_136_223_846_793_005).wrapping_add(1_442_695_040_888_963_407);
            (state >> 33) as u32 % n as u32
        };
        let noise = vec![0xA5; grid.picture_len(false)];
        let full = draw::bits(&grid, &asked.0);
        let mut shared = Shared::begun(&corner(), grid);
        let mut alone = [0, 1].map(|_| Shared::begun(&corner(), grid));
        let mut pictures = [0, 1].map(|_| (noise.clone(), noise.clone()));
        let mut parts = [0; 2];
        for _ in 0..60 {
            let user = below(2) as usize;
            let asked = rectangle(below(4), below(3), below(4), below(3));
            let (picture, own) = &mut pictures[user];
            let unknown = tiles_of(&grid, asked).map(|tiles| {
                let of = |(number, _): &&(usize, Region)| shared.table[HEAD + ENTRY * number] == 0;
                (tiles.iter().filter(of).count(), tiles)
            });
            let said = shared.draw(asked, picture);
            let expected = alone[user].draw(asked, own);
            assert_eq!((said.number, said.place, &*picture), (expected.number, expected.place, &*own));
            match unknown {
                Err(line) => assert_eq!(said, answer(Err(line))),
                Ok((unknown, tiles)) => {
                    let inner: u64 = tiles.iter().map(|(_, tile)| inside(&corner(), &grid, tile)).sum();
                    assert_eq!(said, done(inner + 11 * unknown as u64));
                    for byte in tiles.iter().flat_map(|(_, tile)| tile.bytes(&grid)) {
                        assert_eq!(picture[byte], full[byte]);
                    }
                }
            }
            parts[(said.number == 0) as usize] += 1;
        }
        assert!(parts[0] > 5 && parts[1] > 5);
    }

    /// A tile's part of the walk's sum, without the region of side 64.
    fn inside(tape: &Tape, grid: &Grid, tile: &Region) -> u64 {
        let mut walk = Walk::new(tape, grid, false);
        walk.visit_tile(tape, tile);
        walk.count - tape.clauses.len() as u64
    }

    /// Line 24: the length and the first bytes.
    #[test]
    fn not_the_callers_table() {
        let shared = || Shared::begun(&disc(), plain(100, 70, 0));
        let damaged = |damage: &dyn Fn(&mut Shared)| {
            let mut shared = shared();
            damage(&mut shared);
            shared.answer(rectangle(0, 0, 1, 1)).number
        };
        assert_eq!(damaged(&|_| ()), 0);
        for len in [0, HEAD, TABLE - 1, TABLE + 1] {
            assert_eq!(damaged(&|shared| shared.table.resize(len, 0)), 24);
        }
        for at in [0, 7, 8, 127, 128, 129, 40_000, 65_535, 65_536, 65_538, 65_542, 65_543, 65_564, 65_567] {
            assert_eq!(damaged(&|shared| shared.table[at] ^= 1), 24, "{at}");
        }
        assert_eq!(damaged(&|shared| shared.grid.origins[2] = 1), 24);
        assert_eq!(damaged(&|shared| shared.grid.steps[0] += 1), 24);
        assert_eq!(damaged(&|shared| shared.tape = constants(1, 1, 0).to_bytes()), 24);
        // depth and third step are not read
        assert_eq!(damaged(&|shared| shared.grid.sizes[2] = u32::MAX), 0);
        assert_eq!(damaged(&|shared| shared.grid.steps[2] = i32::MIN), 0);
    }

    /// Line 24: the entries, also those of tiles that are not asked for or not there.
    #[test]
    fn wrong_entries() {
        let number = |entry: usize, bytes: &[u8]| {
            let mut shared = Shared::begun(&corner(), plain(100, 70, 0));
            shared.entry(entry)[..bytes.len()].copy_from_slice(bytes);
            shared.answer(rectangle(0, 0, 1, 1)).number
        };
        // x, 2, x − 2, y, 2, y − 2, minimum, x, 150, x − 150, maximum
        let whole = [3, 0x55, 0x55, 0x15];
        for entry in [0, 1, 3, 4, 63] {
            assert_eq!([4, 5, 128, 255].map(|verdict| number(entry, &[verdict])), [24; 4]);
            assert_eq!(number(entry, &whole), 0);
            // nothing kept
            assert_eq!(number(entry, &[3]), 24);
            // a copy of a subtraction's side, of a constant's, of an axis's
            assert_eq!([0x65, 0x75, 0x5D, 0x56].map(|marks| number(entry, &[3, marks, 0x55, 0x15])), [24; 4]);
            // the minimum as a copy of left, of right, dropped: then the maximum reads what x − 2 left
            assert_eq!([0x65, 0x75, 0x45].map(|marks| number(entry, &[3, 0x55, marks, 0x15])), [0; 3]);
            // the maximum as a copy of left, of right
            assert_eq!([0x25, 0x35].map(|marks| number(entry, &[3, 0x55, 0x55, marks])), [0; 2]);
            // a slot read that was not written: without x, without 2
            assert_eq!([0x54, 0x51].map(|marks| number(entry, &[3, marks, 0x55, 0x15])), [24; 2]);
            // one clause alone, the first, and one that reads
            assert_eq!([0x01, 0x10].map(|marks| number(entry, &[3, marks])), [0, 24]);
            // bits behind the eleventh clause's are not looked at, nor those behind another verdict
            assert_eq!(number(entry, &[3, 0x55, 0x55, 0xD5, 0xFF, 0xFF]), 0);
            let mut noise = [0xFF; ENTRY];
            for verdict in [0, 1, 2] {
                noise[0] = verdict;
                assert_eq!(number(entry, &noise), 0);
            }
            noise[..4].copy_from_slice(&whole);
            assert_eq!(number(entry, &noise), 0);
        }
    }

    /// A minimum or a maximum alone has sides to copy.
    #[test]
    fn copies() {
        for opcode in 0..=14 {
            let sides = [if opcode >= 4 { 1 } else { 0 }, if opcode >= 9 { 1 } else { 0 }];
            let constant = if opcode == 0 { -5 } else { 0 };
            let part = tape(2, &[[1, 1, 0, 0, 0], [1, 0, 0, 0, 0], [opcode, 0, sides[0], sides[1], constant]]);
            let number = |mark: u8| {
                let mut shared = Shared::begun(&part, plain(3, 2, 0));
                shared.entry(9)[..2].copy_from_slice(&[3, mark << 4 | 0x05]);
                shared.answer(rectangle(0, 0, 1, 1)).number
            };
            let copied = if opcode == 12 || opcode == 13 { 0 } else { 24 };
            assert_eq!([0, 1, 2, 3].map(number), [0, 0, copied, copied]);
        }
    }

    /// A table not made by these calls: the picture and the count are fixed by its bytes.
    #[test]
    fn a_table_of_ones_own() {
        let drawn = |entry: &[u8]| {
            let mut shared = Shared::begun(&axis_less(1, 2), plain(3, 2, 0));
            shared.entry(0)[..entry.len()].copy_from_slice(entry);
            let before = shared.table.clone();
            let mut picture = [9; 2];
            let said = shared.draw(rectangle(0, 0, 1, 1), &mut picture);
            assert_eq!(before == shared.table, entry[0] != 0);
            (said, picture)
        };
        assert_eq!(drawn(&[1, 7]), (done(0), [0xE0; 2]));
        assert_eq!(drawn(&[2, 7]), (done(0), [0; 2]));
        // x alone, 2 alone: run over the region of side 8, and stopped there
        assert_eq!(drawn(&[3, 0x01]), (done(1), [0; 2]));
        assert_eq!(drawn(&[3, 0x04]), (done(1), [0; 2]));
        assert_eq!(drawn(&[3, 0x15, 0xFF]), (done(21), [0xC0; 2]));
        // unknown: the whole entry is written
        assert_eq!(drawn(&[0, 7, 7, 7]), (done(24), [0xC0; 2]));
        let mut shared = Shared::begun(&axis_less(1, 2), plain(3, 2, 0));
        shared.entry(0)[1..].fill(0xEE);
        assert_eq!(shared.draw(rectangle(0, 0, 1, 1), &mut [9; 2]), done(24));
        assert_eq!(shared.entry(0)[..2], [3, 0x15]);
        assert!(shared.entry(0)[2..].iter().all(|&byte| byte == 0));
        // x − 2 alone of the corner, where y − 2 counts too
        let mut shared = Shared::begun(&corner(), plain(8, 8, 0));
        shared.entry(0)[..2].copy_from_slice(&[3, 0x15]);
        let mut picture = [9; 8];
        assert_eq!((shared.draw(rectangle(0, 0, 1, 1), &mut picture), picture), (done(3 + 64 * 3), [0xC0; 8]));
    }

    /// Line 10 for the rectangle.
    #[test]
    fn rectangles() {
        let number = |column, row, columns, rows| {
            Shared::begun(&disc(), plain(100, 70, 0)).answer(rectangle(column, row, columns, rows)).number
        };
        assert_eq!([number(0, 0, 2, 2), number(1, 1, 1, 1), number(0, 1, 2, 1)], [0; 3]);
        assert_eq!([number(0, 0, 0, 1), number(0, 0, 1, 0), number(2, 2, 0, 0), number(9, 0, 0, 1)], [10; 4]);
        assert_eq!([number(0, 0, 3, 1), number(0, 0, 1, 3), number(2, 0, 1, 1), number(0, 2, 1, 1)], [10; 4]);
        assert_eq!([number(1, 0, 2, 1), number(0, 1, 1, 2)], [10; 2]);
        // sums that leave 32 bits
        let most = u32::MAX;
        assert_eq!([number(most, 0, 2, 1), number(0, most, 1, 2), number(1, 1, most, most)], [10; 3]);
        assert_eq!([number(most, most, 1, 1), number(most, 0, most, 1), number(2, 0, most - 1, 1)], [10; 3]);
    }

    /// Each line of a beginning alone and with those behind it.
    #[test]
    fn the_order_of_a_beginning() {
        let (good, grid) = (disc().to_bytes(), plain(100, 70, 0));
        let still = Grid { steps: [0; 3], ..grid };
        let wide = Grid { sizes: [100, 513, 0], ..still };
        for len in [0, TABLE - 1, TABLE, TABLE + 1] {
            let begin = |tape: &[u8], grid: &Grid| {
                let mut table = vec![9; len];
                let said = table_begin(tape, grid, &mut table);
                assert!(said.number == 0 || table == vec![9; len]);
                said
            };
            for (bad, said) in refused_tapes() {
                assert_eq!([grid, still, wide].map(|grid| begin(&bad, &grid)), [said; 3]);
            }
            assert_eq!([begin(&good, &wide), begin(&good, &still)], [refused(10, 0), refused(11, 0)]);
            assert_eq!(begin(&good, &grid), if len == TABLE { done(0) } else { refused(24, 0) });
        }
    }

    /// Each line of a drawing alone and with those behind it.
    #[test]
    fn the_order_of_a_drawing() {
        let grid = plain(100, 70, 0);
        let still = Grid { steps: [0; 3], ..grid };
        let wide = Grid { sizes: [513, u32::MAX, 0], ..still };
        let pixels = grid.picture_len(false);
        let (inside, outside) = (rectangle(0, 0, 1, 1), rectangle(2, 0, 1, 1));
        let said = |tape: &[u8], grid: Grid, asked, table: usize, picture: usize, work: usize| {
            let mut shared = Shared::begun(&disc(), plain(100, 70, 0));
            shared.table.resize(table, 0);
            (shared.tape, shared.grid) = (tape.to_vec(), grid);
            shared.draw_with(asked, &mut vec![9; picture], work)
        };
        let good = disc().to_bytes();
        let lengths = [(TABLE, pixels, WORK), (TABLE - 1, pixels, WORK), (TABLE, pixels + 1, WORK), (0, 0, 0)];
        for (table, picture, work) in lengths {
            for asked in [inside, outside] {
                for (bad, answer) in refused_tapes() {
                    assert_eq!(said(&bad, still, asked, table, picture, work), answer);
                }
                assert_eq!(said(&good, wide, asked, table, picture, work), refused(10, 0));
            }
            assert_eq!(said(&good, grid, outside, table, picture, work), refused(10, 0));
            assert_eq!(said(&good, still, outside, table, picture, work), refused(10, 0));
            assert_eq!(said(&good, still, inside, table, picture, work), refused(11, 0));
            // of another tape, or of the wrong length
            let other = axis_less(1, 2).to_bytes();
            assert_eq!(said(&other, grid, inside, table, picture, work), refused(24, 0));
        }
        for (picture, work) in [(pixels, WORK), (pixels - 1, WORK), (pixels, WORK - 1), (0, 0)] {
            assert_eq!(said(&good, grid, inside, TABLE + 1, picture, work), refused(24, 0));
        }
        assert_eq!(said(&good, grid, inside, TABLE, pixels - 1, WORK), refused(12, 0));
        assert_eq!(said(&good, grid, inside, TABLE, pixels + 1, WORK - 1), refused(12, 0));
        assert_eq!(said(&good, grid, inside, TABLE, pixels, WORK - 1), refused(13, 0));
        assert_eq!(said(&good, grid, inside, TABLE, pixels, WORK + 1), done(10_764));
    }

    /// 64 tiles, and the largest tape: its marks take every byte of an entry.
    #[test]
    fn extremes() {
        let grid = plain(512, 512, 0);
        let mut shared = Shared::begun(&less_axis(66, 1), grid);
        let mut picture = vec![9; 64 * 512];
        let all = rectangle(0, 0, 8, 8);
        let first = shared.draw(all, &mut picture);
        assert_eq!(picture, draw::bits(&grid, &draw::heights(&less_axis(66, 1), &grid, false)));
        assert_eq!(shared.verdicts(), [2, 3, 1, 1, 1, 1, 1, 1].repeat(8));
        assert_eq!(shared.draw(all, &mut picture), done(first.count - 3 * 64));
        assert_eq!(shared.draw(rectangle(7, 7, 1, 1), &mut picture), done(0));
        // x − 2 by way of 6,141 minima of x and itself
        let mut list = vec![[1, 0, 0, 0, 0], [0, 1, 0, 0, 2 * ONE]];
        list.extend([[12, 0, 0, 0, 0]; 6_141]);
        list.push([10, 0, 0, 1, 0]);
        let mut great = Shared::begun(&tape(128, &list), plain(3, 2, 0));
        let mut picture = [9; 2];
        assert_eq!(great.draw(rectangle(0, 0, 1, 1), &mut picture), done(8 * 6_144));
        assert_eq!((picture, great.entry(0)), ([0xC0; 2], &mut [[3].as_slice(), &[0x55; 1_536]].concat()[..]));
        assert_eq!(great.draw(rectangle(0, 0, 1, 1), &mut picture), done(7 * 6_144));
    }

    #[test]
    fn faults_show() {
        let cases = || {
            let grid = plain(70, 130, 0);
            let part = merged(&axis_less(2, 70), &axis_less(2, 70)).expect("a small tape");
            let mut shared = Shared { tape: part.to_bytes(), grid, table: vec![9; TABLE] };
            table_begin(&shared.tape, &grid, &mut shared.table);
            let mut pictures = [0, 1].map(|_| vec![9; grid.picture_len(false)]);
            let mut said = pictures.each_mut().map(|picture| shared.draw(rectangle(0, 0, 2, 3), picture)).to_vec();
            let still = Shared { grid: Grid { steps: [0; 3], ..grid }, tape: shared.tape.clone(), table: vec![9] };
            said.push(still.answer(rectangle(0, 0, 0, 0)));
            let sum = tape(1, &[[1, 0, 0, 0, 0], [9, 0, 0, 0, 0]]);
            let mut copied = Shared { tape: sum.to_bytes(), ..shared };
            table_begin(&copied.tape, &grid, &mut copied.table);
            copied.entry(20)[..2].copy_from_slice(&[3, 0x09]);
            said.push(copied.answer(rectangle(0, 0, 1, 1)));
            (said, pictures, copied.table)
        };
        let right = cases();
        assert!(Fault::ALL.iter().all(|&f| fault::with(f, cases) != right));
    }
}
