//! Input of the calls that share a table of verdicts.

use crate::compare::both;
use crate::drawing::Drawing;
use crate::random::Random;
use layers::raw;
use slow::call::Answer;
use slow::table::{ENTRY, HEAD, Rectangle, TABLE, TILES, table_begin, table_draw};

/// A drawing, of which a rectangle of the flat picture is drawn, and the table.
#[derive(Clone)]
pub struct Turn {
    pub drawing: Drawing,
    pub rectangle: Rectangle,
    pub table: Vec<u8>,
}

/// What is lent: table, picture, work.
pub type Lent = (Vec<u8>, Vec<u8>, Vec<u8>);

/// A rectangle of the drawing's tiles.
pub fn rectangle(r: &mut Random, drawing: &Drawing) -> Rectangle {
    let mut along = |axis: usize| {
        let tiles = drawing.grid.sizes[axis].div_ceil(64) as u64;
        let first = r.below(tiles);
        (first as u32, 1 + r.below(tiles - first) as u32)
    };
    let ((column, columns), (row, rows)) = (along(0), along(1));
    Rectangle { column, row, columns, rows }
}

/// A table begun for the drawing.
fn begun(drawing: &Drawing) -> Vec<u8> {
    let mut table = vec![0; TABLE];
    assert_eq!(table_begin(&drawing.tape, &drawing.grid, &mut table).number, 0);
    table
}

impl Turn {
    /// A turn from a table begun, often after turns of others.
    pub fn random(r: &mut Random) -> Self {
        let drawing = Drawing::flat(r, 8_000);
        let mut turn = Turn { rectangle: rectangle(r, &drawing), table: begun(&drawing), drawing };
        for _ in 0..r.below(3) {
            let other = Turn { rectangle: rectangle(r, &turn.drawing), ..turn.clone() };
            let mut lent = (turn.table, vec![0; turn.drawing.flat], vec![0; turn.drawing.work]);
            other.slow(&mut lent);
            turn.table = lent.0;
        }
        turn
    }

    /// From a table of which some entries were not made by these calls.
    pub fn foreign(r: &mut Random) -> Self {
        let mut turn = Turn::random(r);
        let opcodes = opcodes(&turn.drawing);
        for number in 0..TILES {
            // those of the picture's own tiles come first
            if r.one_in(if number < 6 { 2 } else { 40 }) {
                let entry = &mut turn.table[HEAD + ENTRY * number..HEAD + ENTRY * (number + 1)];
                entry.copy_from_slice(&r.bytes(ENTRY));
                entry[0] = r.below(4) as u8;
                keep(r, &opcodes, &mut entry[1..]);
            }
        }
        turn
    }

    /// From a table that is noise behind its head; of its verdicts some may be above 3.
    pub fn noisy(r: &mut Random) -> Self {
        let mut turn = Turn::random(r);
        let noise = r.bytes(TABLE - HEAD);
        turn.table[HEAD..].copy_from_slice(&noise);
        let most = if r.one_in(20) { 5 } else { 4 };
        for number in 0..TILES {
            // marks of noise keep a tape that is turned down, unless it is short
            let verdict = if r.one_in(50) { r.below(most) } else { r.below(3) };
            turn.table[HEAD + ENTRY * number] = verdict as u8;
        }
        turn
    }

    /// With something damaged: the table, the rectangle, the tape, the grid, a length.
    pub fn damaged(r: &mut Random) -> Self {
        let mut turn = if r.one_in(2) { Turn::foreign(r) } else { Turn::random(r) };
        for _ in 0..1 + r.below(2) {
            match r.below(8) {
                0 => turn.table.resize(r.pick(&[0, HEAD, TABLE - 1, TABLE + 1]), 0),
                1..=3 => turn.damage_table(r),
                4 | 5 => turn.damage_rectangle(r),
                _ => turn.drawing.damage(r),
            }
        }
        turn
    }

    fn damage_table(&mut self, r: &mut Random) {
        if self.table.len() != TABLE {
            return;
        }
        let entry = HEAD + ENTRY * r.index(TILES);
        let opcodes = opcodes(&self.drawing);
        match r.below(8) {
            0 => self.table[r.pick(&[0, 5, 9, 60_000, 65_535, 65_536, 65_540, 65_542, 65_560, 65_564])] ^= 1,
            1 => self.table[r.index(HEAD)] ^= 1 << r.index(8),
            2 => self.table[entry] = r.pick(&[4, 5, 255]),
            // nothing kept, or anything
            3 => {
                self.table[entry] = 3;
                self.table[entry + 1..entry + ENTRY].fill(0);
            }
            4 => self.table[entry] = 3,
            // a copy of any clause's side
            5 | 6 if !opcodes.is_empty() => {
                self.table[entry] = 3;
                keep(r, &opcodes, &mut self.table[entry + 1..entry + ENTRY]);
                let any = r.index(opcodes.len());
                set_mark(&mut self.table[entry + 1..], any, r.pick(&[2, 3]));
            }
            _ => {
                let noise = r.bytes(ENTRY - 1);
                self.table[entry] = 3;
                self.table[entry + 1..entry + ENTRY].copy_from_slice(&noise);
            }
        }
    }

    pub fn damage_rectangle(&mut self, r: &mut Random) {
        let Rectangle { column, row, columns, rows } = &mut self.rectangle;
        match r.below(6) {
            0 => *columns = 0,
            1 => *rows = 0,
            2 => *columns = r.pick(&[4, 9, u32::MAX]),
            3 => *rows = r.pick(&[4, 9, u32::MAX]),
            4 => *column = r.pick(&[3, 8, u32::MAX]),
            _ => *row = r.pick(&[3, 8, u32::MAX]),
        }
    }

    /// The slow call.
    pub fn slow(&self, (table, picture, work): &mut Lent) -> Answer {
        table_draw(&self.drawing.tape, &self.drawing.grid, self.rectangle, table, picture, work)
    }

    pub fn core_rectangle(&self) -> raw::Rectangle {
        let Rectangle { column, row, columns, rows } = self.rectangle;
        raw::Rectangle { column, row, columns, rows }
    }

    /// Both calls' answer, or how they differ in it or in a buffer; picture and work are full of noise before.
    pub fn compare(
        &self,
        noise: &mut Random,
        core: impl FnOnce(&Turn, &mut Lent) -> raw::Answer,
    ) -> Result<Answer, String> {
        let lent = (self.table.clone(), noise.bytes(self.drawing.flat), noise.bytes(self.drawing.work));
        self.compare_on(&lent, core)
    }

    /// The same on what is lent.
    pub fn compare_on(
        &self,
        lent: &Lent,
        core: impl FnOnce(&Turn, &mut Lent) -> raw::Answer,
    ) -> Result<Answer, String> {
        both("table_draw", lent, |l| core(self, l), |l| self.slow(l)).map_err(|e| {
            let entries = lent.0.get(HEAD..).unwrap_or(&[]).chunks(ENTRY).map(|e| &e[..e.len().min(9)]);
            format!("{e}: {:?}, {:?}, entries {:x?}", self.drawing, self.rectangle, entries.collect::<Vec<_>>())
        })
    }

    /// The same of the call that begins a table, on one that has as many bytes as this turn's.
    pub fn compare_begin(
        &self,
        noise: &mut Random,
        core: impl FnOnce(&[u8], raw::Grid, &mut [u8]) -> raw::Answer,
    ) -> Result<Answer, String> {
        let Drawing { tape, grid, .. } = &self.drawing;
        let core_grid = self.drawing.core_grid();
        let lent = noise.bytes(self.table.len());
        both("table_begin", &lent, |t| core(tape, core_grid, t), |t| table_begin(tape, grid, t))
            .map_err(|e| format!("{e}: {:?}", self.drawing))
    }
}

/// Marks of a tape that is accepted as a list: the first clauses, whole but for some minima and maxima that are copies.
/// Bits behind them are left.
fn keep(r: &mut Random, opcodes: &[u8], marks: &mut [u8]) {
    let kept = 1 + r.index(opcodes.len());
    for (i, opcode) in opcodes.iter().enumerate() {
        let mark = match opcode {
            _ if i >= kept => 0,
            12 | 13 => r.pick(&[1, 2, 3]),
            _ => 1,
        };
        set_mark(marks, i, mark);
    }
}

fn set_mark(marks: &mut [u8], clause: usize, mark: u8) {
    let at = 2 * (clause % 4);
    marks[clause / 4] = marks[clause / 4] & !(3 << at) | mark << at;
}

/// The opcodes of the drawing's tape, as far as it has bytes and a table places for them.
fn opcodes(drawing: &Drawing) -> Vec<u8> {
    drawing.tape.get(8..).unwrap_or(&[]).chunks_exact(10).map(|clause| clause[2]).take(4 * (ENTRY - 1)).collect()
}
