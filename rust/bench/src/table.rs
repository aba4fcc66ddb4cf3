//! What a table of verdicts costs a call, and when those who share one have less to do than by themselves.

use bench::measure::{Times, in_turn};
use layers::{Clause, Grid, MAX_CLAUSES, MAX_SLOTS, Tape, raw};
use parts::Part;

/// Calls in one task where a call takes microseconds.
const MANY: u64 = 20;

pub fn table(runs: usize) {
    println!("Least of {runs} or more runs, all of a row in turn.\n");
    println!("A call for one tile of 512² that is known to be empty: what it takes to check tape and table.\n");
    println!("| tape | clauses | begun ms | known, others unknown ms | known, others cut ms |");
    println!("|---|--:|--:|--:|--:|");
    for (name, tape) in [("smallest", nowhere(1)), ("1,024 clauses", nowhere(1_024)), ("largest", nowhere(MAX_CLAUSES))]
    {
        cost_row(name, &tape, runs);
    }
    println!(
        "\nA whole picture: by itself, as the first with a table begun for it, and as the second, where all is known.\n"
    );
    println!("| part | clauses | drawing | by itself ms | first ms | second ms | both / two by themselves |");
    println!("|---|--:|---|--:|--:|--:|--:|");
    for part in parts::designed() {
        [64, 128, 256, 512].into_iter().for_each(|size| shared_row(&part, size, runs));
    }
}

/// A constant above 0, so many times.
fn nowhere(clauses: usize) -> Tape {
    let slots = if clauses > layers::FIRST_EDITION_CLAUSES { MAX_SLOTS } else { 1 };
    Tape::from_clauses(slots, &vec![Clause::constant(0, 1); clauses]).expect("an accepted tape")
}

const WHOLE: Grid = Grid::flat(512, 512);

/// The length of a table's head and of an entry: the tape with zeros behind it, the grid's record; a verdict and marks.
const HEAD: usize = 65_568;
const ENTRY: usize = 1_537;

/// The times of a beginning, and of a drawing where one tile is known to be empty and the other 63 are not known, or cut
/// with whole tapes.
fn cost_row(name: &str, tape: &Tape, runs: usize) {
    let (bytes, mut begun) = (tape.as_bytes(), vec![0; raw::TABLE]);
    assert_eq!(raw::table_begin(bytes, WHOLE, &mut begun).number, 0);
    begun[HEAD] = 2;
    let (mut unknown, mut cut) = (begun.clone(), begun.clone());
    for entry in cut[HEAD + ENTRY..].chunks_mut(ENTRY) {
        entry.fill(0x55);
        entry[0] = 3;
    }
    let mut begin = || (0..MANY).map(|_| u64::from(raw::table_begin(bytes, WHOLE, &mut begun).number)).sum();
    let (mut ours, mut theirs) = (Turns::new(tape, WHOLE), Turns::new(tape, WHOLE));
    let [begin, unknown, cut] =
        in_turn(runs, [&mut begin, &mut || ours.one_tile(&mut unknown), &mut || theirs.one_tile(&mut cut)]);
    let one = |times: Times| times.least() / MANY as f64;
    println!("| {name} | {} | {:.4} | {:.4} | {:.4} |", tape.clause_count(), one(begin), one(unknown), one(cut));
}

/// One who draws: the part, the grid, a picture and room to work in.
struct Turns<'a> {
    tape: &'a [u8],
    grid: Grid,
    picture: Vec<u8>,
    work: Vec<u8>,
}

impl<'a> Turns<'a> {
    fn new(tape: &'a Tape, grid: Grid) -> Turns<'a> {
        let bytes = grid.width.div_ceil(8) as usize * grid.height as usize;
        Turns { tape: tape.as_bytes(), grid, picture: vec![0xA5; bytes], work: vec![0; raw::WORK] }
    }

    fn draw(&mut self, rectangle: layers::Rectangle, table: &mut [u8]) -> u64 {
        let said = raw::table_draw(self.tape, self.grid, rectangle, table, &mut self.picture, &mut self.work);
        said.into_result().expect("a good table")
    }

    fn one_tile(&mut self, table: &mut [u8]) -> u64 {
        (0..MANY).map(|_| self.draw(layers::Rectangle::tile(0, 0), table)).sum()
    }

    fn whole(&mut self, table: &mut [u8]) -> u64 {
        self.draw(layers::Rectangle::whole(self.grid), table)
    }

    fn first(&mut self, table: &mut [u8]) -> u64 {
        assert_eq!(raw::table_begin(self.tape, self.grid, table).number, 0);
        self.whole(table)
    }

    fn alone(&mut self) -> u64 {
        let said = raw::tile_flat(self.tape, self.grid, &mut self.picture, &mut self.work);
        said.into_result().expect("an accepted part")
    }
}

/// The part's layer in so many pixels along each axis.
fn layer(part: &Part, size: u32) -> Grid {
    let step = |step: i32, pixels: u32| (i64::from(step) * i64::from(pixels) / i64::from(size)) as i32;
    let Grid { width, height, xstep, ystep, .. } = part.flat;
    Grid { width: size, height: size, xstep: step(xstep, width), ystep: step(ystep, height), ..part.flat }
}

fn shared_row(part: &Part, size: u32, runs: usize) {
    let grid = layer(part, size);
    let [mut a, mut b, mut c] = [0; 3].map(|_| Turns::new(&part.tape, grid));
    let [mut table, mut known] = [0; 2].map(|_| vec![0; raw::TABLE]);
    let counts = [a.alone(), b.first(&mut table), c.first(&mut known)];
    assert!(counts == [counts[0]; 3] && a.picture == b.picture, "the picture of {}", part.name);
    let tiles = u64::from(size.div_ceil(64)).pow(2);
    assert_eq!(c.whole(&mut known), counts[0] - tiles * part.clauses() as u64, "the count of {}", part.name);
    let [alone, first, second] =
        in_turn(runs, [&mut || a.alone(), &mut || b.first(&mut table), &mut || c.whole(&mut known)]);
    let both = (first.over(&alone) + second.over(&alone)) / 2.0;
    let (name, clauses, [alone, first, second]) =
        (part.name, part.clauses(), [alone, first, second].map(|t| t.least()));
    println!("| {name} | {clauses} | {size}² | {alone:.3} | {first:.3} | {second:.3} | {both:.2} |");
}
