//! Parts that move along a path, beside the full evaluation at all positions by the same core.

use bench::measure::in_turn;
use layers::{Grid, Tape, fixed, raw};
use parts::Part;

const POSITIONS: usize = 1_000;

/// How many of the positions are evaluated in full, for the time of one.
const SOME: usize = 10;

/// Over the whole picture, there in a wave and back along its lower half.
fn path(grid: Grid) -> Vec<[i32; 2]> {
    let extent = [(grid.width, grid.xstep), (grid.height, grid.ystep)].map(|(n, step)| n as f64 * f64::from(step));
    let at = |t: f64| {
        let x = if t < 0.5 { 2.0 * t - 0.5 } else { 1.5 - 2.0 * t };
        let y = if t < 0.5 { 0.1 * (25.0 * t).sin() - 0.2 } else { 0.2 };
        [x * extent[0], y * extent[1]].map(|offset| offset as i32)
    };
    (0..POSITIONS).map(|k| at(k as f64 / (POSITIONS - 1) as f64)).collect()
}

/// The grid on which a part that is not moved has the samples of one that is.
fn moved(grid: Grid, [x, y]: [i32; 2]) -> Grid {
    grid.origin(grid.xorigin - x, grid.yorigin - y, grid.zorigin)
}

/// The blade of the example, and three of the parts as blades.
pub fn table(runs: usize) {
    println!(
        "512² and 1,000 positions, least of {runs} or more runs; full is {SOME} of the positions, and 1,000 of them the ratio.\n"
    );
    println!("| part | clauses | swept ms | one position in full ms | 1,000 in full / swept |");
    println!("|---|--:|--:|--:|--:|");
    let blade = Tape::from_text("max(abs(x + y/8) - 3, abs(y) - 32)").expect("a formula");
    let plate =
        Grid::flat(512, 512).origin(fixed(-70.0), fixed(-70.0), 0).step(fixed(140.0 / 512.0), fixed(140.0 / 512.0), 1);
    row("blade", &blade, plate, runs);
    for Part { name, tape, flat, .. } in parts::designed().iter().filter(|part| part.clauses() < 200) {
        row(name, tape, *flat, runs);
    }
}

fn row(name: &str, tape: &Tape, grid: Grid, runs: usize) {
    let (path, bytes) = (path(grid), tape.as_bytes());
    let (mut picture, mut work) = (vec![0; 512 * 512], vec![0; raw::WORK]);
    let mut sweep = || u64::from(raw::tile_swept(bytes, grid, path.as_flattened(), &mut picture, &mut work).number);
    assert_eq!(sweep(), 0, "{name}");
    let mut bits = vec![0; 64 * 512];
    let mut full = || {
        let some = path.iter().step_by(POSITIONS / SOME);
        some.map(|&offsets| u64::from(raw::draw_flat(bytes, moved(grid, offsets), &mut bits).number)).sum()
    };
    assert_eq!(full(), 0, "{name}");
    let [swept, full] = in_turn(runs.min(3), [&mut sweep, &mut full]);
    let one = full.least() / SOME as f64;
    let ratio = one * POSITIONS as f64 / swept.least();
    println!("| {name} | {} | {:.1} | {one:.2} | {ratio:.0} |", tape.clause_count(), swept.least());
}
