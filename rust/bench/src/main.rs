//! `bench` prints a table of times: the core's tiles beside the plain walk and the full drawing.
//! `bench tiles|plain|full flat|solid NAME` draws one part once, for a profiler, and `bench tiles|plain sloped NAME` a
//! solid with its slopes.
//! `bench slopes` prints a table of times of solids with slopes beside those without.
//! `bench lengths` prints a table of the lengths of short tapes.
//! `bench plate` prints the times of a part that comes and goes on a plate beside those of all parts drawn afresh.
//! `bench swept` prints a table of times of parts along a path beside the full evaluation at all positions.
//! `bench table` prints what a table of verdicts costs a call, and from which picture on sharing one pays.

mod plate;
mod swept;
mod table;

use bench::drawing::{Canvas, Kind, Way};
use bench::measure::{Times, in_turn};
use bench::plain::short_lengths;
use layers::Grid;
use parts::Part;

fn main() {
    let words: Vec<String> = std::env::args().skip(1).collect();
    match words.iter().map(String::as_str).collect::<Vec<_>>()[..] {
        [] => drawings(),
        ["slopes"] => slopes(),
        ["lengths"] => lengths(),
        ["plate"] => plate::table(runs()),
        ["swept"] => swept::table(runs()),
        ["table"] => table::table(runs()),
        [way, kind, name] => once(way, kind, name),
        _ => panic!(
            "usage: bench [slopes | lengths | plate | swept | table | tiles|plain|full flat|solid NAME | tiles|plain sloped NAME]"
        ),
    }
}

fn once(way: &str, kind: &str, name: &str) {
    let way = match way {
        "tiles" => Way::Tiles,
        "plain" => Way::Plain,
        "full" => Way::Full,
        other => panic!("no way to draw is named {other}"),
    };
    let part = parts::all().into_iter().find(|part| part.name == name).expect("a part's name");
    let count = match kind {
        "flat" => Canvas::new(Kind::Flat, part.flat).draw(way, &part.tape),
        "solid" => Canvas::new(Kind::Solid, part.solid).draw(way, &part.tape),
        "sloped" => Canvas::new(Kind::Solid, part.solid).draw_slopes(way, &part.tape),
        other => panic!("no kind is named {other}"),
    };
    println!("{count}");
}

fn runs() -> usize {
    std::env::var("BENCH_RUNS").map_or(9, |text| text.parse().expect("BENCH_RUNS is a number"))
}

fn drawings() {
    let runs = runs();
    println!(
        "Least of {runs} or more runs, tiles and plain in turn; 'in turn' is the median of the ratios in each turn."
    );
    println!("The full drawing is left out at 512³, where it has 134 million samples to run.\n");
    println!(
        "| part | clauses | drawing | tiles ms | plain ms | tiles / plain | in turn | full ms | full / tiles | counted clauses | tiles ns a clause | plain ns a clause |"
    );
    println!("|---|--:|---|--:|--:|--:|--:|--:|--:|--:|--:|--:|");
    for part in parts::designed() {
        row(&part, "512²", Kind::Flat, part.flat, runs, true);
        row(&part, "128³", Kind::Solid, part.solid, runs, true);
        row(&part, "512³", Kind::Solid, part.solid_at(512), runs, false);
    }
}

fn row(part: &Part, size: &str, kind: Kind, grid: Grid, runs: usize, in_full: bool) {
    let mut canvas = Canvas::new(kind, grid);
    let count = checked(part, &canvas, in_full);
    let mut beside = canvas.clone();
    let [tiles, plain] =
        in_turn(runs, [&mut || canvas.draw(Way::Tiles, &part.tape), &mut || beside.draw(Way::Plain, &part.tape)]);
    let full = in_full.then(|| in_turn(1, [&mut || canvas.draw(Way::Full, &part.tape)])[0].least());
    print_row(part, size, [tiles, plain], full, count);
}

/// Draws by each way, and compares. Returns the count of the walk.
fn checked(part: &Part, canvas: &Canvas, in_full: bool) -> u64 {
    let (mut tiles, mut plain, mut full) = (canvas.clone(), canvas.clone(), canvas.clone());
    let count = tiles.draw(Way::Tiles, &part.tape);
    assert_eq!(count, plain.draw(Way::Plain, &part.tape), "the counts of {}", part.name);
    assert!(tiles.same_picture(&plain), "the pictures of {}", part.name);
    if in_full {
        full.draw(Way::Full, &part.tape);
        assert!(tiles.same_picture(&full), "the full drawing of {}", part.name);
    }
    count
}

fn print_row(part: &Part, size: &str, [tiles, plain]: [Times; 2], full: Option<f64>, count: u64) {
    let (tiles_ms, plain_ms) = (tiles.least(), plain.least());
    let full_times = full.map_or("| |".into(), |full| format!("{full:.1} | {:.1} |", full / tiles_ms));
    let per_clause = |ms: f64| ms * 1e6 / count as f64;
    println!(
        "| {} | {} | {size} | {tiles_ms:.2} | {plain_ms:.2} | {:.2} | {:.2} | {full_times} {count} | {:.2} | {:.2} |",
        part.name,
        part.clauses(),
        tiles_ms / plain_ms,
        tiles.over(&plain),
        per_clause(tiles_ms),
        per_clause(plain_ms),
    );
}

/// What slopes add to the drawing of a solid, in the core and in the plain walk.
fn slopes() {
    println!("128³, least of {} or more runs, all four in turn; ratios are medians of those in each turn.\n", runs());
    println!(
        "| part | clauses | tiles ms | with slopes ms | with / without | plain ms | with slopes ms | with / without | tiles / plain, with slopes |"
    );
    println!("|---|--:|--:|--:|--:|--:|--:|--:|--:|");
    parts::designed().iter().for_each(slopes_row);
}

fn slopes_row(part: &Part) {
    let tape = &part.tape;
    let [mut a, mut b, mut c, mut d] = [0; 4].map(|_| Canvas::new(Kind::Solid, part.solid));
    let counts = [b.draw_slopes(Way::Tiles, tape), d.draw_slopes(Way::Plain, tape), a.draw(Way::Tiles, tape)];
    assert!(counts == [counts[0]; 3] && b.same_picture(&d), "the slopes of {}", part.name);
    let [tiles, sloped, plain, plain_sloped] = in_turn(
        runs(),
        [
            &mut || a.draw(Way::Tiles, tape),
            &mut || b.draw_slopes(Way::Tiles, tape),
            &mut || c.draw(Way::Plain, tape),
            &mut || d.draw_slopes(Way::Plain, tape),
        ],
    );
    println!(
        "| {} | {} | {:.2} | {:.2} | {:.2} | {:.2} | {:.2} | {:.2} | {:.2} |",
        part.name,
        part.clauses(),
        tiles.least(),
        sloped.least(),
        sloped.over(&tiles),
        plain.least(),
        plain_sloped.least(),
        plain_sloped.over(&plain),
        sloped.over(&plain_sloped),
    );
}

/// The short tapes of the regions that are cut, by the plain walk, whose count is the core's: in the part's layer, and
/// in the same layer of twice as many pixels on each axis, drawn as four.
fn lengths() {
    println!(
        "| part | clauses | slots | pixels | 64-tiles cut | mean short tape | shorter | 8-tiles cut | mean | shorter |"
    );
    println!("|---|--:|--:|---|--:|--:|--:|--:|--:|--:|");
    for part in parts::designed() {
        print_lengths(&part, "512²", &[part.flat]);
        print_lengths(&part, "1024²", &quarters(part.flat));
    }
}

fn print_lengths(part: &Part, size: &str, grids: &[Grid]) {
    let mut all = [Vec::new(), Vec::new()];
    for grid in grids {
        let lengths = short_lengths(part.tape.as_bytes(), *grid);
        all.iter_mut().zip(lengths).for_each(|(all, lengths)| all.extend(lengths));
    }
    let columns = all.map(|lengths| {
        let mean = lengths.iter().sum::<usize>() as f64 / lengths.len() as f64;
        format!("{} | {mean:.1} | {:.1}", lengths.len(), part.clauses() as f64 / mean)
    });
    let (slots, columns) = (part.tape.slots(), columns.join(" | "));
    println!("| {} | {} | {slots} | {size} | {columns} |", part.name, part.clauses());
}

/// The four quarters of a layer, each on as many pixels as the whole had.
fn quarters(grid: Grid) -> [Grid; 4] {
    let (xstep, ystep) = (grid.xstep / 2, grid.ystep / 2);
    [(0, 0), (1, 0), (0, 1), (1, 1)].map(|(right, down)| Grid {
        xorigin: grid.xorigin + right * xstep * grid.width as i32,
        yorigin: grid.yorigin + down * ystep * grid.height as i32,
        xstep,
        ystep,
        ..grid
    })
}
