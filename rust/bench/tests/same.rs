//! The plain walk draws the core's picture with the core's count, also on grids whose edges cut regions off.

use bench::drawing::{Canvas, Kind, Way, resized};
use bench::plain::short_lengths;
use layers::Grid;
use parts::Part;

fn same(part: &Part, kind: Kind, grid: Grid) {
    let mut tiles = Canvas::new(kind, grid);
    let mut plain = tiles.clone();
    let counts = [tiles.draw(Way::Tiles, &part.tape), plain.draw(Way::Plain, &part.tape)];
    assert_eq!(counts[0], counts[1], "the counts of {} on {grid:?}", part.name);
    assert!(tiles.same_picture(&plain), "the pictures of {} on {grid:?}", part.name);
    if kind == Kind::Solid {
        let sloped = [tiles.draw_slopes(Way::Tiles, &part.tape), plain.draw_slopes(Way::Plain, &part.tape)];
        assert_eq!(sloped, counts, "the counts of {} with slopes on {grid:?}", part.name);
        assert!(tiles.same_picture(&plain), "the slopes of {} on {grid:?}", part.name);
    }
}

#[test]
fn on_every_part() {
    // whole regions, and those that an edge cuts off by every number of rows, columns and layers
    let sizes = [[1, 1, 1], [7, 9, 3], [64, 64, 64], [65, 63, 17], [66, 67, 5], [100, 70, 130], [129, 8, 66]];
    for part in parts::all() {
        for sizes in sizes {
            same(&part, Kind::Flat, resized(part.flat, sizes));
            same(&part, Kind::Solid, resized(part.solid, sizes));
        }
    }
}

/// What the walk runs, by the lengths of its short tapes: each tile has the whole tape, each 8-tile its tile's short
/// tape, each sample its 8-tile's. The grid has whole tiles.
#[test]
fn short_lengths_sum_up_to_the_count() {
    for part in parts::all() {
        let [tiles, eights] = short_lengths(part.tape.as_bytes(), part.flat).map(|all| all.iter().sum::<usize>());
        let count = 64 * part.clauses() + 64 * tiles + 64 * eights;
        assert_eq!(Canvas::new(Kind::Flat, part.flat).draw(Way::Tiles, &part.tape), count as u64, "{}", part.name);
    }
}
