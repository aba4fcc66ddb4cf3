//! What is seen in the files.

use crate::decoder::{Decoded, decode};
use preview::shade::{lit, shades};
use preview::view::{slopes_png, view};
use preview::{Bitmap, Fault, Grid, Heights, Picture};

fn layer(width: usize, height: usize) -> Grid {
    Grid { width, height, depth: 0, xstep: 1, ystep: 1, zstep: 0 }
}

fn solid(width: usize, height: usize, depth: usize) -> Grid {
    Grid { depth, zstep: 1, ..layer(width, height) }
}

fn seen(grid: Grid, picture: Picture) -> Decoded {
    decode(&view(&grid, &picture).unwrap()).unwrap()
}

fn seen_heights(grid: Grid, values: Vec<u16>) -> Decoded {
    seen(grid, Picture::Heights(Heights { width: grid.width, height: grid.height, values }))
}

/// Every pixel of a file is the one that it enlarges.
fn enlarges(file: &Decoded, times: usize, pixel: impl Fn(usize, usize) -> u8) {
    for row in 0..file.height {
        for column in 0..file.width {
            assert_eq!(file.pixel(column, row), pixel(column / times, row / times), "at {column}, {row}");
        }
    }
}

#[test]
fn material_is_black_and_odd_widths_are_kept() {
    let rows = vec![0b1010_0111, 0b1110_0000, 0b0000_0001, 0b0100_0000];
    let text = ["#.#..######", ".......#.#."];
    let file = seen(layer(11, 2), Picture::Bitmap(Bitmap { width: 11, height: 2, rows }));
    assert_eq!((file.width, file.height, file.bits), (11 * 35, 2 * 35, 1));
    enlarges(&file, 35, |column, row| u8::from(text[row].as_bytes()[column] == b'.'));
}

#[test]
fn large_pictures_keep_their_size() {
    let rows = vec![0x0F; 64 * 512];
    let file = seen(layer(512, 512), Picture::Bitmap(Bitmap { width: 512, height: 512, rows }));
    assert_eq!((file.width, file.height), (512, 512));
    enlarges(&file, 1, |column, _| u8::from(column % 8 < 4));
}

#[test]
fn a_narrow_picture_is_enlarged_by_its_longer_side() {
    let file = seen_heights(solid(1, 128, 4), vec![0; 128]);
    assert_eq!((file.width, file.height, file.bits), (3, 384, 8));
}

/// Level ground by the formula of the shading: 0.12 + 0.62 · (0.55 + 0.45 · height / depth), in fiftieths, times 5.
#[test]
fn level_ground_is_darker_deep_down() {
    for (height, grey) in [(0, 255), (1, 115), (50, 150), (100, 185)] {
        let file = seen_heights(solid(128, 128, 100), vec![height; 128 * 128]);
        assert_eq!((file.width, file.height, file.bits), (384, 384, 8));
        enlarges(&file, 3, |_, _| grey);
    }
}

/// A ramp over 9 by 9 pixels, its middle 5 high; only the way in which it rises differs.
fn ramp(grid: Grid, height: fn(usize, usize) -> usize) -> u8 {
    let values = (0..81).map(|index| height(index % 9, index / 9) as u16).collect();
    seen_heights(grid, values).pixel(grid.width * 43 / 2, grid.height * 43 / 2)
}

#[test]
fn the_light_is_in_the_upper_left() {
    let grid = solid(9, 9, 10);
    let level = ramp(grid, |_, _| 5);
    let (to_right, to_left) = (ramp(grid, |column, _| 1 + column), ramp(grid, |column, _| 9 - column));
    let (to_bottom, to_top) = (ramp(grid, |_, row| 1 + row), ramp(grid, |_, row| 9 - row));
    assert_eq!([level, to_right, to_left, to_bottom, to_top], [150, 155, 75, 160, 70]);
}

/// The greys of the first 9 by 9 pixels of a picture of more.
fn greys(side: usize, height: fn(usize, usize) -> usize) -> Vec<u8> {
    let values = (0..side * side).map(|index| height(index % side, index / side) as u16).collect();
    let greys = shades(&Heights { width: side, height: side, values }, &solid(side, side, 40));
    greys.chunks(side).take(9).flat_map(|row| row[..9].to_vec()).collect()
}

#[test]
fn a_slope_is_as_steep_at_the_border() {
    let ramps: [fn(usize, usize) -> usize; 3] =
        [|column, _| 40 - 2 * column, |_, row| 1 + 2 * row, |column, row| 20 + column - row];
    for ramp in ramps {
        assert_eq!(greys(9, ramp), greys(17, ramp));
    }
    // one pixel has no neighbour to rise to
    assert_eq!(seen_heights(solid(1, 1, 10), vec![5]).pixel(0, 0), 150);
}

#[test]
fn the_steps_of_the_grid_make_the_slope() {
    let grid = solid(9, 9, 10);
    let away = |grid| ramp(grid, |column, _| 9 - column);
    let down = |grid| ramp(grid, |_, row| 9 - row);
    assert!(away(Grid { zstep: 2, ..grid }) < away(grid));
    assert_eq!(away(Grid { zstep: 2, xstep: 2, ..grid }), away(grid));
    assert_eq!(away(Grid { ystep: 2, ..grid }), away(grid));
    assert_eq!(down(Grid { zstep: 2, ystep: 2, ..grid }), down(grid));
    assert!(down(Grid { ystep: 2, ..grid }) > down(grid));
}

/// The greys of a solid whose pixels all have the same slopes.
fn lit_alike(grid: Grid, values: Vec<u16>, slopes: [i32; 3]) -> Vec<u8> {
    let slopes = slopes.repeat(values.len());
    lit(&Heights { width: grid.width, height: grid.height, values }, &slopes, &grid)
}

/// As by the heights, in shades of 1/250.
#[test]
fn slopes_light_level_ground_alike() {
    for (height, grey) in [(0, 255), (1, 116), (50, 150), (100, 185)] {
        for slopes in [[0, 0, 65_536], [0, 0, 1], [0, 0, i32::MAX], [0; 3]] {
            assert_eq!(lit_alike(solid(3, 2, 100), vec![height; 6], slopes), [grey; 6]);
        }
    }
}

/// By the formula of the shading: 0.12 + 0.62 · 0.775 · facing. Slopes point out of the part.
#[test]
fn slopes_are_lit_from_the_upper_left() {
    let grey = |slopes: [i32; 3]| lit_alike(solid(1, 1, 10), vec![5], slopes)[0];
    let ways = [[-1, 0, 1], [1, 0, 1], [0, -1, 1], [0, 1, 1], [0, 0, -1]];
    assert_eq!(ways.map(grey), [153, 77, 162, 68, 30]);
    for way in ways {
        assert_eq!(grey(way.map(|slope| slope * 40_000)), grey(way));
    }
}

/// The slopes of a side face close by, where a pixel is as high as those around it, and where it stands alone.
#[test]
fn a_side_face_does_not_darken_level_ground() {
    let side = [65_536, 0, 100];
    assert_eq!(lit_alike(solid(3, 3, 10), vec![5; 9], side), [150; 9]);
    assert_eq!(lit_alike(solid(3, 1, 10), vec![5, 4, 3], side), [30; 3]);
    // slopes of 45 degrees are those of the surface
    assert_eq!(lit_alike(solid(3, 3, 10), vec![5; 9], [1, 0, 1]), [77; 9]);
}

/// A pillar's shadow falls to the right and down.
#[test]
fn what_is_higher_casts_a_shadow() {
    let grid = solid(21, 21, 40);
    let mut values = vec![1; 21 * 21];
    values[10 * 21 + 10] = 20;
    let greys = lit_alike(grid, values, [0, 0, 1]);
    let (open, dark) = (greys[0], greys[11 * 21 + 11]);
    assert!(dark < open);
    assert_eq!([9 * 21 + 9, 11 * 21 + 9, 9 * 21 + 11, 20 * 21 + 20].map(|index| greys[index]), [open; 4]);
    // 19 layers less two end after 9 rows: the light is 0.55 rows further up for each layer
    let shaded = greys.iter().filter(|grey| **grey == dark).count();
    assert!((7..=11).contains(&shaded), "{shaded}");
}

#[test]
fn a_lit_solid_is_enlarged() {
    let (heights, grid) = (Heights { width: 2, height: 1, values: vec![0, 10] }, solid(2, 1, 10));
    let file = decode(&slopes_png(&heights, &[0, 0, 0, 0, 0, 7], &grid)).unwrap();
    assert_eq!((file.width, file.height, file.bits), (384, 192, 8));
    enlarges(&file, 192, |column, _| [255, 185][column]);
}

#[test]
fn a_picture_of_another_input_is_seen() {
    let bitmap = || Picture::Bitmap(Bitmap { width: 2, height: 1, rows: vec![0] });
    let heights = || Picture::Heights(Heights { width: 2, height: 1, values: vec![3, 4] });
    assert_eq!(view(&solid(2, 1, 4), &bitmap()), Err(Fault::Kind));
    assert_eq!(view(&layer(2, 1), &heights()), Err(Fault::Kind));
    assert_eq!(view(&layer(1, 2), &bitmap()), Err(Fault::Size { input: [1, 2], picture: [2, 1] }));
    assert_eq!(view(&solid(3, 1, 4), &heights()), Err(Fault::Size { input: [3, 1], picture: [2, 1] }));
    assert_eq!(view(&solid(2, 1, 3), &heights()), Err(Fault::TooHigh { depth: 3, height: 4 }));
    assert!(view(&solid(2, 1, 4), &heights()).is_ok());
}
