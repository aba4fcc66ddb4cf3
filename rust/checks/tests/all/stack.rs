//! The stack that each call takes.

use crate::probe::core;
use crate::reason;
use checks::compare::answer;
use checks::drawing::Drawing;
use checks::lists::List;
use slow::call::{Answer, draw, tile};
use slow::draw::Grid;
use slow::order::tile_solid_in_order;
use slow::seen::{self, Event};
use slow::text::OUTPUT;

/// What a thread itself takes of its stack, and some room.
const THREAD: usize = 8 * 1024;

/// So many clauses in so many slots: minima and maxima of x, y and z, then x added, so that the part ends within tiles.
pub fn mixed(slots: u32, count: i32) -> List {
    let n = slots as i32;
    let axes = (0..n).map(|slot| [1 + slot % 3, slot, 0, 0, 0]);
    let sides = (n..count - 2).map(|i| [12 + i % 2, i % n, (i + 1) % n, (i + 2) % n, 0]);
    let mut clauses: Vec<[i32; 5]> = axes.chain(sides).collect();
    let result = clauses[clauses.len() - 1][1];
    let other = (result + 1) % n;
    clauses.extend([[1, other, 0, 0, 0], [9, result, result, other, 0]]);
    List { slots, clauses }
}

/// What a call of any kind takes at most, on any tape: the walk of a solid has four arrays of 6,144 words and two of as many
/// rows of choices, 48 KiB each, and 48 KiB of slots and ends.
const MOST: usize = 384 * 1024;

/// One array of 6,144 words, and what else a call needs that walks no regions.
const ONE_ARRAY: usize = 64 * 1024;

/// Tapes of either edition, the largest of each and small ones.
fn tapes() -> [List; 4] {
    [mixed(64, 1024), mixed(3, 7), mixed(128, 6144), mixed(65, 70)]
}

/// Runs in a thread of its own, on a stack of that size.
fn on<T: Send + 'static>(stack: usize, run: impl FnOnce() -> T + Send + 'static) -> T {
    let thread = std::thread::Builder::new().stack_size(stack + THREAD).spawn(run).expect("a thread");
    thread.join().expect("no overflow")
}

/// Draws by tiles, flat, solid, with slopes and in an order. Samples are run, so that every level is entered.
#[test]
fn drawings_by_tiles() {
    let grid = Grid { sizes: [90, 70, 70], origins: [-43_300, -43_300, 0], steps: [1000; 3] };
    for list in tapes() {
        let drawing = Drawing::new(list.tape(), grid);
        let core = drawing.core_grid();
        let (mut flat, mut solid, mut work) =
            (vec![0u8; drawing.flat], vec![0u16; drawing.solid], vec![0; drawing.work]);
        let (mut slopes, order) = (vec![0; 3 * drawing.solid], (0..8).rev().collect::<Vec<u16>>());
        seen::take();
        let a = tile(&drawing.tape, &grid, &mut flat, &mut work);
        let b = tile(&drawing.tape, &grid, &mut solid, &mut work);
        let met = seen::take();
        assert!(met[Event::FlatSample as usize] && met[Event::SolidSample as usize]);
        let backward = tile_solid_in_order(&drawing.tape, &grid, &order, &mut solid, &mut work);
        let drawn = on(MOST, move || {
            let a = layers::raw::tile_flat(&drawing.tape, core, &mut flat, &mut work);
            let b = layers::raw::tile_solid(&drawing.tape, core, &mut solid, &mut work);
            let c = layers::raw::tile_slopes(&drawing.tape, core, &mut solid, &mut slopes, &mut work);
            let d = layers::raw::tile_solid_in_order(&drawing.tape, core, &order, &mut solid, &mut work);
            [answer(a), answer(b), answer(c), answer(d)]
        });
        assert_eq!(drawn, [a, b, b, backward]);
    }
}

/// The reasons for pixels: of every side, so that every level is entered.
#[test]
fn reasons() {
    let grid = Grid { sizes: [512, 512, 0], origins: [-43_300, -43_300, 0], steps: [1000; 3] };
    let mut sides = Vec::new();
    for list in tapes() {
        let drawing = Drawing::new(list.tape(), grid);
        for (x, y) in [(511, 511), (63, 63), (44, 42), (43, 43)] {
            let expected = slow::reason::explain_pixel(&drawing.tape, &grid, x, y, &mut vec![0; drawing.work]);
            let drawing = drawing.clone();
            let said = on(MOST, move || reason::core(&drawing, x, y, &mut vec![0; drawing.work]));
            assert_eq!(said, expected);
            sides.push(said.side);
        }
    }
    assert!([64, 8, 1].iter().all(|side| sides.contains(side)), "{sides:?}");
}

/// What is swept along the longest path, which ends where it began.
#[test]
fn sweeps() {
    let grid = Grid { sizes: [66, 3, 0], origins: [-33_300, -1_300, 100], steps: [1000; 3] };
    let path: Vec<i32> = (0..4_096).flat_map(|k: i32| [10 * (k - 2_048).abs() - 20_000, 7 * k]).collect();
    for list in tapes() {
        let drawing = Drawing::new(list.tape(), grid);
        let (core, path, mut picture) = (drawing.core_grid(), path.clone(), vec![0; drawing.solid]);
        let said = on(MOST, move || {
            layers::raw::tile_swept(&drawing.tape, core, &path, &mut picture, &mut vec![0; drawing.work]).number
        });
        assert_eq!(said, 0);
    }
}

/// Parts that come and go on a plate of eight tiles, with others of the same tape there.
#[test]
fn plates() {
    let grid = Grid { sizes: [512, 70, 0], origins: [-33_300, -1_300, 100], steps: [1000; 3] };
    for list in tapes() {
        let drawing = Drawing::new(list.tape(), grid);
        let (core, memory, picture) = (drawing.core_grid(), vec![0; layers::raw::PLATE], vec![0; drawing.flat]);
        let (mut lent, mut work) = ((memory, picture), vec![0; drawing.work]);
        let numbers = on(MOST, move || {
            let added = [0, 7, 3].map(|place| {
                layers::raw::plate_add(&mut lent.0, place, &drawing.tape, core, &mut lent.1, &mut work).number
            });
            let removed = layers::raw::plate_remove(&mut lent.0, 7, core, &mut lent.1, &mut work).number;
            (added, removed)
        });
        assert_eq!(numbers, ([0; 3], 0));
    }
}

/// Tables of verdicts: rectangles of 16 tiles, first unknown and then known.
#[test]
fn tables() {
    let grid = Grid { sizes: [512, 70, 0], origins: [-33_300, -1_300, 100], steps: [1000; 3] };
    let rectangle = layers::Rectangle { column: 0, row: 0, columns: 8, rows: 2 };
    for list in tapes() {
        let drawing = Drawing::new(list.tape(), grid);
        let (core, mut table, mut picture) = (drawing.core_grid(), vec![0; layers::raw::TABLE], vec![0; drawing.flat]);
        let (expected, clauses) =
            (tile(&drawing.tape, &grid, &mut picture, &mut vec![0; drawing.work]), list.clauses.len());
        let tape = drawing.tape.clone();
        let (begun, mut table) = on(ONE_ARRAY, move || (layers::raw::table_begin(&tape, core, &mut table), table));
        let said = on(MOST, move || {
            let mut draw = || {
                let mut work = vec![0; drawing.work];
                layers::raw::table_draw(&drawing.tape, core, rectangle, &mut table, &mut picture, &mut work)
            };
            [answer(begun), answer(draw()), answer(draw())]
        });
        let counts = [0, expected.count, expected.count - 16 * clauses as u64];
        assert_eq!(said, counts.map(|count| Answer { number: 0, place: 0, count }));
    }
}

/// Draws in full.
#[test]
fn drawings_in_full() {
    let grid = Grid { sizes: [9, 7, 5], origins: [-43_300, -43_300, 0], steps: [10_000; 3] };
    for list in tapes() {
        let drawing = Drawing::new(list.tape(), grid);
        let core = drawing.core_grid();
        let (mut flat, mut solid) = (vec![0u8; drawing.flat], vec![0u16; drawing.solid]);
        let a = draw(&drawing.tape, &grid, &mut flat);
        let b = draw(&drawing.tape, &grid, &mut solid);
        assert_eq!((a.number, b.number), (0, 0));
        let drawn = on(ONE_ARRAY, move || {
            let a = layers::raw::draw_flat(&drawing.tape, core, &mut flat);
            let b = layers::raw::draw_solid(&drawing.tape, core, &mut solid);
            [answer(a), answer(b)]
        });
        assert_eq!(drawn, [a, b]);
    }
}

/// A probe has one array of words.
#[test]
fn probes() {
    for list in tapes() {
        let (tape, point) = (list.tape(), [0.5, -0.25, 1.5]);
        let expected = slow::probe::probe(&tape, point);
        assert_eq!(expected.answer.number, 0);
        assert_eq!(on(ONE_ARRAY, move || core(&tape, point)), expected);
    }
}

/// Packing, unpacking and files have no arrays.
#[test]
fn packing_and_files() {
    for list in tapes() {
        let (slots, numbers, tape) = (list.slots, list.numbers(), list.tape());
        let packed = on(ONE_ARRAY, move || {
            let (mut bytes, mut back) = (vec![0; tape.len()], vec![0; numbers.len()]);
            let a = layers::raw::pack_tape(slots, &numbers, &mut bytes);
            let b = layers::raw::unpack_tape(&tape, &mut back).answer;
            assert!(bytes == tape && back == numbers);
            [a.number, b.number]
        });
        assert_eq!(packed, [0, 0]);
    }
    let written = on(ONE_ARRAY, || {
        let (bits, heights) = (vec![0; 64 * 512], vec![0; 512 * 512]);
        let a = layers::raw::write_bitmap(512, 512, &bits, &mut vec![0; 11 + bits.len()]);
        let b = layers::raw::write_heights(512, 512, &heights, &mut vec![0; 17 + 2 * heights.len()]);
        [a.number, b.number]
    });
    assert_eq!(written, [0, 0]);
}

/// Merging goes from bytes to bytes: the largest tape that two can give.
#[test]
fn merging() {
    let (first, second) = (mixed(64, 1024).tape(), mixed(64, 5119).tape());
    let merge = move || layers::raw::merge_tapes(&first, &second, &mut vec![0; 8 + 10 * 6144]).number;
    assert_eq!(on(ONE_ARRAY, merge), 0);
}

/// The reader has a list of 1,024 clauses, and calls itself for every bracket that is open.
#[test]
fn texts() {
    let nested = |open: &str, inner: &str| open.repeat(32) + inner + &")".repeat(32);
    let texts = [
        nested("(", "x"),
        nested("-x*y-z/-min(x+y, x-y*-", "x"),
        nested("max(x,", &vec!["x"; 400].join("*")),
        nested("root(", &vec!["x"; 2_000].join("+")),
        "(".repeat(40),
    ];
    for text in texts {
        let mut out = vec![0; OUTPUT];
        let expected = slow::text::read_text(text.as_bytes(), &mut out);
        let read = move || answer(layers::raw::read_text(text.as_bytes(), &mut vec![0; OUTPUT]));
        assert_eq!(on(ONE_ARRAY, read), expected);
    }
}
