//! Two archives of the core in one program, which the script `beside` links: an old one, whose calls have names that
//! begin with old_, and a new one.
//!
//! `beside [flat|solid|large[:TURNS]]..` compares the pictures and the counts of all example parts, flat at 512² or solid
//! at 128³ or 512³, and then draws by both in turn: of each the least processor time, their ratio, and the median of the
//! ratios in each turn. `beside --odd [SEED [GRIDS]]` compares alone, on grids whose edges cut regions off.

#![allow(unsafe_code)]

use bench::drawing::{Canvas, Core, Kind, resized};
use bench::measure::in_turn_by;
use layers::Grid;
use layers::raw::Answer;
use parts::Part;
use std::time::Duration;

/// A call of one of the archives, as the crate layers wraps it.
macro_rules! call {
    ($name:ident, $pixel:ty) => {{
        unsafe extern "C" {
            fn $name(
                tape: *const u8,
                tape_len: usize,
                grid: Grid,
                picture: *mut $pixel,
                picture_len: usize,
                work: *mut u8,
                work_len: usize,
            ) -> Answer;
        }
        |tape, grid, picture, work| {
            // SAFETY: the call takes any input, reads and writes within the lengths lent, and keeps no pointer; borrows
            // keep what is written apart from the rest.
            unsafe {
                $name(
                    tape.as_ptr(),
                    tape.len(),
                    grid,
                    picture.as_mut_ptr(),
                    picture.len(),
                    work.as_mut_ptr(),
                    work.len(),
                )
            }
        }
    }};
}

const OLD: Core = Core { flat: call!(old_layers_tile_flat, u8), solid: call!(old_layers_tile_solid, u16) };
const NEW: Core = Core { flat: call!(new_layers_tile_flat, u8), solid: call!(new_layers_tile_solid, u16) };

fn main() {
    let words: Vec<String> = std::env::args().skip(1).collect();
    match words.iter().map(String::as_str).collect::<Vec<_>>()[..] {
        ["--odd"] => odd(1, 300),
        ["--odd", seed] => odd(number(seed), 300),
        ["--odd", seed, grids] => odd(number(seed), number(grids)),
        [] => ["flat", "solid", "large"].into_iter().for_each(table),
        ref kinds => kinds.iter().copied().for_each(table),
    }
}

fn number(text: &str) -> u64 {
    text.parse().unwrap_or_else(|_| panic!("{text} is no number"))
}

/// All example parts, drawn as `kind` says: its name, and how many turns after a colon.
fn table(kind: &str) {
    let (name, turns) = kind.split_once(':').map_or((kind, None), |(name, turns)| (name, Some(number(turns))));
    let (title, kind, turns, grid): (_, _, _, fn(&Part) -> Grid) = match name {
        "flat" => ("512²", Kind::Flat, turns.unwrap_or(100), |part| part.flat),
        "solid" => ("128³", Kind::Solid, turns.unwrap_or(20), |part| part.solid),
        "large" => ("512³", Kind::Solid, turns.unwrap_or(3), |part| part.solid_at(512)),
        _ => panic!("usage: beside [flat|solid|large[:TURNS]].. | --odd [SEED [GRIDS]]"),
    };
    let parts = parts::designed();
    parts.iter().for_each(|part| compare(part, kind, grid(part)));
    println!("\n{title}: pictures and counts are equal. Processor times of {turns} turns:\n");
    println!("| part | old ms, least | new ms, least | old / new | old / new in turn, median |");
    println!("|---|--:|--:|--:|--:|");
    let ratios: Vec<[f64; 2]> = parts.iter().map(|part| row(part, kind, grid(part), turns as usize)).collect();
    let mean = |k: usize| (ratios.iter().map(|both| both[k].ln()).sum::<f64>() / ratios.len() as f64).exp();
    println!("| geometric mean | | | {:.3} | {:.3} |", mean(0), mean(1));
}

/// Prints a part's times, and returns the ratio of the least ones and the median of those in each turn.
fn row(part: &Part, kind: Kind, grid: Grid, turns: usize) -> [f64; 2] {
    let [mut first, mut second] = [(); 2].map(|_| Canvas::new(kind, grid));
    let [old, new] = in_turn_by(
        processor_time,
        turns,
        Duration::ZERO,
        [&mut || first.draw_by(OLD, &part.tape), &mut || second.draw_by(NEW, &part.tape)],
    );
    let ratios = [old.least() / new.least(), old.over(&new)];
    println!("| {} | {:.3} | {:.3} | {:.3} | {:.3} |", part.name, old.least(), new.least(), ratios[0], ratios[1]);
    ratios
}

fn compare(part: &Part, kind: Kind, grid: Grid) {
    let [mut old, mut new] = [(); 2].map(|_| Canvas::new(kind, grid));
    let counts = [old.draw_by(OLD, &part.tape), new.draw_by(NEW, &part.tape)];
    assert_eq!(counts[0], counts[1], "the counts of {} on {grid:?}", part.name);
    assert!(old.same_picture(&new), "the pictures of {} on {grid:?}", part.name);
}

/// Each grid with every part, flat and solid.
fn odd(seed: u64, grids: u64) {
    let (parts, mut random) = (parts::all(), Random(seed));
    println!("seed {seed}, {grids} grids, {} parts", parts.len());
    for _ in 0..grids {
        let (flat, solid) = ([0; 3].map(|_| odd_size(&mut random, 512)), [0; 3].map(|_| odd_size(&mut random, 150)));
        let by = [0; 3].map(|_| random.below(1001) as i64 - 500);
        for part in &parts {
            compare(part, Kind::Flat, shifted(part, resized(part.flat, flat), by));
            compare(part, Kind::Solid, shifted(part, resized(part.solid, solid), by));
        }
    }
    println!("{} pictures and counts are equal", 2 * grids * parts.len() as u64);
}

/// No multiple of 4, as often small as not.
fn odd_size(random: &mut Random, most: u64) -> u32 {
    let most = [9, 70, most][random.below(3) as usize];
    let size = 1 + random.below(most - 1) as u32;
    size + size.is_multiple_of(4) as u32
}

/// The grid moved by so many thousandths of the part's box on each axis.
fn shifted(part: &Part, grid: Grid, by: [i64; 3]) -> Grid {
    let moved = |origin: i32, step: i32, n: u32, by: i64| (origin as i64 + step as i64 * n as i64 * by / 1000) as i32;
    let whole = part.solid;
    Grid {
        xorigin: moved(grid.xorigin, whole.xstep, whole.width, by[0]),
        yorigin: moved(grid.yorigin, whole.ystep, whole.height, by[1]),
        zorigin: moved(grid.zorigin, whole.zstep, whole.depth, by[2]),
        ..grid
    }
}

/// Numbers that look random, the same ones from the same seed (splitmix64).
struct Random(u64);

impl Random {
    fn below(&mut self, n: u64) -> u64 {
        self.0 = self.0.wrapping_add(0x9E37_79B9_7F4A_7C15);
        let first = (self.0 ^ self.0 >> 30).wrapping_mul(0xBF58_476D_1CE4_E5B9);
        let second = (first ^ first >> 27).wrapping_mul(0x94D0_49BB_1331_11EB);
        (second ^ second >> 31) % n
    }
}

/// The processor time of this thread, which other work on the machine leaves alone.
fn processor_time() -> Duration {
    #[repr(C)]
    struct Timespec {
        seconds: i64,
        nanoseconds: i64,
    }
    unsafe extern "C" {
        fn clock_gettime(clock: i32, time: *mut Timespec) -> i32;
    }
    const THREAD: i32 = 3; // CLOCK_THREAD_CPUTIME_ID of x86-64 Linux
    let mut time = Timespec { seconds: 0, nanoseconds: 0 };
    // SAFETY: the call writes a time of this form, and keeps no pointer.
    let status = unsafe { clock_gettime(THREAD, &mut time) };
    assert_eq!(status, 0, "the processor's clock");
    Duration::new(time.seconds as u64, time.nanoseconds as u32)
}
