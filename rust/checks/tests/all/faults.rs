//! Faults planted in the slow drawing, one at a time: the comparisons must catch each.

use checks::drawing::{ARITHMETIC, DAMAGED, Drawing, RANDOM, SHAPES, WIDE};
use checks::files::File;
use checks::packing::Packing;
use checks::program;
use checks::random::Random;
use slow::call::Answer;
use slow::fault::{self, Fault};

const SEED: u64 = 0x5EED_0030;
const CASES: u64 = 2600;

/// The kinds of comparison that the other tests make, in turn.
const KINDS: u64 = 13;

fn compare(kind: u64, r: &mut Random, noise: &mut Random) -> Result<Answer, String> {
    let of = [RANDOM, SHAPES, ARITHMETIC, DAMAGED, WIDE][kind as usize % 5].of;
    match kind {
        0..=4 => of(r).compare(noise).map(|a| a[0]),
        5..=9 => {
            let Drawing { tape, grid, .. } = of(r);
            let record = if noise.one_in(2) { program::flat_input } else { program::input };
            program::compare(&record(&grid, &tape))
        }
        10 => program::compare(&program::damaged_input(r)),
        11 => Packing::random(r).compare(noise),
        _ => File::random(r).compare_bitmap(noise),
    }
}

/// The first case in which the two differ, and how.
fn first_difference(planted: &str) -> Option<(u64, String)> {
    let (mut r, mut noise) = (Random::seeded(planted, SEED), Random::new(SEED ^ 0xFFFF));
    (0..CASES).find_map(|i| compare(i % KINDS, &mut r, &mut noise).err().map(|e| (i, e)))
}

/// Whether the comparisons catch the fault.
fn caught(fault: Fault) -> bool {
    let found = fault::with(fault, || first_difference(&format!("{fault:?}")));
    if let Some((case, how)) = &found {
        println!("{fault:?}: case {case}, {}", how.chars().take(120).collect::<String>());
    }
    found.is_some()
}

#[test]
fn planted_faults_are_caught() {
    let missed: Vec<Fault> = Fault::ALL.iter().copied().filter(|&f| !caught(f)).collect();
    assert!(missed.is_empty(), "not caught: {missed:?}");
}

#[test]
fn no_fault_no_difference() {
    assert_eq!(first_difference("no fault"), None);
}
