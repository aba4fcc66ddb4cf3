//! Parts that come and go on a plate, against the slow calls: the request's figures, random calls and runs of them,
//! refusals, planted faults.

use crate::refusals::{
    SLOTS, WIDE_SLOTS, Wrong, good_drawing, grid_wrongs, tape_of, tape_wrongs, try_all, wrong, wrong_at,
};
use crate::stack::mixed;
use checks::drawing::Drawing;
use checks::grids;
use checks::lists::List;
use checks::plate::{Changing, Lent};
use checks::random::{Random, cases};
use layers::raw;
use slow::call::Answer;
use slow::draw::Grid;
use slow::fault;
use slow::plate::{Fault, PLACE, PLACES, Parts, afresh};
use slow::tape::Tape;
use std::collections::BTreeSet;

const ONE: i32 = 65_536;

/// The core's call.
pub fn core(case: &Changing, (memory, picture, work): &mut Lent) -> raw::Answer {
    let (tape, grid) = (&case.drawing.tape, case.drawing.core_grid());
    if case.adds {
        raw::plate_add(memory, case.place, tape, grid, picture, work)
    } else {
        raw::plate_remove(memory, case.place, grid, picture, work)
    }
}

fn compared(case: &Changing, noise: &mut Random) -> Answer {
    case.compare(noise, core).unwrap_or_else(|e| panic!("{e}"))
}

const DONE: Answer = Answer { number: 0, place: 0, count: 0 };

/// A plate's memory and its picture, on a grid.
struct Plate {
    grid: Grid,
    memory: Vec<u8>,
    picture: Vec<u8>,
}

impl Plate {
    fn new(grid: Grid) -> Self {
        Plate { grid, memory: vec![0; PLACES * PLACE], picture: vec![0; grid.picture_len(false)] }
    }

    fn holding(mut self, place: usize, bytes: &[u8]) -> Self {
        self.memory[place * PLACE..][..bytes.len()].copy_from_slice(bytes);
        self
    }

    /// Both calls, of which the core's stays.
    fn call(&mut self, adds: bool, place: u32, tape: &[u8]) -> Answer {
        let drawing = Drawing { flat: self.picture.len(), ..Drawing::new(tape.to_vec(), self.grid) };
        let case = Changing { memory: Vec::new(), place, adds, drawing };
        let mut lent = (self.memory.clone(), self.picture.clone(), vec![9; raw::WORK]);
        let said = case.compare_on(&lent, core).unwrap_or_else(|e| panic!("{e}"));
        core(&case, &mut lent);
        (self.memory, self.picture) = (lent.0, lent.1);
        said
    }

    fn add(&mut self, place: u32, tape: &[u8]) -> Answer {
        self.call(true, place, tape)
    }

    fn remove(&mut self, place: u32) -> Answer {
        self.call(false, place, &[])
    }
}

fn plain(width: u32, height: u32) -> Grid {
    Grid { sizes: [width, height, 0], origins: [0; 3], steps: [ONE; 3] }
}

/// x below so many units, or above.
fn x_below(units: i32) -> Vec<u8> {
    List { slots: 2, clauses: vec![[1, 0, 0, 0, 0], [0, 1, 0, 0, units], [10, 0, 0, 1, 0]] }.tape()
}

fn x_above(units: i32) -> Vec<u8> {
    List { slots: 2, clauses: vec![[0, 0, 0, 0, units], [1, 1, 0, 0, 0], [10, 0, 0, 1, 0]] }.tape()
}

#[test]
fn figures() {
    let (left, right) = (x_below(2 * ONE), x_above(66 * ONE));
    let mut plate = Plate::new(plain(70, 2));
    assert_eq!(plate.add(3, &left), DONE);
    let row = [0xC0, 0, 0, 0, 0, 0, 0, 0, 0];
    assert_eq!(plate.picture, [row, row].concat());
    assert_eq!(plate.add(0, &right), DONE);
    let row = [0xC0, 0, 0, 0, 0, 0, 0, 0, 0x3C];
    assert_eq!(plate.picture, [row, row].concat());
    plate.picture.fill(0xAA);
    assert_eq!(plate.remove(3), DONE);
    let row = [0, 0, 0, 0, 0, 0, 0, 0, 0xAA];
    assert_eq!(plate.picture, [row, row].concat());
    assert!(plate.memory == Plate::new(plain(70, 2)).holding(0, &right).memory);

    let mut stray = Plate::new(plain(70, 2));
    stray.memory[3 * PLACE - 1] = 1;
    assert_eq!([stray.add(0, &left), stray.remove(0)], [Answer { number: 2, ..DONE }; 2]);
    let mut slot = left.clone();
    slot[8 + 20 + 4] = 7;
    let mut bad = Plate::new(plain(70, 2)).holding(4, &slot);
    assert_eq!([bad.add(0, &left), bad.remove(4)], [Answer { number: 6, place: 2, count: 0 }; 2]);
}

/// What a place may hold: a tape that ends where its head says, and anything behind it.
#[test]
fn the_tape_of_a_place() {
    let number = |bytes: &[u8]| Plate::new(plain(3, 2)).holding(7, bytes).add(0, &x_below(ONE)).number;
    for clauses in [6_145u16, 6_553, 6_554, u16::MAX] {
        let [low, high] = clauses.to_le_bytes();
        assert_eq!(number(&[0x54, 0x50, 2, 128, low, high, 0, 0]), 3);
    }
    let mut free = x_below(ONE);
    free.resize(PLACE, 5);
    assert_eq!(
        [number(&free), number(&free[..28]), number(&[0; 8]), number(&[0, 1]), number(&[0x54])],
        [0, 5, 0, 2, 2]
    );
    let longest = List { slots: 128, clauses: vec![[0, 127, 0, 0, -1]; 6144] }.tape();
    assert_eq!((longest.len(), number(&longest)), (61_448, 0));
    // removing zeros the whole place, adding fills it with zeros behind the tape; the other stays as it is
    let mut plate = Plate::new(plain(3, 2)).holding(5, &free).holding(6, &free);
    assert_eq!([plate.remove(5), plate.add(5, &longest)], [DONE; 2]);
    assert!(plate.memory == Plate::new(plain(3, 2)).holding(6, &free).holding(5, &longest).memory);
    assert_eq!(plate.picture, [0xE0; 2]);
    assert_eq!([plate.remove(5), plate.remove(6)], [DONE; 2]);
    assert_eq!((plate.memory == vec![0; PLACES * PLACE], plate.picture), (true, vec![0; 2]));
}

/// A part leaves a tile alone if its range is 0 or more there; in all others spare bits are 0.
#[test]
fn tiles_that_are_not_touched() {
    for (units, last) in [(64 * ONE + 32_768, 0xAB), (64 * ONE + 32_769, 0x80)] {
        let mut plate = Plate::new(plain(70, 1));
        plate.picture.fill(0xAB);
        assert_eq!(plate.add(0, &x_below(units)), DONE);
        assert_eq!(plate.picture, [[0xFF; 8].as_slice(), &[last]].concat());
    }
    let mut plate = Plate::new(plain(70, 1));
    plate.picture.fill(0xAB);
    assert_eq!(plate.add(7, &List { slots: 1, clauses: vec![[0, 0, 0, 0, 0]] }.tape()), DONE);
    assert_eq!(plate.picture, [0xAB; 9]);
}

/// Eight of the longest tapes on one plate, the largest picture, samples at both ends of the values.
#[test]
fn extremes() {
    let grid = Grid { sizes: [66, 2, 0], origins: [-33_300, -1_300, 100], steps: [1000; 3] };
    let mut plate = Plate::new(grid);
    for place in 0..8 {
        let tape = if place % 2 == 0 { mixed(128, 6144).tape() } else { mixed(64, 1024).tape() };
        assert_eq!(plate.add(place, &tape), DONE);
    }
    assert!(plate.picture.iter().any(|&byte| byte != 0));
    assert_eq!([3, 0, 7].map(|place| plate.remove(place)), [DONE; 3]);
    let great = Grid { sizes: [512, 512, 0], origins: [-i32::MAX; 3], steps: [8_396_800; 3] };
    let mut plate = Plate::new(great);
    assert_eq!([plate.add(0, &x_below(0)), plate.add(1, &x_above(i32::MAX)), plate.remove(0)], [DONE; 3]);
    assert_eq!(plate.picture, [0; 64 * 512]);
    assert_eq!(plate.add(2, &x_below(i32::MAX)), DONE);
    assert_eq!(plate.picture, [0xFF; 64 * 512]);
}

#[test]
fn random_changes() {
    let cases = cases(1_500);
    let mut r = Random::seeded(&format!("random_changes: {cases} cases"), 0x5EED_00B0);
    let mut noise = Random::new(0x5EED_00B1);
    let mut met = [0; 2];
    for _ in 0..cases {
        let case = Changing::random(&mut r);
        assert_eq!(compared(&case, &mut noise), DONE, "{:?}", case.drawing);
        met[case.adds as usize] += 1;
    }
    assert!(cases < 1000 || met.iter().all(|&n| n > cases / 5), "removed, added: {met:?}");
}

/// Depth and the third step of a flat grid are not read: every turn of a run has others.
#[test]
fn unread_fields() {
    let mut r = Random::seeded("unread_fields", 0x5EED_00B2);
    for _ in 0..cases(40) {
        let (grid, calls) = Changing::run(&mut r, 12);
        let empty = || (vec![0; PLACES * PLACE], vec![0; grid.picture_len(false)], vec![7; raw::WORK]);
        let (mut ours, mut others) = (empty(), empty());
        for call in calls {
            let mut other = call.clone();
            grids::unread(&mut r, &mut other.drawing.grid);
            assert_eq!(core(&call, &mut ours), core(&other, &mut others));
            assert!(ours == others);
        }
    }
}

/// Along a run, refused calls among them, the picture is the one drawn afresh from the parts present.
#[test]
fn runs() {
    let mut r = Random::seeded("runs", 0x5EED_00B3);
    let mut numbers = BTreeSet::new();
    let runs = cases(12);
    for _ in 0..runs {
        let (grid, calls) = Changing::run(&mut r, 60);
        let (mut memory, mut picture) = (vec![0; PLACES * PLACE], vec![0; grid.picture_len(false)]);
        let mut parts: Parts = Default::default();
        for call in calls {
            let mut lent: Lent = (memory, picture.clone(), r.bytes(call.drawing.work));
            lent.1.resize(call.drawing.flat, 0);
            let said = call.compare_on(&lent, core).unwrap_or_else(|e| panic!("{e}"));
            core(&call, &mut lent);
            memory = lent.0;
            numbers.insert(said.number);
            if said.number == 0 {
                picture = lent.1;
                let tape = Tape::from_bytes(&call.drawing.tape).ok();
                parts[call.place as usize] = tape.filter(|_| call.adds);
            }
            assert_eq!(picture, afresh(&parts, &grid));
        }
    }
    assert!(runs < 10 || [0, 10, 12, 22].iter().all(|number| numbers.contains(number)), "{numbers:?}");
}

/// Each number of the calls' refusals is met.
#[test]
fn damaged_changes() {
    let cases = cases(2_000);
    let mut r = Random::seeded(&format!("damaged_changes: {cases} cases"), 0x5EED_00B4);
    let mut noise = Random::new(0x5EED_00B5);
    let mut met = [0; 23];
    for _ in 0..cases {
        met[compared(&Changing::damaged(&mut r), &mut noise).number as usize] += 1;
    }
    println!("damaged_changes: answers by number: {met:?}");
    let least = [0].into_iter().chain(2..=14).chain([22]).map(|number| met[number]).min().expect("a number");
    assert!(cases < 1000 || least > 0, "answers by number: {met:?}");
}

/// Puts these bytes at a place of the memory.
fn put(place: usize, at: usize, bytes: &[u8]) -> impl Fn(&mut Changing) + use<> {
    let bytes = bytes.to_vec();
    move |c: &mut Changing| c.memory[place * PLACE + at..][..bytes.len()].copy_from_slice(&bytes)
}

/// What can be wrong with the memory: its length, and then each place, the lowest first, with a fault of its own.
fn memory_wrongs() -> Vec<Wrong<Changing>> {
    let lengths = [PLACES * PLACE - 1, PLACES * PLACE + 1, PLACE, 0];
    let mut wrongs: Vec<Wrong<Changing>> =
        lengths.map(|len| wrong(14, move |c: &mut Changing| c.memory.resize(len, 0))).into();
    let mut tape = x_below(ONE);
    tape[8 + 20 + 4] = 7;
    wrongs.push(wrong(2, put(1, PLACE - 1, &[1])));
    wrongs.push(wrong(3, put(2, 0, &[0x54, 0x50, 1])));
    wrongs.push(wrong_at(6, 2, put(4, 0, &tape)));
    tape[2] = 2;
    wrongs.push(wrong(3, put(5, 0, &tape)));
    wrongs.push(wrong_at(5, 1, put(6, 0, &x_below(ONE)[..18])));
    wrongs.push(wrong(2, put(7, 0, &[0, 0x54, 0x50])));
    wrongs
}

/// 14, the places, 22, on adding the tape, 10 to 13: each alone and any two at once.
#[test]
fn refusals() {
    let mut noise = Random::seeded("plate: refusals", 0x5EED_00B6);
    for (slots, adds) in [(SLOTS, true), (WIDE_SLOTS, false)] {
        let mut wrongs = memory_wrongs();
        // place 3 is taken, the others are empty
        let places = if adds { [8, 3, u32::MAX] } else { [8, 0, u32::MAX] };
        wrongs.extend(places.map(|place| wrong(22, move |c: &mut Changing| c.place = place)));
        if adds {
            wrongs.extend(tape_wrongs(slots, |c: &mut Changing| &mut c.drawing.tape));
        }
        wrongs.extend(grid_wrongs(|c: &mut Changing| &mut c.drawing.grid));
        wrongs.extend([9, 11, 0].map(|len| wrong(12, move |c: &mut Changing| c.drawing.flat = len)));
        wrongs.extend([32_767, 0].map(|len| wrong(13, move |c: &mut Changing| c.drawing.work = len)));
        let drawing = Drawing { tape: tape_of(slots), ..good_drawing() };
        let memory = Plate::new(drawing.grid).holding(3, &tape_of(slots)).memory;
        let good = Changing { memory, place: if adds { 0 } else { 3 }, adds, drawing };
        assert_eq!(compared(&good, &mut noise), DONE);
        try_all(&good, &wrongs, |case, expected| {
            assert_eq!(compared(case, &mut noise), expected, "place {}, {:?}", case.place, case.drawing);
        });
    }
}

#[test]
fn planted_faults_are_caught() {
    for &planted in Fault::ALL {
        let mut r = Random::seeded(&format!("{planted:?}"), 0x5EED_00B7);
        let mut noise = Random::new(0x5EED_00B8);
        let mut differs = |i: u64| {
            let case = if i % 2 == 1 { Changing::damaged(&mut r) } else { Changing::random(&mut r) };
            fault::with(planted, || case.compare(&mut noise, core)).is_err()
        };
        assert!((0..400).any(&mut differs), "{planted:?} is not caught");
    }
}
