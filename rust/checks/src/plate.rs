//! Input of the calls by which parts come and go on a plate.

use crate::compare::both;
use crate::drawing::Drawing;
use crate::random::Random;
use crate::{damage, grids, lists};
use layers::raw;
use slow::call::Answer;
use slow::draw::Grid;
use slow::plate::{PLACE, PLACES, plate_add, plate_remove};

/// A plate's memory and a place of it; the drawing's tape is added there, or what is there is removed.
#[derive(Clone)]
pub struct Changing {
    pub memory: Vec<u8>,
    pub place: u32,
    pub adds: bool,
    pub drawing: Drawing,
}

/// What is lent: memory, picture, work.
pub type Lent = (Vec<u8>, Vec<u8>, Vec<u8>);

/// The pixels of most plates.
const FEW: u64 = 3_000;

/// A plate's memory with parts at these places, some with noise behind their tape.
fn memory(r: &mut Random, parts: &[Option<Vec<u8>>]) -> Vec<u8> {
    let mut memory = vec![0; PLACES * PLACE];
    for (place, part) in memory.chunks_mut(PLACE).zip(parts) {
        if let Some(tape) = part {
            place[..tape.len()].copy_from_slice(tape);
            let behind = tape.len() + r.index(PLACE - tape.len());
            if r.one_in(3) {
                let noise = r.bytes(40.min(PLACE - behind));
                place[behind..behind + noise.len()].copy_from_slice(&noise);
            }
        }
    }
    memory
}

impl Changing {
    /// An accepted call on a plate with some parts.
    pub fn random(r: &mut Random) -> Self {
        let mut grid = grids::flat(r, FEW);
        let parts: Vec<Option<Vec<u8>>> =
            (0..PLACES).map(|_| r.one_in(3).then(|| lists::any(r, &grid).tape())).collect();
        let tape = lists::any(r, &grid).tape();
        grids::unread(r, &mut grid);
        let asked = r.index(PLACES);
        let adds = parts[asked].is_none();
        Changing { memory: memory(r, &parts), place: asked as u32, adds, drawing: Drawing::new(tape, grid) }
    }

    /// With something damaged: the memory, a place of it, the place asked for, the tape, the grid, a length.
    pub fn damaged(r: &mut Random) -> Self {
        let mut case = Changing::random(r);
        for _ in 0..1 + r.below(2) {
            match r.below(10) {
                0 => case.memory.resize(r.pick(&[0, PLACE, PLACES * PLACE - 1, PLACES * PLACE + 1]), 0),
                1..=3 => case.damage_place(r),
                4 | 5 => case.place = r.pick(&[0, 3, 7, 8, u32::MAX]),
                6 => case.adds = !case.adds,
                _ => case.drawing.damage(r),
            }
        }
        case
    }

    /// A stray byte, a tape that is not accepted, or what is accepted after all.
    fn damage_place(&mut self, r: &mut Random) {
        let at = r.index(PLACES);
        let Some(place) = self.memory.chunks_exact_mut(PLACE).nth(at) else { return };
        if place.iter().all(|&byte| byte == 0) {
            place[r.pick(&[0, 1, 5, PLACE / 2, PLACE - 1])] = 1 + r.below(255) as u8;
            return;
        }
        let clauses = u16::from_le_bytes([place[4], place[5]]) as usize;
        let mut tape = place[..(8 + 10 * clauses).min(PLACE)].to_vec();
        damage::tape(r, &mut tape);
        tape.resize(PLACE, 0);
        place.copy_from_slice(&tape);
    }

    /// A grid and calls on it, for a plate that is empty at first and a cleared picture; some are refused, a few for a
    /// grid or a length of their own.
    pub fn run(r: &mut Random, calls: usize) -> (Grid, Vec<Changing>) {
        let mut grid = grids::flat(r, FEW);
        let tapes: Vec<Vec<u8>> = (0..6).map(|_| lists::any(r, &grid).tape()).collect();
        grids::unread(r, &mut grid);
        let mut call = || {
            let drawing = Drawing::new(tapes[r.index(6)].clone(), grid);
            let places = if r.one_in(20) { 10 } else { 8 };
            let (place, adds) = (r.below(places) as u32, r.one_in(2));
            let mut call = Changing { memory: Vec::new(), place, adds, drawing };
            if r.one_in(8) {
                call.drawing.damage(r);
                // a call that is done is one on this grid
                if call.drawing.grid.check(false).is_ok() {
                    call.drawing.grid = grid;
                }
            }
            call
        };
        (grid, (0..calls).map(|_| call()).collect())
    }

    /// The slow call.
    pub fn slow(&self, (memory, picture, work): &mut Lent) -> Answer {
        let Drawing { tape, grid, .. } = &self.drawing;
        if self.adds {
            plate_add(memory, self.place, tape, grid, picture, work)
        } else {
            plate_remove(memory, self.place, grid, picture, work)
        }
    }

    /// Both calls' answer, or how they differ in it or in a buffer; picture and work are full of noise before.
    pub fn compare(
        &self,
        noise: &mut Random,
        core: impl FnOnce(&Changing, &mut Lent) -> raw::Answer,
    ) -> Result<Answer, String> {
        let lent = (self.memory.clone(), noise.bytes(self.drawing.flat), noise.bytes(self.drawing.work));
        self.compare_on(&lent, core)
    }

    /// The same on buffers that are given.
    pub fn compare_on(
        &self,
        lent: &Lent,
        core: impl FnOnce(&Changing, &mut Lent) -> raw::Answer,
    ) -> Result<Answer, String> {
        let Changing { place, adds, drawing, .. } = self;
        let call = if *adds { "plate_add" } else { "plate_remove" };
        both(call, lent, |l| core(self, l), |l| self.slow(l)).map_err(|e| {
            let heads: Vec<&[u8]> = lent.0.chunks(PLACE).map(|p| &p[..p.len().min(8)]).collect();
            format!("{e}: place {place}, {drawing:?}, memory {heads:x?}")
        })
    }
}
