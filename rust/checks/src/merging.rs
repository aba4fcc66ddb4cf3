//! Input of merging.

use crate::compare::both;
use crate::lists::List;
use crate::random::Random;
use crate::{damage, grids, lists, shapes};
use layers::raw;
use slow::call::Answer;
use slow::draw::Grid;
use slow::merge;
use slow::tape::Tape;

/// Two tapes to merge into that many bytes.
#[derive(Clone, Debug)]
pub struct Merging {
    pub first: Vec<u8>,
    pub second: Vec<u8>,
    pub out: usize,
}

/// A list of any kind; one of the others is most often short, so that the two go into one tape.
fn list(r: &mut Random, grid: &Grid) -> List {
    match r.below(16) {
        0 => lists::long(r, grid),
        1 => lists::wide(r, grid),
        2 => {
            let list = lists::random(r, grid);
            lists::spread(r, &list)
        }
        3..=5 => lists::arithmetic(r, grid),
        6..=8 => shapes::random(r, grid),
        _ => lists::random(r, grid),
    }
}

/// So many constants in slot 0.
fn constants(slots: u64, clauses: u64) -> Vec<u8> {
    List { slots: slots as u32, clauses: vec![[0, 0, 0, 0, 7]; clauses as usize] }.tape()
}

impl Merging {
    /// Into a buffer that fits.
    pub fn new(first: Vec<u8>, second: Vec<u8>) -> Self {
        let clauses = |tape: &Vec<u8>| tape.len().max(8) / 10;
        Merging { out: 8 + 10 * (clauses(&first) + clauses(&second) + 1), first, second }
    }

    /// Two accepted tapes, one of them often the other itself.
    pub fn random(r: &mut Random) -> Self {
        let grid = if r.one_in(2) { grids::wild(r, 400) } else { grids::tame(r, 400) };
        let first = list(r, &grid).tape();
        let second = if r.one_in(8) { first.clone() } else { list(r, &grid).tape() };
        Merging::new(first, second)
    }

    /// Two tapes whose counts together lie about a limit, of edition 01 or of the result.
    pub fn limits(r: &mut Random) -> Self {
        let (slots, clauses) = (r.pick(&[64, 128]) + r.below(3) - 1, r.pick(&[1024, 6144]) + r.below(3) - 2);
        let (n, k) = (1 + r.below(slots - 1), 1 + r.below(clauses - 1));
        Merging::new(constants(n, k), constants(slots - n, clauses - k))
    }

    /// The same as [`random`](Merging::random) with a tape, or both, or the output damaged.
    pub fn damaged(r: &mut Random) -> Self {
        let mut case = Merging::random(r);
        let which = r.below(4);
        if which != 1 {
            damage::tape(r, &mut case.first);
        }
        if which != 0 {
            damage::tape(r, &mut case.second);
        }
        match r.below(6) {
            0 => case.out += 1,
            1 => case.out -= 1,
            2 => case.out = r.index(100),
            _ => {}
        }
        case
    }

    /// The answer, or how the core differs from `slow`, in what comes back or in the output, which is full of noise
    /// before. A tape that is done is accepted and has the smaller value at some points.
    pub fn compare(&self, r: &mut Random) -> Result<Answer, String> {
        let noise = r.bytes(self.out);
        let mut merged = Vec::new();
        let core = |out: &mut Vec<u8>| {
            let said = raw::merge_tapes(&self.first, &self.second, out);
            merged = out.clone();
            said
        };
        let slow = |out: &mut Vec<u8>| merge::merge_tapes(&self.first, &self.second, out);
        let said = both("merge_tapes", &noise, core, slow).map_err(|e| format!("{e}: {self:?}"))?;
        if said.number == 0 {
            self.smaller(r, &merged)?;
        }
        Ok(said)
    }

    fn smaller(&self, r: &mut Random, merged: &[u8]) -> Result<(), String> {
        let [first, second, both] = [&self.first[..], &self.second, merged]
            .map(|tape| Tape::from_bytes(tape).map_err(|e| format!("merge_tapes: {e:?}: {self:?}")));
        let (first, second, both) = (first?, second?, both?);
        for _ in 0..4 {
            let at = [0; 3].map(|_| r.within(-8_000_000, 8_000_000).into());
            if both.value_at(at) != first.value_at(at).min(second.value_at(at)) {
                return Err(format!("merge_tapes: not the smaller value at {at:?}: {self:?}"));
            }
        }
        Ok(())
    }
}
