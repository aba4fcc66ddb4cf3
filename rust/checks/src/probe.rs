//! Input of the probe.

use crate::random::Random;
use crate::{damage, grids, lists, shapes};
use slow::draw::Grid;
use slow::probe::Probed;

/// A tape and a point.
#[derive(Clone, Debug)]
pub struct Probing {
    pub tape: Vec<u8>,
    pub point: [f64; 3],
}

/// Some f64 steps above or below.
fn near(r: &mut Random, c: f64) -> f64 {
    f64::from_bits(c.to_bits().wrapping_add_signed(r.within(-3, 3)))
}

/// A coordinate in units, about a sample of the grid: the sample itself, some f64 steps beside it, or part of a unit.
fn about_sample(r: &mut Random, grid: &Grid, axis: usize) -> f64 {
    let sample = grids::sample(grid, axis, r.below(grid.sizes[axis] as u64) as u32);
    let units = sample as f64 + r.within(-2, 2) as f64;
    match r.below(4) {
        0 => units / 65_536.0,
        1 => near(r, units / 65_536.0),
        _ => (units + r.below(1 << 20) as f64 / (1 << 20) as f64) / 65_536.0,
    }
}

/// Bits of any kind; numbers at the limit, next to 0 and about a whole number of units; what is no number.
fn any(r: &mut Random) -> f64 {
    let sign = r.pick(&[1.0, -1.0]);
    match r.below(8) {
        0 | 1 => f64::from_bits(r.number()),
        2 => {
            let limit = r.pick(&[32_767.0, 32_767.5, 32_768.0]);
            near(r, sign * limit)
        }
        3 => sign * f64::from_bits(r.below(4)),
        4 => sign * f64::from_bits(r.number() >> 12),
        5 => {
            let units = r.below(2_147_418_113) as f64;
            near(r, sign * units / 65_536.0)
        }
        6 => sign * f64::from_bits(0x7FF0_0000_0000_0000 | (r.number() >> 12 & r.number())),
        _ => sign * r.below(1 << 53) as f64 / r.pick(&[1u64 << 38, 1 << 40, 1 << 54, 1 << 60]) as f64,
    }
}

/// One clause, an axis: the value is the coordinate.
pub fn axis_tape(axis: usize) -> Vec<u8> {
    lists::List { slots: 1, clauses: vec![[axis as i32 + 1, 0, 0, 0, 0]] }.tape()
}

/// An axis less a constant near it.
fn less(r: &mut Random, axis: usize, c: f64) -> Vec<u8> {
    let units = (c * 65_536.0).clamp(-2e9, 2e9) as i64 + r.within(-1, 1);
    let clauses = vec![[axis as i32 + 1, 0, 0, 0, 0], [0, 1, 0, 0, units as i32], [10, 1, 0, 1, 0]];
    lists::List { slots: 2, clauses }.tape()
}

impl Probing {
    /// An accepted tape of any kind and a point about its samples, or one coordinate or all of any kind.
    pub fn random(r: &mut Random) -> Self {
        let grid = if r.one_in(2) { grids::wild(r, 400) } else { grids::tame(r, 400) };
        let mut point = [0, 1, 2].map(|axis| about_sample(r, &grid, axis));
        match r.below(4) {
            0 => point = point.map(|_| any(r)),
            1 | 2 => point[r.index(3)] = any(r),
            _ => {}
        }
        let axis = r.index(3);
        let tape = match r.below(6) {
            0 => lists::random(r, &grid).tape(),
            1 => lists::arithmetic(r, &grid).tape(),
            2 => shapes::random(r, &grid).tape(),
            3 | 4 => axis_tape(axis),
            _ => less(r, axis, point[axis]),
        };
        Probing { tape, point }
    }

    /// The same with its tape damaged.
    pub fn damaged(r: &mut Random) -> Self {
        let mut case = Probing::random(r);
        damage::tape(r, &mut case.tape);
        case
    }

    /// What one probe says, or how the other differs from it in any returned figure.
    pub fn compare(
        &self,
        core: impl FnOnce(&[u8], [f64; 3]) -> Probed,
        slow: impl FnOnce(&[u8], [f64; 3]) -> Probed,
    ) -> Result<Probed, String> {
        let (said, expected) = (core(&self.tape, self.point), slow(&self.tape, self.point));
        if said != expected {
            let bits = self.point.map(f64::to_bits);
            return Err(format!("probe: {said:x?}, not {expected:x?}: {self:?}, {bits:x?}"));
        }
        Ok(said)
    }

    /// Calls `check` with each case from a seed, one in eight of them damaged.
    pub fn each(test: &str, seed: u64, cases: u64, mut check: impl FnMut(&Probing)) {
        let mut r = Random::seeded(&format!("{test}: {cases} cases"), seed);
        for case in 0..cases {
            check(&if case % 8 == 7 { Probing::damaged(&mut r) } else { Probing::random(&mut r) });
        }
    }
}
