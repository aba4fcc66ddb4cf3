//! Input of the solid drawing with its tiles in an order of the caller's own.

use crate::compare::both;
use crate::drawing::Drawing;
use crate::random::Random;
use crate::{grids, lists};
use layers::raw;
use slow::call::Answer;
use slow::order::tile_solid_in_order;

/// A drawing, and the order of its tiles.
#[derive(Clone, Debug)]
pub struct Ordered {
    pub drawing: Drawing,
    pub order: Vec<u16>,
}

/// How many 64-tiles a solid has.
fn tiles(drawing: &Drawing) -> u16 {
    drawing.grid.sizes.iter().map(|&n| n.div_ceil(64) as u16).product()
}

/// The numbers below n in any order.
fn shuffled(r: &mut Random, n: u16) -> Vec<u16> {
    let mut order: Vec<u16> = (0..n).collect();
    for i in 1..order.len() {
        order.swap(i, r.index(i + 1));
    }
    order
}

impl Ordered {
    /// Any order of the tiles of a part, mostly on few samples.
    pub fn random(r: &mut Random) -> Self {
        let most = if r.one_in(12) { 400_000 } else { 30_000 };
        let grid = grids::tiled(r, most);
        let drawing = Drawing::new(lists::any(r, &grid).tape(), grid);
        let order = match r.below(8) {
            0 => (0..tiles(&drawing)).collect(),
            1 => (0..tiles(&drawing)).rev().collect(),
            _ => shuffled(r, tiles(&drawing)),
        };
        Ordered { drawing, order }
    }

    /// With a wrong list, or something else damaged, or both.
    pub fn damaged(r: &mut Random) -> Self {
        let mut case = Ordered::random(r);
        if r.one_in(2) {
            case.drawing.damage(r);
        }
        if r.one_in(2) {
            case.damage_order(r);
        }
        case
    }

    fn damage_order(&mut self, r: &mut Random) {
        let n = self.order.len();
        let at = r.index(n);
        match r.below(6) {
            // one of the others a second time
            0 | 1 => self.order[at] = self.order[r.index(n)],
            2 => drop(self.order.remove(at)),
            3 => self.order.insert(at, r.below(n as u64 + 1) as u16),
            4 => self.order[at] = r.pick(&[n as u16, n as u16 + 1, 512, u16::MAX]),
            _ => self.order.clear(),
        }
    }

    /// Both calls' answer, or how they differ in it or in a buffer, all full of noise before.
    pub fn compare(
        &self,
        noise: &mut Random,
        core: impl FnOnce(&[u8], raw::Grid, &[u16], &mut [u16], &mut [u8]) -> raw::Answer,
    ) -> Result<Answer, String> {
        let Ordered { drawing: Drawing { tape, grid, solid, work, .. }, order } = self;
        let lent = (noise.noise(*solid, |v| (v >> 32) as u16), noise.bytes(*work));
        let core_grid = self.drawing.core_grid();
        both(
            "tile_solid_in_order",
            &lent,
            |(p, w)| core(tape, core_grid, order, p, w),
            |(p, w)| tile_solid_in_order(tape, grid, order, p, w),
        )
        .map_err(|e| format!("{e}: {self:?}"))
    }
}
