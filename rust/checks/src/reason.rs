//! Input of the call that tells the reason for a pixel.

use crate::drawing::Drawing;
use crate::random::Random;
use slow::reason::{Reason, explain_pixel};

/// A drawing, of which the flat picture is asked about, and a pixel.
#[derive(Clone, Debug)]
pub struct Asked {
    pub drawing: Drawing,
    pub x: u32,
    pub y: u32,
}

impl Asked {
    /// A pixel of any drawing, often next to an edge of a region.
    pub fn random(r: &mut Random) -> Self {
        let drawing = match r.below(8) {
            0 => Drawing::random(r),
            1 => Drawing::arithmetic(r),
            2 => Drawing::wide(r),
            3 => Drawing::shapes(r),
            _ => Drawing::flat(r, 20_000),
        };
        let [x, y] = [0, 1].map(|axis| {
            let size = drawing.grid.sizes[axis];
            let any = r.below(size as u64) as u32;
            let edge = r.pick(&[0, 7, 8, 63, 64, 127, 128, size - 1]);
            if r.one_in(3) && edge < size { edge } else { any }
        });
        Asked { drawing, x, y }
    }

    /// With a pixel outside the grid, or something else damaged, or both.
    pub fn damaged(r: &mut Random) -> Self {
        let mut case = Asked::random(r);
        let [width, height, _] = case.drawing.grid.sizes;
        if r.one_in(2) {
            case.drawing.damage(r);
        }
        match r.below(6) {
            0 => case.x = r.pick(&[width, width + 1, width.next_multiple_of(64), u32::MAX]),
            1 => case.y = r.pick(&[height, height + 1, height.next_multiple_of(64), u32::MAX]),
            2 => (case.x, case.y) = (height, width),
            _ => {}
        }
        case
    }

    /// What the calls say, or how they differ in it or in the work buffer, full of noise before. A refusal must leave
    /// every byte of it as it was.
    pub fn compare(
        &self,
        noise: &mut Random,
        core: impl FnOnce(&Drawing, u32, u32, &mut [u8]) -> Reason,
    ) -> Result<Reason, String> {
        let Asked { drawing, x, y } = self;
        let lent = noise.bytes(drawing.work);
        let (mut ours, mut theirs) = (lent.clone(), lent.clone());
        let said = core(drawing, *x, *y, &mut ours);
        let expected = explain_pixel(&drawing.tape, &drawing.grid, *x, *y, &mut theirs);
        if said != expected {
            return Err(format!("explain_pixel: {said:?}, not {expected:?}: {self:?}"));
        }
        if ours != theirs {
            return Err(format!("explain_pixel: {said:?}, but the work buffer differs: {self:?}"));
        }
        if said.answer.number != 0 && ours != lent {
            return Err(format!("explain_pixel: {said:?}, but the work buffer was changed: {self:?}"));
        }
        Ok(said)
    }
}
