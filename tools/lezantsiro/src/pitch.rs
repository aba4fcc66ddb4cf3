//! A pitch, exactly. The core's grids have steps of whole units of 1/65,536, and 0.05 mm is none. So a pitch of p/q mm
//! is drawn on a grid whose step is p·t, where t = 65,536 / 2^⌈log₂ p⌉, and the tape divides each coordinate by q·t: by
//! the core's own quotient it is then the exact coordinate in mm, rounded down to a unit.

use crate::units::{Fraction, GREATEST, UNITS};
use layers::{Clause, Opcode, Refusal, Tape};

/// The samples of an axis as the core is told of them.
#[derive(Clone, Copy, Debug, PartialEq, Eq)]
pub struct Axis {
    pub count: u32,
    /// Where the first cell begins, in units.
    pub origin: i64,
    /// The side of a cell, in units.
    pub step: i32,
    /// What the tape divides the coordinate by; `None` if units are what they are.
    pub divisor: Option<i32>,
}

impl Axis {
    /// The axis of these samples, exactly: as units if the pitch and the origin are whole in them, otherwise scaled.
    /// `None` if neither is possible.
    pub fn exact(pitch: Fraction, origin: Fraction, count: u32) -> Option<Axis> {
        Axis::in_units(pitch, origin, count).or_else(|| Axis::scaled(pitch, origin, count))
    }

    fn in_units(pitch: Fraction, origin: Fraction, count: u32) -> Option<Axis> {
        let [step, origin] = [pitch, origin].map(|length| length * Fraction::whole(UNITS));
        (step.is_whole() && origin.is_whole()).then_some(())?;
        Axis { count, origin: origin.num().try_into().ok()?, step: step.num().try_into().ok()?, divisor: None }
            .fitting()
    }

    /// The fraction is widened by the odd number that makes the origin whole on the grid too, which is 1 as a rule.
    fn scaled(pitch: Fraction, origin: Fraction, count: u32) -> Option<Axis> {
        let odd = odd_part((origin * Fraction::whole(pitch.den())).den());
        let (p, q) = (pitch.num() * odd, pitch.den() * odd);
        let t = UNITS >> ceil_log2(p).filter(|log| *log <= 16)?;
        let start = origin * Fraction::whole(q * t);
        // half a step must be whole, or each sample would lie half a unit low
        (start.is_whole() && p * t % 2 == 0).then_some(())?;
        let divisor = i32::try_from(q * t).ok()?;
        let step = i32::try_from(p * t).ok()?;
        Axis { count, origin: start.num().try_into().ok()?, step, divisor: Some(divisor) }.fitting()
    }

    /// The axis with the nearest step of whole units. A plate in the middle stays there.
    pub fn nearest(pitch: Fraction, origin: Fraction, count: u32, centred: bool) -> Option<Axis> {
        let step = (pitch * Fraction::whole(UNITS)).round().max(1);
        let origin = match centred {
            true => -(i128::from(count) * step).div_euclid(2),
            false => (origin * Fraction::whole(UNITS)).round(),
        };
        Axis { count, origin: origin.try_into().ok()?, step: step.try_into().ok()?, divisor: None }.fitting()
    }

    /// The axis if the core takes it: the origin and the last sample within its values.
    pub fn fitting(self) -> Option<Axis> {
        let ends = [self.origin.into(), self.sample(self.count.saturating_sub(1))];
        (self.step > 0 && ends.iter().all(|end: &i128| end.abs() <= GREATEST)).then_some(self)
    }

    /// The core's own sample of this index, in units of the grid.
    pub fn sample(&self, index: u32) -> i128 {
        let step = i128::from(self.step);
        i128::from(self.origin) + i128::from(index) * step + step / 2
    }

    /// Where a cell of this index begins, in 64 bits.
    pub fn begin(&self, index: u32) -> i64 {
        self.origin + i64::from(index) * i64::from(self.step)
    }
}

/// The least n for which 2^n is at least p; `None` for p below 1.
fn ceil_log2(p: i128) -> Option<u32> {
    (p > 0).then(|| u128::BITS - (p as u128 - 1).leading_zeros())
}

fn odd_part(number: i128) -> i128 {
    number >> number.trailing_zeros()
}

/// The tape whose x, y and z are divided by these numbers, in units: after each clause that reads an axis come its
/// divisor, in a slot of its own, and the quotient. Refused where the core's limits have no room for that.
pub fn scaled_tape(tape: &Tape, divisors: [Option<i32>; 3]) -> Result<Tape, Refusal> {
    if divisors == [None; 3] {
        return Ok(tape.clone());
    }
    let spare = tape.slots();
    let mut clauses = Vec::new();
    for clause in tape.clauses() {
        clauses.push(clause);
        if let Some(divisor) = axis_of(clause.opcode).and_then(|axis| divisors[axis]) {
            clauses.push(Clause::constant(spare, divisor));
            clauses.push(Clause::divide(clause.out, clause.out, spare));
        }
    }
    Tape::from_clauses(spare.saturating_add(1), &clauses)
}

/// 0, 1, 2 for a clause that reads x, y, z of the sample.
pub fn axis_of(opcode: Opcode) -> Option<usize> {
    match opcode {
        Opcode::X => Some(0),
        Opcode::Y => Some(1),
        Opcode::Z => Some(2),
        _ => None,
    }
}

#[cfg(test)]
mod tests {
    use super::*;
    use crate::random::Random;

    fn length(text: &str) -> Fraction {
        text.parse().expect("a length")
    }

    fn centred(pitch: &str, count: u32) -> Option<Axis> {
        let pitch = length(pitch);
        Axis::exact(pitch, pitch * Fraction::new(-i128::from(count), 2), count)
    }

    #[test]
    fn steps_and_divisors_are_those_of_the_rule() {
        let axis = |step, divisor, origin| Some(Axis { count: 3840, origin, step, divisor });
        assert_eq!(centred("0.05", 3840), axis(65_536, Some(20 * 65_536), -1920 * 65_536));
        assert_eq!(centred("0.035", 3840), axis(57_344, Some(200 * 8_192), -1920 * 57_344));
        assert_eq!(centred("0.125", 3840), axis(8_192, None, -1920 * 8_192));
        // too many digits for 16 bits, and too fine for the divisor
        assert_eq!(centred("0.065537", 3840), None);
        assert_eq!(centred("1/32768", 3840), axis(2, None, -3840));
        assert_eq!(centred("1/32769", 3840), None);
    }

    #[test]
    fn logarithms_are_rounded_up() {
        let found = [0, 1, 2, 3, 4, 5, 8, 9, 65_536, 65_537].map(ceil_log2);
        assert_eq!(found, [None, Some(0), Some(1), Some(2), Some(2), Some(3), Some(3), Some(4), Some(16), Some(17)]);
    }

    /// The quotient of the core, at every sample, is the exact coordinate rounded down: shown by the value of x itself.
    #[test]
    fn every_coordinate_is_the_exact_one_rounded_down() {
        let tape = Tape::from_text("x").expect("a tape");
        let mut random = Random::new(37);
        for (pitch, origin) in
            [("0.05", "-96"), ("0.035", "0.013"), ("0.0285", "-109.44"), ("7/300", "0.1"), ("0.04725", "-60.48")]
        {
            let (pitch, origin) = (length(pitch), length(origin));
            let axis = Axis::exact(pitch, origin, 7680).expect("an axis");
            let drawn = scaled_tape(&tape, [axis.divisor, None, None]).expect("room");
            for _ in 0..2_000 {
                let index = random.below(7680) as u32;
                let exact = (origin + pitch * Fraction::new(2 * i128::from(index) + 1, 2)).floor_units();
                let value = match drawn.probe(axis.sample(index) as f64 / 65_536.0, 0.0, 0.0).expect("a value") {
                    layers::Probe::Inside(value) | layers::Probe::Outside(value) => value,
                    layers::Probe::Surface => 0.0,
                };
                assert_eq!((value * 65_536.0) as i128, exact, "{pitch} from {origin}, sample {index}");
            }
        }
    }

    #[test]
    fn an_origin_that_is_not_whole_widens_the_fraction() {
        // 1/20 mm from 13/1000 mm on: on a grid of 25/500 mm the corner is 6.5 five-hundredths
        let axis = Axis::exact(length("0.05"), length("0.013"), 10).expect("an axis");
        assert_eq!((axis.divisor, axis.step, axis.origin), (Some(500 * 2_048), 25 * 2_048, 13_312));
    }

    #[test]
    fn tapes_without_room_are_refused() {
        let full = vec![Clause::x(0); layers::MAX_CLAUSES];
        let divisors = [Some(20 * 65_536), None, None];
        let tape = |slots: u8, count: usize| Tape::from_clauses(slots, &full[..count]).expect("a tape");
        assert_eq!(scaled_tape(&tape(1, 2049), divisors), Err(Refusal::CountOutOfRange));
        assert_eq!(scaled_tape(&tape(layers::MAX_SLOTS, 1), divisors), Err(Refusal::CountOutOfRange));
        assert_eq!(scaled_tape(&tape(1, 2048), divisors).expect("room").clause_count(), 6144);
        assert_eq!(scaled_tape(&tape(1, 6144), [None; 3]).expect("as it is"), tape(1, 6144));
    }

    #[test]
    fn the_ends_of_the_range_fit_and_no_more() {
        let axis = Axis { count: 2, origin: i64::from(i32::MAX) - 3, step: 2, divisor: None };
        assert_eq!(axis.fitting(), Some(axis));
        assert_eq!(Axis { count: 3, ..axis }.fitting(), None);
        assert_eq!(Axis { origin: -i64::from(i32::MAX) - 1, ..axis }.fitting(), None);
    }
}
