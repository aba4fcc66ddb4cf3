//! Input of the reader of formulas: text of random trees, text at the limits, damage.

use crate::compare::both;
use crate::grammar::BYTES;
use crate::random::Random;
use crate::trees::{random_tree, spaced};
use layers::raw;
use slow::call::Answer;
use slow::text::{self, Fault, OUTPUT};

/// Text to read into that many bytes.
#[derive(Clone)]
pub struct Reading {
    pub text: Vec<u8>,
    pub out: usize,
}

impl Reading {
    /// Into a buffer that fits.
    pub fn new(text: impl Into<Vec<u8>>) -> Self {
        Reading { text: text.into(), out: OUTPUT }
    }

    /// Both readers' answer, or how they differ in it or in any byte of the buffer, full of noise before.
    pub fn compare(&self, noise: &mut Random) -> Result<Answer, String> {
        self.compare_on(&noise.bytes(self.out), None)
    }

    /// The same on a buffer that is given, with a fault planted in the slow reader.
    pub fn compare_on(&self, lent: &Vec<u8>, fault: Option<Fault>) -> Result<Answer, String> {
        let slow = |out: &mut Vec<u8>| match fault {
            Some(fault) => text::faulty(fault, &self.text, out),
            None => text::read_text(&self.text, out),
        };
        let said = both("read_text", lent, |out| raw::read_text(&self.text, out), slow);
        let shown = &self.text[..self.text.len().min(2_000)];
        said.map_err(|e| format!("{e}: {:?} of {} bytes", String::from_utf8_lossy(shown), self.text.len()))
    }

    /// A random tree's text; one at a limit; either of them damaged.
    pub fn random(r: &mut Random) -> Self {
        let text = if r.one_in(4) { limit(r) } else { spaced(&random_tree(r), r) };
        let mut reading = Reading::new(text);
        if r.one_in(2) {
            let at = r.index(reading.text.len() + 1);
            damage(r, &mut reading.text, at);
        }
        reading
    }
}

/// Changes, removes or puts in a byte, or cuts the text off there.
pub fn damage(r: &mut Random, text: &mut Vec<u8>, at: usize) {
    let byte = if r.one_in(8) { r.number() as u8 } else { r.pick(BYTES) };
    match r.below(10) {
        0 => text.truncate(at),
        1..=3 => text.insert(at, byte),
        4 | 5 if at < text.len() => {
            text.remove(at);
        }
        _ if at < text.len() => text[at] = byte,
        _ => text.push(byte),
    }
}

/// A text with about as many clauses, slots or open brackets as may be, or a number about the greatest.
pub fn limit(r: &mut Random) -> Vec<u8> {
    let about = |r: &mut Random, n: usize| n - 2 + r.index(5);
    let text = match r.below(6) {
        0 => {
            let (sign, join) = (r.pick(&["", "-"]), r.pick(&["+", "-", "*", "/", " + "]));
            let terms = vec!["x"; about(r, 512)].join(join);
            format!("{sign}{terms}{}", r.pick(&["", "", "+", " ?"]))
        }
        1 => {
            let depth = about(r, 21);
            let inner = r.pick(&["x", "x+x", "x+x*x", "-x"]);
            "x+x*max(x,".repeat(depth) + inner + &")".repeat(depth)
        }
        2 | 3 => {
            let depth = about(r, 32);
            let open = r.pick(&["(", "abs(", "x+(", "-(", "1*sqr (", "min(x,"]);
            open.repeat(depth) + r.pick(&["y", "y", "1(", "?", "y, ("]) + &")".repeat(depth)
        }
        4 => {
            let whole = about(r, 32_767);
            format!("{whole}{}", r.pick(&["", ".9999", ".0", "."]))
        }
        _ => format!("{}{}", "0".repeat(r.index(6)), r.pick(&["1", "1.", "7.00009", "1.5", "0.9999"])),
    };
    text.into_bytes()
}
