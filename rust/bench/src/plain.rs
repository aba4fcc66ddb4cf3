//! A plain Rust version of the walk: the same regions in the same order, the same packed words, the same rules and
//! limits. A short tape is kept as its words, and not as marks beside the tape as given: so one would write the walk if
//! nothing bounded the room to work in. The features `core-root`, `two-words` and `marks` hold it to a means of the core
//! each. It trusts its tape and grid, so it is given only those that the core accepted.

mod arith;
mod flat;
mod kept;
mod lanes;
mod run;
mod shorten;
mod slopes;
mod solid;
mod spans;
mod word;

pub use flat::{short_lengths, tile_flat};
pub use kept::words;
pub use slopes::tile_slopes;
pub use solid::tile_solid;

/// Slots of any tape.
const SLOTS: usize = layers::MAX_SLOTS as usize;

/// What one level of the walk keeps while those below it are at work.
struct Level {
    /// The choices of the regions that were run together.
    choices: Vec<[u8; 8]>,
    /// The short tape of the region that is visited, in a buffer as long as the whole tape; its words end at its end.
    short: Vec<u64>,
    kept: kept::Kept,
}

impl Level {
    fn new(code: &[u64]) -> Level {
        Level { choices: vec![[0; 8]; code.len()], short: vec![0; code.len()], kept: kept::Kept::new(code) }
    }
}

/// Sample i of an axis, in the middle of its cell: the sum is a value, so what its parts lose beyond 32 bits is lost in
/// the sum too.
fn sample(first: i32, step: i32, i: u32) -> i32 {
    first.wrapping_add(step.wrapping_mul(i as i32)).wrapping_add(step / 2)
}

/// The samples of an axis from the index `from` to the one before `end`.
fn axis(first: i32, step: i32, from: u32, end: u32) -> arith::Span {
    arith::Span::new(sample(first, step, from), sample(first, step, end - 1))
}
