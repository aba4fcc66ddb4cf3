//! Memory made for a call of the core.

use crate::Refusal;
use crate::raw::Answer;

/// Lends a call `len` numbers to write, and gives them back with the call's count.
pub fn filled<T: Clone + Default>(len: usize, call: impl FnOnce(&mut [T]) -> Answer) -> Result<(Vec<T>, u64), Refusal> {
    let mut lent = vec![T::default(); len];
    let count = call(&mut lent).into_result()?;
    Ok((lent, count))
}
