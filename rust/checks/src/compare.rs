//! One call of the core beside the same call of the slow drawing.

use layers::raw;
use slow::call::Answer;

pub fn answer(a: raw::Answer) -> Answer {
    Answer { number: a.number, place: a.place, count: a.count }
}

/// Makes both calls on what is lent. The answer, or how the two differ: in what comes back or in any lent byte. A refusal
/// must leave every lent byte as it was.
pub fn both<B: Clone + PartialEq>(
    call: &str,
    lent: &B,
    core: impl FnOnce(&mut B) -> raw::Answer,
    slow: impl FnOnce(&mut B) -> Answer,
) -> Result<Answer, String> {
    let (mut ours, mut theirs) = (lent.clone(), lent.clone());
    let (said, expected) = (answer(core(&mut ours)), slow(&mut theirs));
    if said != expected {
        return Err(format!("{call}: {said:?}, not {expected:?}"));
    }
    if ours != theirs {
        return Err(format!("{call}: {said:?}, but a lent buffer differs"));
    }
    if said.number != 0 && ours != *lent {
        return Err(format!("{call}: {said:?}, but a lent buffer was changed"));
    }
    Ok(said)
}
