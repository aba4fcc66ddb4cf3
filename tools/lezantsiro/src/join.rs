//! Several parts as one: the core's own union of tapes.

use crate::args::JoinArgs;
use crate::commands::Said;
use crate::messages::{Stop, grouped, text};
use crate::part::Part;
use files::json::Value;
use files::whole;
use layers::{Tape, UnionError};
use std::path::Path;

/// Joins the parts and writes the tape of the whole.
pub fn run(args: &JoinArgs) -> Result<Said, Stop> {
    let parts: Result<Vec<Part>, Stop> = args.parts.iter().map(|path| Part::read(path)).collect();
    let parts = parts?;
    let tapes: Vec<Tape> = parts.iter().map(|part| part.tape.clone()).collect();
    let tape = Tape::union_all(&tapes).map_err(|error| too_large(&error))?;
    write(&args.out, &tape)?;
    let (clauses, slots) = (tape.clause_count(), tape.slots());
    let each: Vec<String> = parts.iter().map(|part| grouped(part.tape.clause_count() as u128)).collect();
    let mut lines = vec![format!(
        "{}: a tape of {} clauses in {slots} slots, of {} parts of {} clauses",
        args.out.display(),
        grouped(clauses as u128),
        parts.len(),
        each.join(" and ")
    )];
    lines.extend(parts.iter().filter_map(Part::remark));
    let value = Value::object([
        ("status", Value::Whole(0)),
        ("file", text(args.out.display())),
        ("clauses", Value::Whole(clauses as i128)),
        ("slots", Value::Whole(slots.into())),
        ("edition", Value::Whole(tape.edition().into())),
    ]);
    Ok(Said::well(lines, value))
}

/// Writes a tape to a file of its own, whole or not at all.
pub fn write(path: &Path, tape: &Tape) -> Result<(), Stop> {
    if let Some(dir) = path.parent() {
        std::fs::create_dir_all(dir).map_err(|error| Stop::unwritten(dir, &error))?;
    }
    whole::write(path, |to| to.write_all(tape.as_bytes())).map_err(|error| Stop::unwritten(path, &error))
}

fn too_large(error: &UnionError) -> Stop {
    let words = format!("the whole would have {} clauses and {} slots", error.clauses(), error.slots());
    Stop::refused(error.refusal(), &words)
}
