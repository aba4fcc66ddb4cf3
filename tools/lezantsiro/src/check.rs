//! What can be said of a part and its plate before anything is written.

use crate::draw::{Share, layer, touches_edge};
use crate::messages::{Stop, grouped, runs, text};
use crate::part::Part;
use crate::plate::{Levels, Plate, Samples};
use crate::progress::Progress;
use crate::stack::tape_for;
use files::json::Value;
use layers::{Refusal, Tape};
use rayon::prelude::*;

/// The most runs of a clause over a 64-tile of a layer, by the bound that the core proves.
const RUNS_A_TILE: u128 = 4_161;

/// What a check finds.
#[derive(Clone, Debug, PartialEq, Eq)]
pub struct Report {
    pub clauses: usize,
    pub slots: u8,
    pub edition: u8,
    pub drawn_clauses: usize,
    pub drawn_slots: u8,
    /// The most clauses that drawing a layer runs.
    pub bound: u128,
    pub layers: Option<u32>,
    pub clamped: Option<String>,
    pub pitch: Vec<String>,
    pub empty: Vec<usize>,
    pub touching: Vec<usize>,
}

/// Checks a part on its plate; with levels every layer is drawn, and none is written.
pub fn check(
    part: &Part,
    plate: &Plate,
    levels: Option<Levels>,
    clamped: Option<String>,
    quiet: bool,
) -> Result<Report, Stop> {
    let tape = tape_for(&part.tape, plate)?;
    let (empty, touching) = match levels {
        Some(levels) => looks(&tape, plate, levels, quiet)?,
        None => (Vec::new(), Vec::new()),
    };
    let drawn_clauses = tape.clause_count();
    Ok(Report {
        clauses: part.tape.clause_count(),
        slots: part.tape.slots(),
        edition: part.tape.edition(),
        drawn_clauses,
        drawn_slots: tape.slots(),
        bound: drawn_clauses as u128 * RUNS_A_TILE * plate.tiles(),
        layers: levels.map(|levels| levels.count()),
        clamped,
        pitch: [("x", &plate.x), ("y", &plate.y)].map(|(name, samples)| pitch_words(name, samples)).to_vec(),
        empty,
        touching,
    })
}

/// The layers without material, and those with material at the plate's edge.
fn looks(tape: &Tape, plate: &Plate, levels: Levels, quiet: bool) -> Result<(Vec<usize>, Vec<usize>), Stop> {
    let progress = Progress::new("layers", levels.count().into(), quiet);
    let share = if (levels.count() as usize) < rayon::current_num_threads() { Share::Blocks } else { Share::Nothing };
    let look = |index: u32| -> Result<(bool, bool), Stop> {
        let z = i32::try_from(levels.units(index)).map_err(|_| Stop::from(Refusal::SampleOutOfRange))?;
        let mask = layer(tape, plate, z, share)?.mask;
        progress.step();
        Ok((mask.filled() == 0, touches_edge(&mask)))
    };
    let found: Result<Vec<(bool, bool)>, Stop> = match share {
        Share::Blocks => (0..levels.count()).map(look).collect(),
        Share::Nothing => (0..levels.count()).into_par_iter().map(look).collect(),
    };
    let found = found?;
    let such = |is: fn(&(bool, bool)) -> bool| {
        found.iter().enumerate().filter(|(_, layer)| is(layer)).map(|(index, _)| index).collect()
    };
    Ok((such(|layer| layer.0), such(|layer| layer.1)))
}

/// What the pitch does on an axis.
fn pitch_words(name: &str, samples: &Samples) -> String {
    let Samples { pitch, axis, .. } = samples;
    let step = grouped(axis.step.unsigned_abs().into());
    match (samples.exact, axis.divisor) {
        (true, None) => format!("{name}: {pitch} mm is {step} units: exact as it is"),
        (true, Some(divisor)) => {
            let divisor = grouped(divisor.unsigned_abs().into());
            format!(
                "{name}: {pitch} mm on a grid of {step} units, {name} divided by {divisor} units: exact, rounded down"
            )
        }
        (false, _) => {
            let off = samples.off();
            let pixels = (off / *pitch).to_f64();
            format!(
                "{name}: {pitch} mm drawn as {step} units: an edge is {} mm off, {pixels:.2} samples",
                off.decimal()
            )
        }
    }
}

impl Report {
    pub fn words(&self, part: &Part, plate: &Plate) -> Vec<String> {
        let [[left, right], [bottom, top]] = [plate.x.ends(), plate.y.ends()].map(|ends| ends.map(|end| end.decimal()));
        let (width, height, aa) = (plate.width, plate.height, plate.aa);
        let samples = if aa == 1 { String::new() } else { format!(", {aa} by {aa} samples each") };
        let mut lines = vec![
            format!("{}: {} clauses, {} slots, edition {}", part.name, self.clauses, self.slots, self.edition),
            format!("plate: {width} by {height} pixels{samples}, x {left} to {right}, y {bottom} to {top} mm"),
        ];
        lines.extend(part.remark());
        lines.extend(self.pitch.iter().map(|words| format!("pitch on {words}")));
        lines.push(format!("drawn: {} clauses, {} slots", self.drawn_clauses, self.drawn_slots));
        let all = self.layers.map(|layers| self.bound * u128::from(layers));
        let all = all.map_or(String::new(), |all| format!(", {} in all", grouped(all)));
        lines.push(format!("most runs of a clause: {} a layer{all}", grouped(self.bound)));
        lines.push(format!("clamping: {}", self.clamped.as_deref().unwrap_or("none")));
        if let Some(layers) = self.layers {
            lines.push(format!("layers: {layers}; empty: {}", runs(&self.empty)));
            lines.push(format!("layers that touch the plate's edge: {}", runs(&self.touching)));
        }
        lines
    }

    pub fn to_json(&self, part: &Part) -> Value {
        let list = |layers: &[usize]| Value::List(layers.iter().map(|layer| Value::Whole(*layer as i128)).collect());
        Value::object([
            ("part", text(&part.name)),
            ("clauses", Value::Whole(self.clauses as i128)),
            ("slots", Value::Whole(self.slots.into())),
            ("edition", Value::Whole(self.edition.into())),
            ("drawn_clauses", Value::Whole(self.drawn_clauses as i128)),
            ("drawn_slots", Value::Whole(self.drawn_slots.into())),
            ("most_runs_a_layer", Value::Whole(self.bound as i128)),
            ("pitch", Value::List(self.pitch.iter().map(text).collect())),
            ("clamped", self.clamped.as_ref().map_or(Value::Null, text)),
            ("layers", self.layers.map_or(Value::Null, |layers| Value::Whole(layers.into()))),
            ("empty", list(&self.empty)),
            ("touching", list(&self.touching)),
        ])
    }
}
