//! Tapes of `.vm` files, as Fidget and mpr have them: a line a clause, with a name, an operation and its operands; the
//! last line is the result. What the core can't say exactly is refused by its name and line.

use crate::args::ImportArgs;
use crate::commands::Said;
use crate::join::write;
use crate::messages::{Stop, grouped, text};
use crate::units::{Fraction, GREATEST, UNITS};
use files::json::Value;
use layers::{MAX_CLAUSES, MAX_SLOTS, Opcode, Refusal, Tape};
use parts::formula::{Formula, Id};
use parts::slots::{TooBig, compile};
use std::collections::HashMap;
use std::path::{Path, PathBuf};

/// The longest file that is read.
const LONGEST: u64 = 16 << 20;

/// A model, and what rounding has done to its constants.
struct Model {
    tape: Tape,
    lines: usize,
    rounded: usize,
    furthest: f64,
}

pub fn run(args: &ImportArgs) -> Result<Said, Stop> {
    let source = source(&args.file)?;
    let model = model(&source, args.scale).map_err(|stop| stop.of(&args.file))?;
    let out = args.out.clone().unwrap_or_else(|| named(&args.file));
    write(&out, &model.tape)?;
    let (clauses, slots) = (model.tape.clause_count(), model.tape.slots());
    let lines = vec![
        format!(
            "{}: a tape of {} clauses in {slots} slots, of {} lines; one of the model is {} mm",
            out.display(),
            grouped(clauses as u128),
            grouped(model.lines as u128),
            args.scale.decimal()
        ),
        match model.rounded {
            0 => "every constant is a whole number of units of 1/65,536".to_string(),
            n => format!(
                "{} constants are rounded to the nearest 1/65,536, by at most {:.7}; {:.7} mm where one is a length",
                grouped(n as u128),
                model.furthest,
                model.furthest * args.scale.to_f64()
            ),
        },
        format!("coordinates are those of the model, in steps of {:.7} mm", args.scale.to_f64() / 65_536.0),
    ];
    let value = Value::object([
        ("status", Value::Whole(0)),
        ("file", text(out.display())),
        ("clauses", Value::Whole(clauses as i128)),
        ("slots", Value::Whole(slots.into())),
        ("rounded", Value::Whole(model.rounded as i128)),
        ("furthest", Value::Real(model.furthest)),
    ]);
    Ok(Said::well(lines, value))
}

/// out/ and the file's name.
fn named(file: &Path) -> PathBuf {
    PathBuf::from("out").join(file.file_stem().unwrap_or("model".as_ref())).with_extension("tape")
}

fn source(path: &Path) -> Result<String, Stop> {
    let unread = |error: std::io::Error| Stop::unread(path, &error);
    if std::fs::metadata(path).map_err(unread)?.len() > LONGEST {
        return Err(Stop::Usage(format!("{} is longer than {LONGEST} bytes", path.display())));
    }
    std::fs::read_to_string(path).map_err(unread)
}

/// Why a file is no model.
#[derive(Debug, PartialEq, Eq)]
enum Wrong {
    /// The line, counted from 1, and what is wrong in it.
    Line(usize, String),
    /// It has this many clauses, or `None`: it needs more slots than a tape has.
    TooBig(Option<usize>),
}

impl Wrong {
    fn of(self, path: &Path) -> Stop {
        let name = path.display();
        match self {
            Wrong::Line(line, words) => Stop::Usage(format!("{name}, line {line}: {words}")),
            Wrong::TooBig(Some(clauses)) => {
                let (clauses, most) = (grouped(clauses as u128), grouped(MAX_CLAUSES as u128));
                let words = format!("{name} has {clauses} clauses, and a tape at most {most}");
                Stop::refused(Refusal::CountOutOfRange, &words)
            }
            Wrong::TooBig(None) => {
                let words = format!("{name}: more than {MAX_SLOTS} values wait at once, the slots of a tape");
                Stop::refused(Refusal::CountOutOfRange, &words)
            }
        }
    }
}

fn model(source: &str, scale: Fraction) -> Result<Model, Wrong> {
    let mut reader = Reader { formula: Formula::default(), names: HashMap::new(), rounded: 0, furthest: 0.0, scale };
    let mut last = None;
    let mut lines = 0;
    for (line, words) in source.lines().enumerate() {
        let words: Vec<&str> = words.split('#').next().unwrap_or("").split_whitespace().collect();
        if let [name, operation, operands @ ..] = &words[..] {
            let id = reader.clause(operation, operands).map_err(|words| Wrong::Line(line + 1, words))?;
            if reader.names.insert(name.to_string(), id).is_some() {
                return Err(Wrong::Line(line + 1, format!("`{name}` was given before")));
            }
            last = Some(id);
            lines += 1;
        } else if !words.is_empty() {
            return Err(Wrong::Line(line + 1, format!("`{}` is no clause: it has no operation", words[0])));
        }
    }
    let last = last.ok_or_else(|| Wrong::Line(1, "the file has no clause".to_string()))?;
    let tape = compile(&reader.formula, last, MAX_SLOTS).map_err(|big| match big {
        TooBig::Clauses(clauses) => Wrong::TooBig(Some(clauses)),
        TooBig::Slots => Wrong::TooBig(None),
    })?;
    Ok(Model { tape, lines, rounded: reader.rounded, furthest: reader.furthest })
}

struct Reader {
    formula: Formula,
    names: HashMap<String, Id>,
    rounded: usize,
    furthest: f64,
    scale: Fraction,
}

impl Reader {
    fn clause(&mut self, operation: &str, operands: &[&str]) -> Result<Id, String> {
        match operation {
            "const" => self.constant(one(operation, operands)?),
            "var-x" | "var-y" | "var-z" => {
                none(operation, operands)?;
                self.axis(usize::from(operation.as_bytes()[4] - b'x'))
            }
            _ => self.operation(operation, operands),
        }
    }

    fn constant(&mut self, word: &str) -> Result<Id, String> {
        let number: f64 = word.parse().map_err(|_| format!("`{word}` is no number"))?;
        let units = (number * UNITS as f64).round();
        if !units.is_finite() || units.abs() > GREATEST as f64 {
            return Err(format!("{word} is outside the range of values, -32768 to 32768"));
        }
        let off = (units / UNITS as f64 - number).abs();
        self.rounded += usize::from(off > 0.0);
        self.furthest = self.furthest.max(off);
        Ok(self.formula.constant(units as i32))
    }

    /// x, y or z in the model's lengths: what the plate has in mm, divided by the scale.
    fn axis(&mut self, axis: usize) -> Result<Id, String> {
        let id = self.formula.axis(axis);
        if self.scale == Fraction::whole(1) {
            return Ok(id);
        }
        let units = self.scale * Fraction::whole(UNITS);
        let fits = units.is_whole() && units.floor() <= GREATEST;
        if !fits {
            return Err(format!("a scale of {} mm is no whole number of 1/65,536 mm up to 32767", self.scale));
        }
        let scale = self.formula.constant(units.floor() as i32);
        Ok(self.formula.binary(Opcode::Divide, id, scale))
    }

    fn operation(&mut self, operation: &str, operands: &[&str]) -> Result<Id, String> {
        let unary = match operation {
            "copy" => Some(None),
            "neg" => Some(Some(Opcode::Negate)),
            "abs" => Some(Some(Opcode::Absolute)),
            "square" => Some(Some(Opcode::Square)),
            "sqrt" => Some(Some(Opcode::Root)),
            _ => None,
        };
        if let Some(opcode) = unary {
            let a = self.known(one(operation, operands)?)?;
            return Ok(opcode.map_or(a, |opcode| self.formula.unary(opcode, a)));
        }
        if operation == "recip" {
            let a = self.known(one(operation, operands)?)?;
            let unit = self.formula.constant(UNITS as i32);
            return Ok(self.formula.binary(Opcode::Divide, unit, a));
        }
        let opcode = match operation {
            "add" => Opcode::Add,
            "sub" => Opcode::Subtract,
            "mul" => Opcode::Multiply,
            "div" => Opcode::Divide,
            "min" => Opcode::Minimum,
            "max" => Opcode::Maximum,
            _ => return Err(format!("`{operation}` is no operation that a tape can say exactly")),
        };
        let [a, b] = operands else {
            return Err(format!("`{operation}` takes two operands, not {}", operands.len()));
        };
        let (a, b) = (self.known(a)?, self.known(b)?);
        Ok(self.formula.binary(opcode, a, b))
    }

    fn known(&self, name: &str) -> Result<Id, String> {
        self.names.get(name).copied().ok_or_else(|| format!("`{name}` was not given in a line before"))
    }
}

fn none(operation: &str, operands: &[&str]) -> Result<(), String> {
    if operands.is_empty() { Ok(()) } else { Err(format!("`{operation}` takes no operand")) }
}

fn one<'a>(operation: &str, operands: &[&'a str]) -> Result<&'a str, String> {
    match operands {
        [operand] => Ok(operand),
        _ => Err(format!("`{operation}` takes one operand, not {}", operands.len())),
    }
}

#[cfg(test)]
mod tests {
    use super::*;
    use layers::Probe;

    const DISC: &str = "# a disc\n_0 var-x\n_1 square _0\n_2 var-y\n_3 square _2\n_4 add _1 _3\n_5 sqrt _4\n\
                        _6 const 0.5 # radius\n\n_7 sub _5 _6\n";

    fn scaled(source: &str, scale: &str) -> Result<Model, Wrong> {
        model(source, scale.parse().expect("a scale"))
    }

    #[test]
    fn a_disc_is_a_disc_at_every_scale() {
        let disc = scaled(DISC, "1").expect("a model");
        assert_eq!((disc.tape.clause_count(), disc.lines, disc.rounded), (8, 8, 0));
        assert_eq!(disc.tape.probe(0.0, 0.0, 0.0), Ok(Probe::Inside(-0.5)));
        let large = scaled(DISC, "20").expect("a model");
        assert_eq!(large.tape.probe(10.0, 0.0, 0.0), Ok(Probe::Surface));
        assert_eq!(large.tape.probe(0.0, -20.0, 0.0), Ok(Probe::Outside(0.5)));
    }

    #[test]
    fn rounding_is_told() {
        let model = scaled("a const 0.1\nb const 0.25\nc add a b", "1").expect("a model");
        assert_eq!(model.rounded, 1);
        assert!((model.furthest - (6554.0 / 65_536.0 - 0.1)).abs() < 1e-12, "{}", model.furthest);
    }

    #[test]
    fn what_cannot_be_said_is_refused_by_name_and_line() {
        for (source, line, words) in [
            ("", 1, "no clause"),
            ("a var-x\nb sin a", 2, "`sin` is no operation"),
            ("a var-x\n\nb add a c", 3, "`c` was not given"),
            ("a const x", 1, "`x` is no number"),
            ("a const 1e9", 1, "outside the range"),
            ("a const nan", 1, "outside the range"),
            ("a var-x 1", 1, "takes no operand"),
            ("a var-x\nb add a", 2, "takes two operands, not 1"),
            ("a var-x\nb neg a a", 2, "takes one operand, not 2"),
            ("a", 1, "`a` is no clause"),
            ("a var-x\na var-y", 2, "`a` was given before"),
        ] {
            match scaled(source, "1").map(|model| model.lines) {
                Err(Wrong::Line(at, said)) => assert!(at == line && said.contains(words), "{source}: {at}: {said}"),
                other => panic!("{source}: {other:?}"),
            }
        }
        assert!(matches!(scaled("a var-x", "1/3"), Err(Wrong::Line(1, _))));
    }

    #[test]
    fn a_model_too_large_is_refused_with_its_number() {
        let mut source = "a0 var-x\n".to_string();
        for i in 0..7_000 {
            source += &format!("c{i} const {i}\na{} mul a{i} c{i}\n", i + 1);
        }
        let clauses = match scaled(&source, "1").map(|model| model.lines) {
            Err(Wrong::TooBig(Some(clauses))) => clauses,
            other => panic!("{other:?}"),
        };
        assert_eq!(clauses, 14_001);
    }
}
