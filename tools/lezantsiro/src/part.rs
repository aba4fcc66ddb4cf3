//! What is drawn: a formula as text, a grid record with its tape, or a tape alone.

use crate::language::expand::{Expanded, Unread, expanded};
use crate::manifest::Source;
use crate::messages::{Place, Stop, grouped};
use crate::spans::{Span, spans};
use crate::units::Fraction;
use layers::{MAX_CLAUSES, MAX_SLOTS, Opcode, Refusal, Tape};
use std::fs::File;
use std::io::Read;
use std::path::Path;

/// The longest input: a grid record with the longest tape, which is also as long as the longest text.
const LONGEST: u64 = 61_480;

const RECORD: usize = 32;

/// A part, accepted by the core.
#[derive(Clone, Debug)]
pub struct Part {
    /// What messages call it.
    pub name: String,
    pub tape: Tape,
    /// The text that it comes from, if it is one.
    pub text: Option<Text>,
    /// The grid that it came with.
    pub own: Option<OwnGrid>,
    /// Its tape as made by this program, if the proved reader has not made it.
    pub compiled: Option<Compiled>,
}

/// What is to be said of a tape that the proved reader has not made.
#[derive(Clone, Debug)]
pub struct Compiled {
    pub words: String,
    /// The plain formula, unless it is much too long to look at.
    pub formula: Option<String>,
}

/// A formula as text, with the bytes that each clause of its tape comes from.
#[derive(Clone, Debug)]
pub struct Text {
    /// As the proved reader has read it: with spaces for line ends and for lines that begin with #, so that bytes are
    /// where they are in the file; or what a text with names and the like expands to.
    pub formula: String,
    pub spans: Vec<Span>,
    /// Whether its bytes are not those of a file.
    pub expanded: bool,
}

/// The grid of a record, or of a line of a text.
#[derive(Clone, Debug, PartialEq, Eq)]
pub struct OwnGrid {
    pub width: u32,
    pub height: u32,
    /// 0: one layer, at the origin's z.
    pub depth: u32,
    pub origin: [Fraction; 3],
    pub step: [Fraction; 3],
}

impl Part {
    /// The part of a file: by its first bytes a grid record or a tape, otherwise, or if its name ends in .txt, a text.
    pub fn read(path: &Path) -> Result<Part, Stop> {
        let bytes = bytes_of(path)?;
        let name = path.display().to_string();
        let is_text = path.extension().is_some_and(|ending| ending == "txt");
        match bytes.get(..2) {
            Some(b"GR") if !is_text => {
                let own = OwnGrid::of_record(&bytes).ok_or_else(|| Stop::refused(Refusal::NoGridRecord, &name))?;
                let tape = Tape::from_bytes(&bytes[RECORD..]).map_err(|refusal| Stop::refused(refusal, &name))?;
                Ok(Part { name, tape, text: None, own: Some(own), compiled: None })
            }
            Some(b"TP") if !is_text => {
                let tape = Tape::from_bytes(&bytes[..]).map_err(|refusal| Stop::refused(refusal, &name))?;
                Ok(Part { name, tape, text: None, own: None, compiled: None })
            }
            _ => {
                let own = OwnGrid::of_text(&bytes)
                    .map_err(|line| Stop::Usage(format!("{name}: '{line}' is no grid: {GRID_LINES}")))?;
                Ok(Part { own, ..Part::of_text(name, bytes)? })
            }
        }
    }

    /// The part that a manifest has.
    pub fn of_source(name: &str, source: &Source) -> Result<Part, Stop> {
        match source {
            Source::Formula(formula) => Part::of_text(name.to_string(), formula.as_bytes().to_vec()),
            Source::Tape(bytes) => {
                let tape = Tape::from_bytes(&bytes[..]).map_err(|refusal| Stop::refused(refusal, name))?;
                Ok(Part { name: name.to_string(), tape, text: None, own: None, compiled: None })
            }
        }
    }

    /// The part of a formula that is given in the command.
    pub fn of_formula(formula: &str) -> Result<Part, Stop> {
        Part::of_text("the formula".to_string(), formula.as_bytes().to_vec())
    }

    /// A text as the proved reader takes it, or as people write formulas: then what it expands to.
    fn of_text(name: String, bytes: Vec<u8>) -> Result<Part, Stop> {
        let source = String::from_utf8(bytes).map_err(|error| Stop::Refused {
            number: Refusal::BrokenText.number(),
            place: Place::Byte(error.utf8_error().valid_up_to()),
            words: format!("{name}: not a text: {}", Refusal::BrokenText),
        })?;
        let formula = plain(&source);
        if let Ok(tape) = Tape::from_text(&formula) {
            let text = Some(Text::new(formula, &tape, false));
            return Ok(Part { name, tape, text, own: None, compiled: None });
        }
        match expanded(&source).map_err(|unread| unread.stop(&name, &source))? {
            Expanded::Plain { formula, tape } => {
                let text = Some(Text::new(formula, &tape, true));
                Ok(Part { name, tape, text, own: None, compiled: None })
            }
            Expanded::Compiled { formula, tape, points } => {
                let compiled = Some(Compiled { words: compiled_words(&name, &tape, points), formula });
                Ok(Part { name, tape, text: None, own: None, compiled })
            }
        }
    }

    /// What has to be said whenever the part is used.
    pub fn remark(&self) -> Option<String> {
        self.compiled.as_ref().map(|compiled| compiled.words.clone())
    }

    /// The plain formula, if it is a text and not much too long to look at.
    pub fn formula(&self) -> Option<String> {
        match (&self.text, &self.compiled) {
            (Some(text), _) => Some(one_line(&text.formula)),
            (None, compiled) => compiled.as_ref()?.formula.clone(),
        }
    }

    /// What a clause of the tape is called in messages: its text and byte, or its number.
    pub fn clause_name(&self, clause: usize) -> String {
        let span = self.text.as_ref().and_then(|text| Some((text, text.spans.get(clause)?)));
        match span {
            Some((text, span)) if text.expanded => shown(text, span),
            Some((text, span)) => format!("{} at byte {}", shown(text, span), span.bytes.start),
            None => {
                format!("clause {clause} (counted from 0, {:?})", self.tape.clauses()[clause].opcode).to_lowercase()
            }
        }
    }

    /// What the left operand of a clause is called: its text, or its slot.
    pub fn operand_name(&self, clause: usize) -> String {
        let operand = self.text.as_ref().and_then(|text| {
            // the clause before a function's own is the last of its operand
            let span = text.spans.get(clause.checked_sub(1)?)?;
            Some(shown(text, span))
        });
        operand.unwrap_or_else(|| format!("slot {}", self.tape.clauses()[clause].left))
    }
}

impl Text {
    fn new(formula: String, tape: &Tape, expanded: bool) -> Text {
        let spans = spans(&formula).filter(|spans| agree(spans, tape)).unwrap_or_default();
        Text { formula, spans, expanded }
    }
}

fn compiled_words(name: &str, tape: &Tape, points: usize) -> String {
    let (clauses, slots) = (grouped(tape.clauses().len() as u128), tape.slots());
    format!(
        "{name}: too large for the proved reader of texts; compiled by this program with equal parts shared, {clauses} \
         clauses in {slots} slots. This step is not proved: its values are the formula's at {} random points",
        grouped(points as u128)
    )
}

impl Unread {
    fn stop(self, name: &str, source: &str) -> Stop {
        let refused = |refusal: Refusal, place: Place, words: String| Stop::Refused {
            number: refusal.number(),
            place,
            words: format!("{name}: {words}"),
        };
        match self {
            Unread::Wrong(wrong) => refused(Refusal::BrokenText, Place::Byte(wrong.at), wrong.shown(source)),
            Unread::TooBig(Some(clauses)) => {
                let (clauses, most) = (grouped(clauses as u128), grouped(MAX_CLAUSES as u128));
                let words = format!("{clauses} clauses with equal parts shared, and a tape has at most {most}");
                refused(Refusal::LargeFormula, Place::Whole, words)
            }
            Unread::TooBig(None) => {
                let words = format!("more than {MAX_SLOTS} values wait at once, the slots of a tape");
                refused(Refusal::LargeFormula, Place::Whole, words)
            }
            Unread::NoRoom => Stop::Failed(format!("{name}: there is no room to read it in")),
            Unread::Apart(sample) => Stop::Failed(format!(
                "{name}: the compiled tape has another value than the formula at {sample:?} units: please report this"
            )),
        }
    }
}

/// Whether the spans are those of this tape's clauses.
fn agree(spans: &[Span], tape: &Tape) -> bool {
    let opcodes: Vec<Opcode> = tape.clauses().iter().map(|clause| clause.opcode).collect();
    spans.iter().map(|span| span.opcode).eq(opcodes)
}

/// How much of a text a message shows.
const SHOWN: usize = 60;

/// The span's text, with single spaces, cut where it is long.
fn shown(text: &Text, span: &Span) -> String {
    let words = one_line(&text.formula[span.bytes.clone()]);
    match words.char_indices().nth(SHOWN) {
        Some((cut, _)) => format!("{}…", &words[..cut]),
        None => words,
    }
}

/// The formula in one line with single spaces: spaces mean nothing between the parts of a formula.
pub fn one_line(formula: &str) -> String {
    formula.split_whitespace().collect::<Vec<_>>().join(" ")
}

/// At most one byte more than the longest input: a pipe may never end.
fn bytes_of(path: &Path) -> Result<Vec<u8>, Stop> {
    let unread = |error: std::io::Error| Stop::unread(path, &error);
    let mut bytes = Vec::new();
    File::open(path).map_err(unread)?.take(LONGEST + 1).read_to_end(&mut bytes).map_err(unread)?;
    if bytes.len() as u64 > LONGEST {
        return Err(Stop::Usage(format!("{}: a part has at most {LONGEST} bytes", path.display())));
    }
    Ok(bytes)
}

/// The text with spaces for lines that begin with # and for line ends, so that bytes are where they are in the file.
fn plain(text: &str) -> String {
    let mut plain = String::with_capacity(text.len());
    for line in text.split_inclusive('\n') {
        if line.starts_with('#') {
            plain.extend(std::iter::repeat_n(' ', line.len()));
        } else {
            plain.extend(line.chars().map(|c| if matches!(c, '\n' | '\r') { ' ' } else { c }));
        }
    }
    plain
}

const GRID_LINES: &str = "it is '# layer WIDTH HEIGHT from X Y Z step S' or \
                          '# solid WIDTH HEIGHT DEPTH from X Y Z step S', once in a text";

impl OwnGrid {
    /// The grid of a record of 32 bytes.
    fn of_record(bytes: &[u8]) -> Option<OwnGrid> {
        let record = bytes.get(..RECORD)?;
        let size = |at: usize| u32::from(u16::from_le_bytes([record[at], record[at + 1]]));
        let units = |at: usize| {
            let value = i32::from_le_bytes([record[at], record[at + 1], record[at + 2], record[at + 3]]);
            Fraction::of_units(value.into())
        };
        Some(OwnGrid {
            width: size(2),
            height: size(4),
            depth: size(6),
            origin: [8, 12, 16].map(units),
            step: [20, 24, 28].map(units),
        })
    }

    /// The grid in a line of a text, if there is one; the line if it says no grid, or is the second.
    fn of_text(bytes: &[u8]) -> Result<Option<OwnGrid>, String> {
        let mut found = None;
        for line in bytes.split(|byte| *byte == b'\n') {
            let Some(line) = line.strip_prefix(b"#") else { continue };
            let line = String::from_utf8_lossy(line);
            let words: Vec<&str> = line.split_whitespace().collect();
            if !matches!(words.first(), Some(&"layer" | &"solid")) {
                continue;
            }
            match OwnGrid::of_words(&words).filter(|_| found.is_none()) {
                Some(grid) => found = Some(grid),
                None => return Err(format!("#{}", line.trim_end())),
            }
        }
        Ok(found)
    }

    fn of_words(words: &[&str]) -> Option<OwnGrid> {
        let sides = if words[0] == "solid" { 3 } else { 2 };
        let size = |at: usize| words.get(at)?.parse::<u16>().ok().map(u32::from);
        let (sizes, rest) = words.get(1..)?.split_at_checked(sides)?;
        let lengths: Option<Vec<Fraction>> = rest
            .iter()
            .filter(|word| !matches!(**word, "from" | "step"))
            .map(|word| word.parse::<Fraction>().ok())
            .collect();
        let in_place = sizes.len() == sides && rest.first() == Some(&"from") && rest.get(4) == Some(&"step");
        let (origin, step) = match lengths?[..] {
            [x, y, z, s] if in_place => ([x, y, z], [s, s, s]),
            [x, y, z, sx, sy, sz] if in_place => ([x, y, z], [sx, sy, sz]),
            _ => return None,
        };
        let depth = if sides == 3 { size(3).filter(|depth| *depth > 0)? } else { 0 };
        let steps_fit = step.iter().all(|step| step.is_positive());
        steps_fit.then_some(OwnGrid { width: size(1)?, height: size(2)?, depth, origin, step })
    }
}

#[cfg(test)]
mod tests {
    use super::*;

    fn written(name: &str, bytes: &[u8]) -> std::path::PathBuf {
        let path = std::env::temp_dir().join(format!("lezantsiro-part-{}-{name}", std::process::id()));
        std::fs::write(&path, bytes).expect("a file");
        path
    }

    fn read(name: &str, bytes: &[u8]) -> Result<Part, Stop> {
        let path = written(name, bytes);
        let part = Part::read(&path);
        std::fs::remove_file(path).expect("removed");
        part
    }

    #[test]
    fn a_text_keeps_its_bytes_and_its_grid_line() {
        let text =
            b"# a disc \xC3\xA9\n# solid 30 20 4 from -3 -2 0 step 0.2 0.2 0.05\r\nroot(sqr(x)\n + sqr(y)) - 1\n";
        let part = read("disc.txt", text).expect("a part");
        assert_eq!(part.tape.clause_count(), 8);
        let formula = &part.text.as_ref().expect("a text").formula;
        assert_eq!(formula.len(), text.len());
        assert_eq!(formula.find("root"), Some(60));
        assert_eq!(part.clause_name(4), "sqr(x) + sqr(y) at byte 65");
        assert_eq!(part.operand_name(1), "x");
        let own = part.own.expect("a grid");
        assert_eq!((own.width, own.height, own.depth), (30, 20, 4));
        assert_eq!(own.step.map(|step| step.to_string()), ["1/5", "1/5", "1/20"]);
    }

    #[test]
    fn wrong_grid_lines_are_said() {
        for line in ["# layer 3 3 from 0 0 0", "# solid 3 3 0 from 0 0 0 step 1", "# layer 3 from 0 0 0 step 1"] {
            let stop = read("grid.txt", format!("{line}\nx").as_bytes()).expect_err("no grid");
            assert!(matches!(&stop, Stop::Usage(words) if words.contains(line)), "{stop}");
        }
        let twice = "# layer 3 3 from 0 0 0 step 1\n".repeat(2) + "x";
        assert!(read("twice.txt", twice.as_bytes()).is_err());
        assert_eq!(read("none.txt", b"# laser cut\nx").expect("a part").own, None);
    }

    #[test]
    fn records_and_tapes_are_told_by_their_first_bytes() {
        let tape = Tape::from_text("x - 2").expect("a tape");
        let mut record = b"GR\x03\x00\x02\x00\x00\x00".to_vec();
        for number in [-65_536, 0, 32_768, 65_536, 32_768, 0_i32] {
            record.extend(number.to_le_bytes());
        }
        let part = read("x.part", &[&record, tape.as_bytes()].concat()).expect("a part");
        let own = part.own.as_ref().expect("a grid");
        assert_eq!((own.width, own.height, own.depth), (3, 2, 0));
        assert_eq!(own.origin.map(|origin| origin.to_string()), ["-1", "0", "1/2"]);
        assert_eq!(
            (part.tape.clone(), part.clause_name(2)),
            (tape.clone(), "clause 2 (counted from 0, subtract)".into())
        );
        assert_eq!(read("x.tape", tape.as_bytes()).expect("a part").own, None);
        for (bytes, number) in [(&record[..31], 15), (&record[..], 1), (&b"TP"[..], 1), (b"?", 17)] {
            let stop = read("bad", bytes).expect_err("refused");
            assert!(matches!(stop, Stop::Refused { number: n, .. } if n == number), "{stop}");
        }
        assert!(matches!(read("t.txt", b"TP"), Err(Stop::Refused { number: 17, place: Place::Byte(0), .. })));
        assert!(matches!(read("u.txt", b"x + \xFF"), Err(Stop::Refused { number: 17, place: Place::Byte(4), .. })));
    }
}
