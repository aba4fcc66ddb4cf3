//! Manifests: what the masks of a folder are of, and each mask's checksum. A manifest is written whole, again and again
//! while a run goes on, so that one which was stopped can go on where it was.

use crate::messages::{Stop, text};
use crate::part::{Part, one_line};
use crate::plate::{Levels, Origin, Plate};
use crate::units::Fraction;
use files::json::{self, Value};
use files::mask::{Format, Material, Style};
use files::{sha256, whole};
use layers::Tape;
use std::collections::BTreeMap;
use std::path::{Path, PathBuf};

/// What is drawn.
#[derive(Clone, Debug, PartialEq, Eq)]
pub enum Source {
    /// A formula, in one line.
    Formula(String),
    /// A tape's bytes.
    Tape(Vec<u8>),
}

impl Source {
    pub fn of(part: &Part) -> Source {
        match &part.text {
            Some(text) => Source::Formula(one_line(&text.formula)),
            None => Source::Tape(part.tape.as_bytes().to_vec()),
        }
    }

    /// The tape, read by the proved core once more.
    pub fn tape(&self) -> Option<Tape> {
        match self {
            Source::Formula(formula) => Tape::from_text(formula).ok(),
            Source::Tape(bytes) => Tape::from_bytes(&bytes[..]).ok(),
        }
    }
}

/// A share of the layers: those whose index is `index` − 1 modulo `of`.
#[derive(Clone, Copy, Debug, PartialEq, Eq)]
pub struct Shard {
    pub index: u32,
    pub of: u32,
}

impl Shard {
    pub const WHOLE: Shard = Shard { index: 1, of: 1 };

    pub fn has(&self, layer: u32) -> bool {
        layer % self.of == self.index - 1
    }

    /// The name of its manifest.
    pub fn manifest(&self) -> String {
        match self.of {
            1 => "manifest.json".to_string(),
            of => format!("manifest-{}-of-{of}.json", self.index),
        }
    }
}

/// `2/4`.
impl std::str::FromStr for Shard {
    type Err = String;

    fn from_str(text: &str) -> Result<Shard, String> {
        let parts = text.split_once('/').and_then(|(index, of)| Some((index.parse().ok()?, of.parse().ok()?)));
        match parts {
            Some((index, of)) if 1 <= index && index <= of => Ok(Shard { index, of }),
            _ => Err(format!("'{text}' is no share such as 2/4, the second of four")),
        }
    }
}

impl std::fmt::Display for Shard {
    fn fmt(&self, f: &mut std::fmt::Formatter) -> std::fmt::Result {
        write!(f, "{}/{}", self.index, self.of)
    }
}

/// What all masks of a folder have in common.
#[derive(Clone, Debug, PartialEq, Eq)]
pub struct Heading {
    pub source: Source,
    pub size: (u32, u32),
    pub pitch: [Fraction; 2],
    pub origin: Origin,
    pub aa: u32,
    pub nearest: bool,
    pub levels: Levels,
    pub format: Format,
    pub material: Material,
    /// Whether y goes up: the first row of a mask is that of the greatest y.
    pub up: bool,
}

impl Heading {
    pub fn plate(&self) -> Result<Plate, Stop> {
        Plate::new(self.size, self.pitch, self.origin, self.aa, self.nearest)
    }

    pub fn style(&self, plate: &Plate) -> Style {
        Style { format: self.format, material: self.material, density: plate.density() }
    }

    pub fn file_name(&self, layer: u32) -> String {
        format!("layer{layer:05}.{}", self.format.ending())
    }

    /// What differs between two headings, to be said.
    pub fn differences(&self, other: &Heading) -> Vec<&'static str> {
        let mut differences = Vec::new();
        let mut compare = |same: bool, what: &'static str| {
            if !same {
                differences.push(what)
            }
        };
        compare(self.source == other.source, "formula");
        compare(self.size == other.size, "size");
        compare(self.pitch == other.pitch && self.nearest == other.nearest, "pitch");
        compare(self.origin == other.origin, "origin");
        compare(self.levels == other.levels, "layers");
        compare(self.aa == other.aa, "aa");
        compare(self.format == other.format && self.material == other.material, "format");
        compare(self.up == other.up, "y");
        differences
    }
}

/// A mask that is written.
#[derive(Clone, Debug, PartialEq, Eq)]
pub struct Record {
    /// In units.
    pub z: i128,
    /// The clauses that its drawing ran.
    pub count: u64,
    /// The pixels with material, be it a part of them.
    pub pixels: u64,
    /// Of the file.
    pub sha256: String,
}

/// A heading with the masks that are there.
#[derive(Clone, Debug, PartialEq, Eq)]
pub struct Manifest {
    /// What messages call the part.
    pub part: String,
    pub heading: Heading,
    pub shard: Shard,
    /// What clamps, where that was allowed.
    pub clamped: Option<String>,
    pub records: BTreeMap<u32, Record>,
}

/// The number of this form of manifests.
const EDITION: u32 = 1;

impl Manifest {
    /// Writes the manifest to its folder, whole.
    pub fn write(&self, dir: &Path) -> Result<(), Stop> {
        let path = dir.join(self.shard.manifest());
        let value = self.to_json().map_err(|stop| Stop::Unwritten(stop.to_string()))?;
        whole::write(&path, |to| to.write_all(json::write(&value).as_bytes()))
            .map_err(|error| Stop::unwritten(&path, &error))
    }

    /// The manifest at this path, if there is one.
    pub fn read(path: &Path) -> Result<Option<Manifest>, Stop> {
        let bytes = match std::fs::read(path) {
            Err(error) if error.kind() == std::io::ErrorKind::NotFound => return Ok(None),
            read => read.map_err(|error| Stop::unread(path, &error))?,
        };
        let value = std::str::from_utf8(&bytes).ok().and_then(|text| json::parse(text).ok());
        match value.as_ref().and_then(Manifest::of_json) {
            Some(manifest) => Ok(Some(manifest)),
            None => Err(Stop::Usage(format!("{} is no manifest of this program: give another folder", path.display()))),
        }
    }

    fn to_json(&self) -> Result<Value, Stop> {
        let heading = &self.heading;
        let plate = heading.plate()?;
        let mut members = vec![
            ("program", text("lezantsiro")),
            ("edition", Value::Whole(EDITION.into())),
            ("part", text(&self.part)),
        ];
        match &heading.source {
            Source::Formula(formula) => members.push(("formula", text(formula))),
            Source::Tape(bytes) => members.push(("tape", text(sha256::hex(bytes)))),
        }
        let tape = heading.source.tape().map(|tape| sha256::hex(&sha256::of(tape.as_bytes())));
        members.push(("tape_sha256", tape.map_or(Value::Null, Value::Text)));
        members.push(("size", pair([heading.size.0, heading.size.1].map(|side| Value::Whole(side.into())))));
        members.push(("pitch", pair(heading.pitch.map(text))));
        members.push((
            "origin",
            match heading.origin {
                Origin::Centre => text("centre"),
                Origin::Corner(corner) => pair(corner.map(text)),
            },
        ));
        members.push(("aa", Value::Whole(heading.aa.into())));
        members.push(("exact", Value::Bool(!heading.nearest)));
        members.push(("grid", grid(&plate)));
        match heading.levels {
            Levels::One(z) => members.push(("z", text(z))),
            Levels::Stack { from, height, count } => {
                members.push(("z_from", text(from)));
                members.push(("layer_height", text(height)));
                members.push(("layers", Value::Whole(count.into())));
            }
        }
        members.push(("format", text(heading.format.name())));
        members.push(("material", text(heading.material.name())));
        members.push(("y", text(if heading.up { "up" } else { "down" })));
        members.push(("shard", text(self.shard)));
        members.push(("clamped", self.clamped.as_ref().map_or(Value::Null, text)));
        members.push(("drawn", Value::List(self.records.iter().map(|(layer, it)| self.record(*layer, it)).collect())));
        Ok(Value::Object(members.into_iter().map(|(name, value)| (name.to_string(), value)).collect()))
    }

    fn record(&self, layer: u32, record: &Record) -> Value {
        Value::object([
            ("layer", Value::Whole(layer.into())),
            ("file", text(self.heading.file_name(layer))),
            ("z", Value::Whole(record.z)),
            ("count", Value::Whole(record.count.into())),
            ("pixels", Value::Whole(record.pixels.into())),
            ("sha256", text(&record.sha256)),
        ])
    }

    fn of_json(value: &Value) -> Option<Manifest> {
        let word = |name: &str| value.get(name)?.text();
        (word("program")? == "lezantsiro" && value.get("edition")?.whole() == Some(EDITION)).then_some(())?;
        let source = match word("formula") {
            Some(formula) => Source::Formula(formula.to_string()),
            None => Source::Tape(bytes_of_hex(word("tape")?)?),
        };
        let [width, height] = value.get("size")?.list()? else { return None };
        let levels = match word("z") {
            Some(z) => Levels::One(exactly(z)?),
            None => Levels::Stack {
                from: exactly(word("z_from")?)?,
                height: exactly(word("layer_height")?)?,
                count: value.get("layers")?.whole()?,
            },
        };
        let heading = Heading {
            source,
            size: (width.whole()?, height.whole()?),
            pitch: lengths(value.get("pitch")?)?,
            origin: match word("origin") {
                Some("centre") => Origin::Centre,
                Some(_) => return None,
                None => Origin::Corner(lengths(value.get("origin")?)?),
            },
            aa: value.get("aa")?.whole()?,
            nearest: !value.get("exact")?.bool()?,
            levels,
            format: word("format")?.parse().ok()?,
            material: word("material")?.parse().ok()?,
            up: word("y")? == "up",
        };
        let records = value.get("drawn")?.list()?.iter().map(record_of).collect::<Option<_>>()?;
        let clamped = word("clamped").map(str::to_string);
        let shard = word("shard")?.parse().ok()?;
        let sound = heading.size.0 > 0 && heading.size.1 > 0 && [1, 2, 4].contains(&heading.aa) && levels.count() > 0;
        sound.then_some(Manifest { part: word("part")?.to_string(), heading, shard, clamped, records })
    }

    /// The path of a layer's mask.
    pub fn path(&self, dir: &Path, layer: u32) -> PathBuf {
        dir.join(self.heading.file_name(layer))
    }
}

fn record_of(value: &Value) -> Option<(u32, Record)> {
    let record = Record {
        z: value.get("z")?.whole()?,
        count: value.get("count")?.whole()?,
        pixels: value.get("pixels")?.whole()?,
        sha256: value.get("sha256")?.text()?.to_string(),
    };
    Some((value.get("layer")?.whole()?, record))
}

fn pair(values: [Value; 2]) -> Value {
    Value::List(values.to_vec())
}

/// How the core is told of the samples, for whoever wants to draw them without this tool.
fn grid(plate: &Plate) -> Value {
    let axes = [plate.x.axis, plate.y.axis];
    let divisor = |axis: crate::pitch::Axis| axis.divisor.map_or(Value::Null, |by| Value::Whole(by.into()));
    Value::object([
        ("samples", pair(axes.map(|axis| Value::Whole(axis.count.into())))),
        ("origin", pair(axes.map(|axis| Value::Whole(axis.origin.into())))),
        ("step", pair(axes.map(|axis| Value::Whole(axis.step.into())))),
        ("divisor", pair(axes.map(divisor))),
    ])
}

fn lengths(value: &Value) -> Option<[Fraction; 2]> {
    let [x, y] = value.list()? else { return None };
    Some([exactly(x.text()?)?, exactly(y.text()?)?])
}

/// A fraction as a manifest has it.
fn exactly(text: &str) -> Option<Fraction> {
    text.parse().ok()
}

fn bytes_of_hex(text: &str) -> Option<Vec<u8>> {
    let digit = |byte: &u8| char::from(*byte).to_digit(16).map(|digit| digit as u8);
    let pairs = text.as_bytes().chunks(2);
    pairs.map(|pair| if let [high, low] = pair { Some(digit(high)? << 4 | digit(low)?) } else { None }).collect()
}

#[cfg(test)]
mod tests {
    use super::*;

    fn manifest(source: Source, origin: Origin, levels: Levels) -> Manifest {
        let record = Record { z: -5, count: 7, pixels: 3, sha256: "ab".repeat(32) };
        Manifest {
            part: "a \"part\"".to_string(),
            heading: Heading {
                source,
                size: (1300, 700),
                pitch: [Fraction::new(19, 1000), Fraction::new(3, 125)],
                origin,
                aa: 2,
                nearest: false,
                levels,
                format: Format::Png8,
                material: Material::Black,
                up: false,
            },
            shard: Shard { index: 2, of: 3 },
            clamped: Some("x*x at byte 0 clamps".to_string()),
            records: [(1, record.clone()), (4, Record { z: 9, ..record })].into(),
        }
    }

    #[test]
    fn what_is_written_is_read_again() {
        let tape = Tape::from_text("x - 2").expect("a tape");
        let corner = Origin::Corner([Fraction::new(-1, 3), Fraction::whole(4)]);
        let stack = Levels::Stack { from: Fraction::whole(-1), height: Fraction::new(1, 20), count: 40 };
        for manifest in [
            manifest(Source::Formula("x - \"2\"".to_string()), Origin::Centre, stack),
            manifest(Source::Tape(tape.as_bytes().to_vec()), corner, Levels::One(Fraction::new(1, 7))),
        ] {
            let value = manifest.to_json().expect("a value");
            let read = Manifest::of_json(&json::parse(&json::write(&value)).expect("JSON"));
            assert_eq!(read, Some(manifest));
        }
    }

    #[test]
    fn shares_are_read_and_named() {
        let shard: Shard = "2/4".parse().expect("a share");
        assert_eq!(((0..9).filter(|layer| shard.has(*layer)).collect::<Vec<_>>()), [1, 5]);
        assert_eq!((shard.manifest().as_str(), shard.to_string().as_str()), ("manifest-2-of-4.json", "2/4"));
        assert_eq!(Shard::WHOLE.manifest(), "manifest.json");
        for wrong in ["0/4", "5/4", "1", "a/b", "1/0", ""] {
            assert!(wrong.parse::<Shard>().is_err(), "{wrong}");
        }
    }

    #[test]
    fn bytes_go_to_digits_and_back() {
        assert_eq!(bytes_of_hex(&sha256::hex(&[0, 9, 171, 255])), Some(vec![0, 9, 171, 255]));
        assert_eq!((bytes_of_hex("abc"), bytes_of_hex("zz")), (None, None));
    }
}
