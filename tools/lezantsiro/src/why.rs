//! Why a pixel of a mask is as it is: the core's own reason, and the part of the formula that decided.

use crate::args::WhyArgs;
use crate::commands::Said;
use crate::draw::flipped;
use crate::manifest::Heading;
use crate::messages::{Stop, text};
use crate::part::Part;
use crate::plate::{Block, Plate};
use crate::setup;
use crate::stack::tape_for;
use crate::trace::{decided, values};
use crate::verify::Folder;
use files::json::Value;
use files::mask::{Format, Mask, Material, Pixels, Style, encode};
use files::whole;
use layers::{Bitmap, MAX_SIZE, Reason, Refusal, Stops, Tape};
use rayon::prelude::*;
use std::path::Path;

/// A layer that is asked about.
struct Asked {
    part: Part,
    plate: Plate,
    /// In units.
    z: i32,
    layer: u32,
    /// Whether the first row of its mask is that of the greatest y.
    up: bool,
}

pub fn run(args: &WhyArgs) -> Result<Said, Stop> {
    let asked = asked(args)?;
    let (column, row) = args.pixel;
    let (width, height) = (asked.plate.width, asked.plate.height);
    if column >= width || row >= height {
        let words = format!("pixel {column},{row} of a mask of {width} by {height} pixels");
        return Err(Stop::refused(Refusal::PixelOutside, &words));
    }
    let tape = tape_for(&asked.part.tape, &asked.plate)?;
    // of a pixel of several samples, the one in its middle, or behind it
    let middle = asked.plate.aa / 2;
    let from_below = if asked.up { height - 1 - row } else { row };
    let sample = (column * asked.plate.aa + middle, from_below * asked.plate.aa + middle);
    let reason = reason(&tape, &asked, sample)?;
    let by = deciding(&asked, sample);
    let mut lines = vec![sentence(&asked, (column, row), &reason), format!("what decided there: {by}")];
    if let Some(path) = &args.png {
        write_stops(path, &tape, &asked)?;
        lines.push(format!("{}: where the work goes: light is decided for 64 by 64 samples at once, grey for 8 by 8, dark for each by itself", path.display()));
    }
    lines.extend(asked.part.remark());
    let value = Value::object([
        ("status", Value::Whole(0)),
        ("material", Value::Bool(reason.material())),
        ("side", Value::Whole(reason.side.into())),
        ("low", Value::Whole(reason.low.into())),
        ("high", Value::Whole(reason.high.into())),
        ("clauses", Value::Whole(reason.clauses.into())),
        ("decided", text(by)),
    ]);
    Ok(Said::well(lines, value))
}

/// The layer of a folder's manifest, or of a part with flags.
fn asked(args: &WhyArgs) -> Result<Asked, Stop> {
    let of = |part: Part, heading: &Heading, plate: Plate| -> Result<Asked, Stop> {
        let (levels, layer) = (heading.levels, args.layer);
        if layer >= levels.count() {
            return Err(Stop::Usage(format!("there is no layer {layer}: {} are counted from 0", levels.count())));
        }
        let z = i32::try_from(levels.units(layer)).map_err(|_| Stop::from(Refusal::SampleOutOfRange))?;
        Ok(Asked { part, plate, z, layer, up: heading.up })
    };
    match &args.part.part {
        Some(dir) if dir.is_dir() && args.z.is_some() => {
            Err(Stop::Usage(format!("{} has layers: give --layer in the place of --z", dir.display())))
        }
        Some(dir) if dir.is_dir() => {
            let folder = Folder::read(dir)?;
            let part = Part::of_source(&dir.display().to_string(), &folder.heading.source)?;
            of(part, &folder.heading, folder.plate)
        }
        _ => {
            let part = setup::part(&args.part)?;
            let levels = match args.z {
                Some(_) => setup::level(args.z, &part)?,
                None => {
                    setup::levels(&args.levels, &part).or_else(|stop| setup::level(None, &part).map_err(|_| stop))?
                }
            };
            let heading = setup::heading(&part, &args.plate, &args.mask, levels)?;
            let plate = heading.plate()?;
            of(part, &heading, plate)
        }
    }
}

/// The core's reason for a sample of the plate.
fn reason(tape: &Tape, asked: &Asked, (column, row): (u32, u32)) -> Result<Reason, Stop> {
    let plate = &asked.plate;
    let begin = |at: u32| at / MAX_SIZE * MAX_SIZE;
    let size = |at: u32, count: u32| MAX_SIZE.min(count - begin(at));
    let block = Block {
        column: begin(column),
        row: begin(row),
        width: size(column, plate.x.axis.count),
        height: size(row, plate.y.axis.count),
    };
    let grid = plate.place(&block, asked.z).ok_or(Refusal::SampleOutOfRange)?;
    Ok(Bitmap::reason(tape, grid, column - block.column, row - block.row)?)
}

fn sentence(asked: &Asked, (column, row): (u32, u32), reason: &Reason) -> String {
    let Reason { side, clauses, .. } = reason;
    let has = if reason.material() { "has material" } else { "has none" };
    let sign = if reason.material() { "below 0" } else { "not below 0" };
    let [low, high] = [reason.low, reason.high].map(|units| f64::from(units) / 65_536.0);
    let region = match side {
        1 => format!("the formula's value at its sample is {high}, {sign}"),
        _ => format!("over its {side} by {side} samples the formula lies from {low} to {high}, {sign}"),
    };
    let left = format!("{clauses} clauses were left of the tape there");
    // of several samples a pixel, one is asked for; the mask has how many of them have material
    let sample = if asked.plate.aa == 1 { "" } else { "the middle sample of " };
    format!("{sample}pixel {column}, {row} of layer {} {has}: {region}; {left}", asked.layer)
}

/// The part of the formula that decided at a sample, or the number of its clause.
fn deciding(asked: &Asked, (column, row): (u32, u32)) -> String {
    let point = [asked.plate.x.units(column), asked.plate.y.units(row), asked.z.into()];
    let clauses = asked.part.tape.clauses();
    let values = values(&clauses, point);
    let clause = decided(&clauses, &values);
    let value = values[clause] as f64 / 65_536.0;
    format!("{}, which is {value}", asked.part.clause_name(clause))
}

/// Where the drawing of the whole layer stops, as a picture.
fn write_stops(path: &Path, tape: &Tape, asked: &Asked) -> Result<(), Stop> {
    let plate = &asked.plate;
    let (width, height) = (plate.x.axis.count, plate.y.axis.count);
    let blocks: Vec<Block> = plate.bands().into_iter().flatten().collect();
    let stops = |block: &Block| -> Result<Stops, Stop> {
        let grid = plate.place(block, asked.z).ok_or(Refusal::SampleOutOfRange)?;
        Ok(Bitmap::stops(tape, grid)?)
    };
    let found: Result<Vec<Stops>, Stop> = blocks.par_iter().map(stops).collect();
    let mut greys = vec![0; width as usize * height as usize];
    for (block, stops) in blocks.iter().zip(found?) {
        for (row, sides) in (block.row..).zip(stops.as_slice().chunks(block.width as usize)) {
            let from = row as usize * width as usize + block.column as usize;
            greys[from..from + sides.len()].iter_mut().zip(sides).for_each(|(to, side)| *to = grey(*side));
        }
    }
    let mask = Mask::new(width, height, Pixels::Grey(greys));
    let mask = mask.ok_or_else(|| Stop::Usage("a picture without pixels".to_string()))?;
    let mask = if asked.up { flipped(&mask) } else { mask };
    let style = Style { format: Format::Png8, material: Material::White, density: plate.density() };
    if let Some(dir) = path.parent() {
        std::fs::create_dir_all(dir).map_err(|error| Stop::unwritten(dir, &error))?;
    }
    whole::write(path, |to| encode(&mask, style, to)).map_err(|error| Stop::unwritten(path, &error))
}

fn grey(side: u8) -> u8 {
    match side {
        64 => 230,
        8 => 130,
        _ => 30,
    }
}
