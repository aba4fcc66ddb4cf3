//! Two stacks compared, pixel by pixel.

use crate::args::DiffArgs;
use crate::commands::Said;
use crate::messages::{Stop, grouped, runs, text};
use crate::verify::Folder;
use files::colour::{Picture, WHITE, scale};
use files::json::Value;
use files::mask::Mask;
use files::whole;
use rayon::prelude::*;
use std::path::Path;

/// What differs: the layers, the pixels of all of them, and for each pixel of the plate in how many layers.
struct Differences {
    layers: Vec<usize>,
    pixels: u64,
    each: Vec<u32>,
}

impl Differences {
    fn none(pixels: usize) -> Differences {
        Differences { layers: Vec::new(), pixels: 0, each: vec![0; pixels] }
    }

    fn and(mut self, other: Differences) -> Differences {
        self.layers.extend(other.layers);
        self.pixels += other.pixels;
        self.each.iter_mut().zip(other.each).for_each(|(sum, more)| *sum += more);
        self
    }
}

/// Compares the masks of two folders, and writes a picture of where they differ.
pub fn run(args: &DiffArgs) -> Result<Said, Stop> {
    let [first, second] = [Folder::read(&args.first)?, Folder::read(&args.second)?];
    comparable(args, &first, &second)?;
    let found = differences(args, &first, &second)?;
    let (layers, all) = (found.layers.len(), first.records.len());
    let mut lines = vec![match layers {
        0 => format!("{all} layers are equal, pixel by pixel"),
        _ => format!(
            "{layers} of {all} layers differ, in {} pixels: layers {}",
            grouped(found.pixels.into()),
            runs(&found.layers)
        ),
    }];
    let mut file = Value::Null;
    if layers == 0 {
        // one of an earlier comparison would look like an answer
        let _ = std::fs::remove_file(&args.out);
    }
    if layers > 0 {
        shown(&args.out, first.heading.size, &found)?;
        lines.push(format!("{}: where, by how many layers, from violet for one to yellow", args.out.display()));
        file = text(args.out.display());
    }
    let list = found.layers.iter().map(|layer| Value::Whole(*layer as i128)).collect();
    let value = Value::object([
        ("status", Value::Whole(if layers == 0 { 0 } else { 3 })),
        ("layers", Value::List(list)),
        ("pixels", Value::Whole(found.pixels.into())),
        ("picture", file),
    ]);
    let stop = (layers > 0).then(|| Stop::Failed(format!("{layers} layers differ")));
    Ok(Said { lines, value, stop })
}

/// Plates of other sizes, or of other places, have no pixels to compare.
fn comparable(args: &DiffArgs, first: &Folder, second: &Folder) -> Result<(), Stop> {
    let apart: Vec<&str> = first
        .heading
        .differences(&second.heading)
        .into_iter()
        .filter(|what| !matches!(*what, "formula" | "format"))
        .collect();
    if apart.is_empty() {
        return Ok(());
    }
    let (a, b) = (args.first.display(), args.second.display());
    Err(Stop::Usage(format!("{a} and {b} are not of one plate: they differ in {}", apart.join(", "))))
}

fn differences(args: &DiffArgs, first: &Folder, second: &Folder) -> Result<Differences, Stop> {
    let (width, height) = first.heading.size;
    let pixels = width as usize * height as usize;
    let mask = |folder: &Folder, dir: &Path, layer: u32| -> Result<Mask, Stop> {
        let record = &folder.records[&layer];
        folder.mask(dir, layer, record).map_err(|words| Stop::Failed(format!("{}: {words}", dir.display())))
    };
    let of_layer = |sum: Differences, layer: &u32| -> Result<Differences, Stop> {
        let a = mask(first, &args.first, *layer)?;
        let b = mask(second, &args.second, *layer)?;
        Ok(compared(sum, *layer, &a, &b))
    };
    let layers: Vec<u32> = first.records.keys().copied().collect();
    let found: Result<Vec<Differences>, Stop> = layers
        .par_chunks(layers.len().div_ceil(rayon::current_num_threads()).max(1))
        .map(|chunk| chunk.iter().try_fold(Differences::none(pixels), of_layer))
        .collect();
    Ok(found?.into_iter().fold(Differences::none(pixels), Differences::and))
}

fn compared(mut sum: Differences, layer: u32, a: &Mask, b: &Mask) -> Differences {
    let before = sum.pixels;
    for row in 0..a.height() {
        for column in 0..a.width() {
            if a.level(column, row) != b.level(column, row) {
                sum.pixels += 1;
                sum.each[row as usize * a.width() as usize + column as usize] += 1;
            }
        }
    }
    if sum.pixels > before {
        sum.layers.push(layer as usize);
    }
    sum
}

fn shown(path: &Path, (width, height): (u32, u32), found: &Differences) -> Result<(), Stop> {
    let most = found.each.iter().copied().max().unwrap_or(1).max(1);
    let mut picture = Picture::new(width, height, WHITE);
    for (at, count) in (0..).zip(&found.each) {
        if *count > 0 {
            picture.put(at % width, at / width, scale(f64::from(count - 1) / f64::from(most.max(2) - 1)));
        }
    }
    save(path, &picture)
}

/// Writes a picture, whole or not at all.
pub fn save(path: &Path, picture: &Picture) -> Result<(), Stop> {
    if let Some(dir) = path.parent() {
        std::fs::create_dir_all(dir).map_err(|error| Stop::unwritten(dir, &error))?;
    }
    whole::write(path, |to| picture.encode(to)).map_err(|error| Stop::unwritten(path, &error))
}
