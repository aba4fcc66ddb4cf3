//! Masks against their manifests: checksums, and random pixels against the proved probe at the exact point.

use crate::manifest::{Heading, Manifest, Record};
use crate::messages::{Stop, runs};
use crate::plate::{Plate, Samples};
use crate::progress::Progress;
use crate::random::Random;
use files::mask::{Mask, decode, level};
use files::sha256;
use layers::{Probe, Tape};
use rayon::prelude::*;
use std::collections::BTreeMap;
use std::fs;
use std::path::Path;

/// A folder's masks, as all its manifests together have them.
#[derive(Clone, Debug)]
pub struct Folder {
    pub heading: Heading,
    pub records: BTreeMap<u32, Record>,
    pub tape: Tape,
    pub plate: Plate,
}

impl Folder {
    /// The folder's manifests, which must say the same and together have every layer.
    pub fn read(dir: &Path) -> Result<Folder, Stop> {
        let manifests = manifests(dir)?;
        let Some(first) = manifests.first() else {
            return Err(Stop::Usage(format!("{} has no manifest.json", dir.display())));
        };
        let mut records = BTreeMap::new();
        for manifest in &manifests {
            let differences = first.heading.differences(&manifest.heading);
            if !differences.is_empty() {
                let what = differences.join(", ");
                return Err(Stop::Failed(format!("{}: its manifests differ in: {what}", dir.display())));
            }
            records.extend(manifest.records.clone());
        }
        let heading = first.heading.clone();
        let missing: Vec<usize> = (0..heading.levels.count())
            .filter(|layer| !records.contains_key(layer))
            .map(|layer| layer as usize)
            .collect();
        if !missing.is_empty() {
            return Err(Stop::Failed(format!("{}: layers {} are missing", dir.display(), runs(&missing))));
        }
        let tape = heading.source.tape().ok_or_else(|| {
            Stop::Failed(format!("{}: the manifest's formula is none that the core takes", dir.display()))
        })?;
        let plate = heading.plate()?;
        Ok(Folder { heading, records, tape, plate })
    }

    /// A layer's mask, if the file has the checksum and the sizes of the manifest.
    pub fn mask(&self, dir: &Path, layer: u32, record: &Record) -> Result<Mask, String> {
        let name = self.heading.file_name(layer);
        let bytes = fs::read(dir.join(&name)).map_err(|error| format!("{name} cannot be read: {error}"))?;
        if sha256::hex(&sha256::of(&bytes)) != record.sha256 {
            return Err(format!("{name} has another checksum than its manifest"));
        }
        let (mask, _) = decode(&bytes, self.heading.material).map_err(|error| format!("{name}: {error}"))?;
        if (mask.width(), mask.height()) != self.heading.size {
            return Err(format!("{name} has another size than its manifest"));
        }
        Ok(mask)
    }
}

fn manifests(dir: &Path) -> Result<Vec<Manifest>, Stop> {
    let unread = |error: std::io::Error| Stop::unread(dir, &error);
    let mut names = Vec::new();
    for entry in fs::read_dir(dir).map_err(unread)? {
        let name = entry.map_err(unread)?.file_name().to_string_lossy().into_owned();
        if name == "manifest.json" || (name.starts_with("manifest-") && name.ends_with(".json")) {
            names.push(name);
        }
    }
    names.sort();
    names.iter().filter_map(|name| Manifest::read(&dir.join(name)).transpose()).collect()
}

/// What was compared.
#[derive(Clone, Debug, PartialEq, Eq)]
pub struct Verified {
    pub layers: usize,
    pub pixels: u64,
    /// What is wrong, a line a layer.
    pub faults: Vec<String>,
}

/// Every mask against its manifest, and `pixels` random pixels of each against the probe.
pub fn verify(dir: &Path, pixels: u64, seed: u64, quiet: bool) -> Result<Verified, Stop> {
    let folder = Folder::read(dir)?;
    let points = Points::of(&folder.plate);
    let progress = Progress::new("layers", folder.records.len() as u64, quiet);
    let faults: Vec<String> = folder
        .records
        .par_iter()
        .filter_map(|(layer, record)| {
            let wrong = of_layer(&folder, &points, dir, (*layer, record), pixels, seed).err();
            progress.step();
            wrong
        })
        .collect();
    let layers = folder.records.len();
    Ok(Verified { layers, pixels: pixels * layers as u64, faults })
}

/// Where the samples are, exactly: by the fractions of the plate, not by the grid that was drawn. Whole units below 2^31
/// are exact as floats.
struct Points {
    x: Vec<f64>,
    y: Vec<f64>,
}

impl Points {
    fn of(plate: &Plate) -> Points {
        let all = |samples: Samples| (0..samples.axis.count).map(|index| in_mm(samples.units(index))).collect();
        Points { x: all(plate.x), y: all(plate.y) }
    }
}

fn in_mm(units: i128) -> f64 {
    units as f64 / 65_536.0
}

fn of_layer(
    folder: &Folder,
    points: &Points,
    dir: &Path,
    (layer, record): (u32, &Record),
    pixels: u64,
    seed: u64,
) -> Result<(), String> {
    let name = folder.heading.file_name(layer);
    let mask = folder.mask(dir, layer, record)?;
    if mask.filled() != record.pixels {
        return Err(format!("{name} has {} pixels with material, its manifest {}", mask.filled(), record.pixels));
    }
    let z = folder.heading.levels.units(layer);
    if z != record.z {
        return Err(format!("{name} is at z = {} units by its manifest, and should be at {z}", record.z));
    }
    let mut random = Random::new(seed ^ (u64::from(layer) << 32));
    for number in 0..pixels {
        let (column, row) = picked(&mask, &mut random, number % 2 == 1);
        let expected = probed(folder, points, (column, row), z).map_err(|refusal| format!("{name}: {refusal}"))?;
        let found = mask.level(column, row);
        if found != expected {
            return Err(format!("{name}: pixel {column}, {row} is {found} of 255, and by the probe {expected}"));
        }
    }
    Ok(())
}

/// A random pixel; if asked for, one of its row where material begins or ends, since faults are likeliest there.
fn picked(mask: &Mask, random: &mut Random, edge: bool) -> (u32, u32) {
    let (width, height) = (mask.width(), mask.height());
    let (column, row) = (random.below(width.into()) as u32, random.below(height.into()) as u32);
    let changes = |at: &u32| mask.level(*at, row) != mask.level((*at + 1).min(width - 1), row);
    let next = (column..width).find(changes).filter(|_| edge);
    (next.unwrap_or(column), row)
}

/// A pixel's level by the probe, asked at the exact point of each of its samples.
fn probed(folder: &Folder, points: &Points, pixel: (u32, u32), z: i128) -> Result<u8, layers::Refusal> {
    let Folder { plate, heading, tape, .. } = folder;
    let row = if heading.up { plate.height - 1 - pixel.1 } else { pixel.1 };
    let of_pixel = |points: &[f64], index: u32| points[(index * plate.aa) as usize..][..plate.aa as usize].to_vec();
    let mut count = 0;
    for x in of_pixel(&points.x, pixel.0) {
        for y in of_pixel(&points.y, row) {
            count += u32::from(matches!(tape.probe(x, y, in_mm(z))?, Probe::Inside(_)));
        }
    }
    Ok(level(count, plate.aa * plate.aa))
}

impl Verified {
    /// At most ten faults, and how many there are.
    pub fn words(&self) -> String {
        let shown: Vec<String> = self.faults.iter().take(10).cloned().collect();
        format!("{} of {} layers are wrong:\n  {}", self.faults.len(), self.layers, shown.join("\n  "))
    }
}
