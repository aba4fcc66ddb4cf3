//! A stack of masks, or a single one: drawn, written, and kept in a manifest, so that a run that was stopped goes on.

use crate::draw::{Share, flipped, layer};
use crate::manifest::{Heading, Manifest, Record, Shard};
use crate::messages::{Stop, runs};
use crate::pitch::scaled_tape;
use crate::plate::Plate;
use crate::progress::Progress;
use files::mask::{Mask, Style, encode};
use files::{sha256, whole};
use layers::{Refusal, Tape};
use rayon::prelude::*;
use std::collections::BTreeMap;
use std::fs;
use std::path::Path;
use std::sync::Mutex;
use std::sync::atomic::{AtomicU64, Ordering};
use std::time::{Duration, Instant};

/// How a stack went.
#[derive(Clone, Debug, Default)]
pub struct Done {
    pub drawn: usize,
    /// Layers that were there already, with the checksum of the manifest.
    pub skipped: Vec<usize>,
    /// Files that an earlier run left unfinished.
    pub leftovers: usize,
    /// In what the folder's manifest differed, if its masks were replaced.
    pub replaced: Vec<&'static str>,
    /// Time in the core and time in writing, added up over the cores.
    pub drawing: Duration,
    pub writing: Duration,
    pub taken: Duration,
    /// Pixels with material and clauses run, over all layers of the manifest.
    pub pixels: u64,
    pub count: u64,
}

/// The tape that draws this plate: the part's own where units are exact as they are.
pub fn tape_for(tape: &Tape, plate: &Plate) -> Result<Tape, Stop> {
    scaled_tape(tape, [plate.x.axis.divisor, plate.y.axis.divisor, None]).map_err(no_room)
}

/// What to do with a tape that has no room for an exact pitch.
pub fn no_room(refusal: Refusal) -> Stop {
    let hint = "--pitch-nearest draws with the nearest step and says how far the far edge is off";
    Stop::refused(refusal, &format!("with an exact pitch the tape is too large: {hint}"))
}

/// Draws and writes the layers of a shard that are not there yet.
pub fn run(tape: &Tape, mut manifest: Manifest, dir: &Path, quiet: bool) -> Result<Done, Stop> {
    let began = Instant::now();
    let plate = manifest.heading.plate()?;
    let tape = tape_for(tape, &plate)?;
    fs::create_dir_all(dir).map_err(|error| Stop::unwritten(dir, &error))?;
    let leftovers = whole::remove_leftovers(dir).map_err(|error| Stop::unwritten(dir, &error))?;
    let replaced = go_on(&mut manifest, dir)?;
    let skipped: Vec<usize> = manifest.records.keys().map(|layer| *layer as usize).collect();
    let (count, shard) = (manifest.heading.levels.count(), manifest.shard);
    let left: Vec<u32> =
        (0..count).filter(|layer| shard.has(*layer) && !manifest.records.contains_key(layer)).collect();
    manifest.write(dir)?;
    let work = Work::new(&tape, plate, manifest, dir);
    let done = work.draw_all(&left, quiet);
    // what is written stays known, also where the rest is not
    let kept = work.keep();
    done.and(kept)?;
    let (drawing, writing) = (work.drawing.get(), work.writing.get());
    let records = work.state.into_inner().unwrap_or_else(|poisoned| poisoned.into_inner()).manifest.records;
    let pixels = records.values().map(|record| record.pixels).sum();
    let count = records.values().map(|record| record.count).sum();
    let taken = began.elapsed();
    Ok(Done { drawn: left.len(), skipped, leftovers, replaced, drawing, writing, taken, pixels, count })
}

/// Takes over what an earlier run has drawn, if it drew the same; says in what it differs, and removes its masks, if
/// not.
fn go_on(manifest: &mut Manifest, dir: &Path) -> Result<Vec<&'static str>, Stop> {
    let Some(before) = Manifest::read(&dir.join(manifest.shard.manifest()))? else { return Ok(Vec::new()) };
    let differences = manifest.heading.differences(&before.heading);
    if differences.is_empty() {
        manifest.records = agreeing(&before, dir, manifest.shard);
        return Ok(differences);
    }
    for layer in before.records.keys() {
        let path = before.path(dir, *layer);
        match fs::remove_file(&path) {
            Err(error) if error.kind() != std::io::ErrorKind::NotFound => return Err(Stop::unwritten(&path, &error)),
            _ => {}
        }
    }
    Ok(differences)
}

/// The masks that are there with the checksum that the manifest has.
fn agreeing(before: &Manifest, dir: &Path, shard: Shard) -> BTreeMap<u32, Record> {
    let same = |(layer, record): (&u32, &Record)| {
        let bytes = fs::read(before.path(dir, *layer)).ok()?;
        let agrees = shard.has(*layer)
            && *layer < before.heading.levels.count()
            && record.z == before.heading.levels.units(*layer)
            && sha256::hex(&sha256::of(&bytes)) == record.sha256;
        agrees.then(|| (*layer, record.clone()))
    };
    before.records.par_iter().filter_map(same).collect()
}

/// Time added up over the cores.
#[derive(Default)]
struct Clock(AtomicU64);

impl Clock {
    fn time<T>(&self, work: impl FnOnce() -> T) -> T {
        let began = Instant::now();
        let value = work();
        self.0.fetch_add(began.elapsed().as_nanos() as u64, Ordering::Relaxed);
        value
    }

    fn get(&self) -> Duration {
        Duration::from_nanos(self.0.load(Ordering::Relaxed))
    }
}

/// Between two writings of the manifest.
const KEEP_EVERY: Duration = Duration::from_secs(1);

struct State {
    manifest: Manifest,
    kept: Instant,
}

struct Work<'a> {
    tape: &'a Tape,
    plate: Plate,
    heading: Heading,
    style: Style,
    dir: &'a Path,
    state: Mutex<State>,
    drawing: Clock,
    writing: Clock,
}

impl<'a> Work<'a> {
    fn new(tape: &'a Tape, plate: Plate, manifest: Manifest, dir: &'a Path) -> Work<'a> {
        let heading = manifest.heading.clone();
        let style = heading.style(&plate);
        let state = Mutex::new(State { manifest, kept: Instant::now() });
        Work { tape, plate, heading, style, dir, state, drawing: Clock::default(), writing: Clock::default() }
    }

    /// The layers shared out among the cores, or, where there are fewer of them than cores, each layer's blocks.
    fn draw_all(&self, layers: &[u32], quiet: bool) -> Result<(), Stop> {
        let progress = Progress::new("layers", layers.len() as u64, quiet);
        let one = |share: Share| {
            let progress = &progress;
            move |layer: &u32| self.draw_one(*layer, share).inspect(|()| progress.step())
        };
        match layers.len() < rayon::current_num_threads() {
            true => layers.iter().try_for_each(one(Share::Blocks)),
            false => layers.par_iter().try_for_each(one(Share::Nothing)),
        }
    }

    fn draw_one(&self, index: u32, share: Share) -> Result<(), Stop> {
        let units = self.heading.levels.units(index);
        let z = i32::try_from(units).map_err(|_| Stop::from(Refusal::SampleOutOfRange))?;
        let drawn = self.drawing.time(|| layer(self.tape, &self.plate, z, share))?;
        let sha256 = self.writing.time(|| self.write(index, &drawn.mask))?;
        let record = Record { z: units, count: drawn.count, pixels: drawn.mask.filled(), sha256 };
        let mut state = self.state.lock().unwrap_or_else(|poisoned| poisoned.into_inner());
        state.manifest.records.insert(index, record);
        if state.kept.elapsed() >= KEEP_EVERY {
            state.manifest.write(self.dir)?;
            state.kept = Instant::now();
        }
        Ok(())
    }

    /// Writes a mask, whole, and gives its checksum.
    fn write(&self, layer: u32, mask: &Mask) -> Result<String, Stop> {
        let path = self.dir.join(self.heading.file_name(layer));
        let unwritten = |error: std::io::Error| Stop::unwritten(&path, &error);
        let turned = self.heading.up.then(|| flipped(mask));
        let mut file = Vec::new();
        encode(turned.as_ref().unwrap_or(mask), self.style, &mut file).map_err(unwritten)?;
        whole::write(&path, |to| to.write_all(&file)).map_err(unwritten)?;
        Ok(sha256::hex(&sha256::of(&file)))
    }

    fn keep(&self) -> Result<(), Stop> {
        self.state.lock().unwrap_or_else(|poisoned| poisoned.into_inner()).manifest.write(self.dir)
    }
}

impl Done {
    /// What a person is told besides the figures.
    pub fn remarks(&self) -> Vec<String> {
        let mut remarks = Vec::new();
        if self.leftovers > 0 {
            remarks.push(format!("removed {} unfinished files of an earlier run", self.leftovers));
        }
        if !self.replaced.is_empty() {
            remarks.push(format!("replaced the folder's masks, which differ in: {}", self.replaced.join(", ")));
        }
        if !self.skipped.is_empty() {
            remarks.push(format!("skipped what is there with its checksum: layers {}", runs(&self.skipped)));
        }
        remarks
    }
}
