//! The commands: each gathers what it needs, has it done, and says what came of it.

use crate::args::{
    CheckArgs, Cli, Command, ExpandArgs, HeightsArgs, LayerArgs, ProbeArgs, Sl1Args, StackArgs, VerifyArgs,
};
use crate::check;
use crate::manifest::{Heading, Manifest, Shard};
use crate::messages::{Stop, grouped, text};
use crate::part::Part;
use crate::pitch::scaled_tape;
use crate::plate::{Levels, Plate, Samples, samples};
use crate::relief::{Relief, relief};
use crate::stack::{self, Done, no_room};
use crate::units::Fraction;
use crate::{archive, cost, diff, import, join, printers, setup, sweep, verify, view, why};
use files::json::Value;
use files::mask::{Format, Mask, Material, Pixels, Style, encode};
use files::whole;
use layers::Probe;
use std::path::Path;
use std::time::{Duration, Instant, SystemTime, UNIX_EPOCH};

/// What a command says, to a person and to a program.
pub struct Said {
    pub lines: Vec<String>,
    pub value: Value,
    /// A result that is told first and is a bad end all the same.
    pub stop: Option<Stop>,
}

impl Said {
    pub fn well(lines: Vec<String>, value: Value) -> Said {
        Said { lines, value, stop: None }
    }
}

pub fn run(cli: &Cli) -> Result<Said, Stop> {
    match &cli.command {
        Command::Layer(args) => one_layer(args, cli.quiet),
        Command::Stack(args) => whole_stack(args, cli.quiet),
        Command::Heights(args) => heights(args),
        Command::Probe(args) => probe(args),
        Command::Check(args) => checked(args, cli.quiet),
        Command::Verify(args) => verified(args, cli.quiet),
        Command::Sl1(args) => sl1(args),
        Command::Expand(args) => expand(args),
        Command::Join(args) => join::run(args),
        Command::Diff(args) => diff::run(args),
        Command::Time(args) => cost::run(args, cli.quiet),
        Command::Import(args) => import::run(args),
        Command::View(args) => view::run(args),
        Command::Why(args) => why::run(args),
        Command::Sweep(args) => sweep::run(args),
    }
}

fn one_layer(args: &LayerArgs, quiet: bool) -> Result<Said, Stop> {
    let part = setup::part(&args.part)?;
    let levels = setup::level(args.z, &part)?;
    let heading = setup::heading(&part, &args.plate, &args.mask, levels)?;
    let dir = setup::folder(&args.mask.out, &args.part);
    masks(&part, heading, Shard::WHOLE, &dir, args.plate.allow_clamped, quiet)
}

fn whole_stack(args: &StackArgs, quiet: bool) -> Result<Said, Stop> {
    let part = setup::part(&args.part)?;
    let levels = setup::levels(&args.levels, &part)?;
    let heading = setup::heading(&part, &args.plate, &args.mask, levels)?;
    let dir = setup::folder(&args.mask.out, &args.part);
    masks(&part, heading, args.shard.unwrap_or(Shard::WHOLE), &dir, args.plate.allow_clamped, quiet)
}

/// Draws masks, of one layer or of many.
fn masks(
    part: &Part,
    heading: Heading,
    shard: Shard,
    dir: &Path,
    allow_clamped: bool,
    quiet: bool,
) -> Result<Said, Stop> {
    let plate = heading.plate()?;
    let clamped = setup::guarded(part, &plate, &heading.levels.all_units(), allow_clamped)?;
    let manifest = Manifest {
        part: part.name.clone(),
        heading: heading.clone(),
        shard,
        clamped: clamped.clone(),
        records: [].into(),
    };
    let done = stack::run(&part.tape, manifest, dir, quiet)?;
    let mut lines = vec![headline(&heading, shard, dir, &done)];
    lines.extend(timing(&done));
    lines.extend(part.remark());
    lines.extend(clamped.map(|words| format!("clamped, as allowed: {words}")));
    lines.extend(off_words(&plate));
    lines.extend(done.remarks());
    Ok(Said::well(lines, done_json(dir, &plate, &done)))
}

fn headline(heading: &Heading, shard: Shard, dir: &Path, done: &Done) -> String {
    let (width, height) = heading.size;
    let what = match (heading.levels, shard.of) {
        (Levels::One(z), _) => format!("{}, z = {} mm", dir.join(heading.file_name(0)).display(), z.decimal()),
        (Levels::Stack { count, .. }, 1) => format!("{}: {count} layers", dir.display()),
        (Levels::Stack { count, .. }, _) => format!("{}: share {shard} of {count} layers", dir.display()),
    };
    let [x, y] = heading.pitch;
    let pitch = if x == y { format!("{x} mm") } else { format!("{x} by {y} mm") };
    format!("{what}, {width} by {height} pixels of {pitch}, {} with material", grouped(done.pixels.into()))
}

/// Drawing and writing apart, each layer's time on its core.
fn timing(done: &Done) -> Option<String> {
    let each = |time: Duration| time.as_secs_f64() * 1000.0 / done.drawn as f64;
    (done.drawn > 0).then(|| {
        let (drawing, writing, taken) = (each(done.drawing), each(done.writing), done.taken.as_secs_f64());
        let rate = done.drawn as f64 / taken;
        format!(
            "drawn in {drawing:.1} ms and written in {writing:.1} ms a layer; {taken:.2} s, {rate:.1} layers a second"
        )
    })
}

/// How far the nearest step is off, if it was asked for.
pub fn off_words(plate: &Plate) -> Option<String> {
    let off = plate.x.off().max(plate.y.off());
    let pixels = (off / plate.pitch[0]).to_f64();
    (!plate.x.exact).then(|| format!("nearest step: the far edge is {} mm off, {pixels:.2} pixels", off.decimal()))
}

fn done_json(dir: &Path, plate: &Plate, done: &Done) -> Value {
    let seconds = |time: Duration| Value::Real(time.as_secs_f64());
    let list = done.skipped.iter().map(|layer| Value::Whole(*layer as i128)).collect();
    Value::object([
        ("status", Value::Whole(0)),
        ("dir", text(dir.display())),
        ("drawn", Value::Whole(done.drawn as i128)),
        ("skipped", Value::List(list)),
        ("leftovers_removed", Value::Whole(done.leftovers as i128)),
        ("replaced", Value::List(done.replaced.iter().map(text).collect())),
        ("pixels", Value::Whole(done.pixels.into())),
        ("count", Value::Whole(done.count.into())),
        ("edge_off_mm", Value::Real(plate.x.off().max(plate.y.off()).to_f64())),
        ("drawing_seconds", seconds(done.drawing)),
        ("writing_seconds", seconds(done.writing)),
        ("seconds", seconds(done.taken)),
    ])
}

fn heights(args: &HeightsArgs) -> Result<Said, Stop> {
    let part = setup::part(&args.part)?;
    let plate = setup::plate(&args.plate, &part, 1)?;
    let z = layers_of_heights(args, &part)?;
    let levels: Vec<i128> = (0..z.axis.count).map(|layer| z.units(layer)).collect();
    let clamped = setup::guarded(&part, &plate, &levels, args.plate.allow_clamped)?;
    let tape = scaled_tape(&part.tape, [plate.x, plate.y, z].map(|samples| samples.axis.divisor)).map_err(no_room)?;
    let began = Instant::now();
    let drawn = relief(&tape, &plate, &z, args.shade)?;
    let drawing = began.elapsed().as_secs_f64();
    let drawn = if args.y == "up" { drawn.flipped() } else { drawn };
    let dir = setup::folder(&args.out, &args.part);
    let mut lines = write_heights(&dir, &drawn, drawing)?;
    if args.shade {
        lines.push(write_shade(&dir, &drawn, &plate, &z)?);
    }
    lines.extend(part.remark());
    lines.extend(clamped.map(|words| format!("clamped, as allowed: {words}")));
    lines.extend(off_words(&plate));
    let value = Value::object([
        ("status", Value::Whole(0)),
        ("dir", text(dir.display())),
        ("layers", Value::Whole(drawn.depth.into())),
        ("highest", Value::Whole(drawn.highest().into())),
        ("count", Value::Whole(drawn.count.into())),
        ("drawing_seconds", Value::Real(drawing)),
    ]);
    Ok(Said::well(lines, value))
}

/// The layers that heights count, as samples along z.
fn layers_of_heights(args: &HeightsArgs, part: &Part) -> Result<Samples, Stop> {
    match setup::levels(&args.levels, part)? {
        Levels::Stack { from, height, count } if count <= u16::MAX.into() => {
            samples("z", height, Some(from), count, args.plate.pitch_nearest)
        }
        levels => Err(Stop::Usage(format!("heights have at most {} layers, not {}", u16::MAX, levels.count()))),
    }
}

fn write_heights(dir: &Path, drawn: &Relief, seconds: f64) -> Result<Vec<String>, Stop> {
    std::fs::create_dir_all(dir).map_err(|error| Stop::unwritten(dir, &error))?;
    whole::remove_leftovers(dir).map_err(|error| Stop::unwritten(dir, &error))?;
    let path = dir.join("heights.pgm");
    whole::write(&path, |to| to.write_all(&drawn.to_netpbm())).map_err(|error| Stop::unwritten(&path, &error))?;
    let highest = drawn.highest().checked_sub(1).map_or("none".to_string(), |layer| layer.to_string());
    let (width, height, layers) = (drawn.width, drawn.height, drawn.depth);
    Ok(vec![
        format!("{}: {width} by {height} pixels, {layers} layers", path.display()),
        format!("the highest layer with material is {highest}; drawn in {seconds:.2} s"),
    ])
}

fn write_shade(dir: &Path, drawn: &Relief, plate: &Plate, z: &Samples) -> Result<String, Stop> {
    let path = dir.join("shade.png");
    let style = Style { format: Format::Png8, material: Material::White, density: plate.density() };
    let picture = Mask::new(plate.width, plate.height, Pixels::Grey(drawn.shaded(plate, z)));
    let picture = picture.ok_or_else(|| Stop::Usage("a picture without pixels".to_string()))?;
    whole::write(&path, |to| encode(&picture, style, to)).map_err(|error| Stop::unwritten(&path, &error))?;
    Ok(format!("to look at: {}", path.display()))
}

fn probe(args: &ProbeArgs) -> Result<Said, Stop> {
    let (part, point) = match (&args.words[..], &args.formula) {
        ([path, point @ ..], None) if point.len() == 3 => (Part::read(Path::new(path))?, point),
        (point, Some(formula)) if point.len() == 3 => (Part::of_formula(formula)?, point),
        _ => return Err(Stop::Usage("probe takes PART X Y Z, or --formula TEXT X Y Z".to_string())),
    };
    let mut units = [0; 3];
    for (units, word) in units.iter_mut().zip(point) {
        *units = word.parse::<Fraction>().map_err(Stop::Usage)?.floor_units();
    }
    // whole units below 2^31 are exact as floats; what is longer is refused
    let [x, y, z] = units.map(|units| units as f64 / 65_536.0);
    let found = part.tape.probe(x, y, z).map_err(|refusal| Stop::refused(refusal, &part.name))?;
    let (side, value) = match found {
        Probe::Inside(value) => ("inside", value),
        Probe::Outside(value) => ("outside", value),
        Probe::Surface => ("surface", 0.0),
    };
    let mut lines = vec![format!("{side}, {value}")];
    lines.extend(part.remark());
    // a whole number of units, as the core has it
    let units = Value::Whole((value * 65_536.0) as i128);
    let value = Value::object([("status", Value::Whole(0)), ("side", text(side)), ("units", units)]);
    Ok(Said::well(lines, value))
}

fn checked(args: &CheckArgs, quiet: bool) -> Result<Said, Stop> {
    let part = setup::part(&args.part)?;
    let plate = setup::plate(&args.plate, &part, args.aa)?;
    let asked = args.levels.layer_height.is_some() || args.levels.z_to.is_some();
    let own = part.own.as_ref().is_some_and(|own| own.depth > 0);
    let levels = if asked || own { Some(setup::levels(&args.levels, &part)?) } else { None };
    let z = levels.map_or(vec![0], |levels| levels.all_units());
    let clamped = setup::clamp_words(&part, &plate, &z);
    let report = check::check(&part, &plate, levels, clamped.clone(), quiet)?;
    let stop = clamped.filter(|_| !args.plate.allow_clamped).map(Stop::Failed);
    Ok(Said { lines: report.words(&part, &plate), value: report.to_json(&part), stop })
}

fn verified(args: &VerifyArgs, quiet: bool) -> Result<Said, Stop> {
    let time = || SystemTime::now().duration_since(UNIX_EPOCH).map_or(0, |time| time.as_nanos() as u64);
    let seed = args.seed.unwrap_or_else(time);
    let found = verify::verify(&args.dir, args.pixels, seed, quiet)?;
    let (layers, pixels) = (found.layers, grouped(found.pixels.into()));
    if !found.faults.is_empty() {
        return Err(Stop::Failed(format!("{}: {} (seed {seed})", args.dir.display(), found.words())));
    }
    let what = if layers == 1 {
        "1 layer has its checksum".to_string()
    } else {
        format!("{layers} layers have their checksums")
    };
    let line = format!("{}: {what}; {pixels} pixels are the probe's (seed {seed})", args.dir.display());
    let value = Value::object([
        ("status", Value::Whole(0)),
        ("layers", Value::Whole(layers as i128)),
        ("pixels", Value::Whole(found.pixels.into())),
        ("seed", Value::Whole(seed.into())),
    ]);
    Ok(Said::well(vec![line], value))
}

fn sl1(args: &Sl1Args) -> Result<Said, Stop> {
    let printer = match &args.printer {
        Some(name) => Some(printers::find(name, args.printers.as_deref())?),
        None => None,
    };
    let to = args.out.clone().unwrap_or_else(|| args.dir.with_extension("sl1"));
    let job = archive::write(&args.dir, &to, printer.as_ref())?;
    let line =
        format!("{}: {} layers of {} mm, for PrusaSlicer's File > Import", to.display(), job.layers, job.layer_height);
    let value = Value::object([
        ("status", Value::Whole(0)),
        ("file", text(to.display())),
        ("layers", Value::Whole(job.layers as i128)),
    ]);
    Ok(Said::well(vec![line], value))
}

/// The plain formula, as the proved reader has it.
fn expand(args: &ExpandArgs) -> Result<Said, Stop> {
    let part = setup::part(&args.part)?;
    let none = || Stop::Usage(format!("{} is no text, or its plain formula is over a megabyte", part.name));
    let formula = part.formula().ok_or_else(none)?;
    let value = Value::object([
        ("status", Value::Whole(0)),
        ("formula", text(&formula)),
        ("clauses", Value::Whole(part.tape.clauses().len() as i128)),
        ("slots", Value::Whole(part.tape.slots().into())),
        ("edition", Value::Whole(part.tape.edition().into())),
    ]);
    // a formula that the proved reader does not take is not handed on in silence
    let stop = part.remark().map(|words| Stop::Failed(format!("{words}; the plain formula is for looking at")));
    Ok(Said { lines: vec![formula], value, stop })
}
