//! What the flags and the part's own grid say together.

use crate::args::{LevelArgs, MaskArgs, PartArgs, PlateArgs};
use crate::clamp;
use crate::manifest::{Heading, Source};
use crate::messages::Stop;
use crate::part::Part;
use crate::plate::{Levels, Origin, Plate};
use crate::printers;
use crate::units::Fraction;
use files::mask::Format;
use std::path::PathBuf;

pub fn part(args: &PartArgs) -> Result<Part, Stop> {
    match (&args.part, &args.formula) {
        (Some(path), _) => Part::read(path),
        (None, Some(formula)) => Part::of_formula(formula),
        (None, None) => Err(Stop::Usage("no PART: name a file, or give --formula TEXT".to_string())),
    }
}

/// What a plate is made of.
#[derive(Clone, Copy, Debug, PartialEq, Eq)]
pub struct Sizes {
    pub size: (u32, u32),
    pub pitch: [Fraction; 2],
    pub origin: Origin,
}

/// The plate of the flags; what they leave out is the part's own. A plate whose size or pitch is not the part's own has
/// its middle at 0, 0 unless --origin says where.
pub fn sizes(args: &PlateArgs, part: &Part) -> Result<Sizes, Stop> {
    let printer = match &args.printer {
        Some(name) => Some(printers::find(name, args.printers.as_deref())?),
        None => None,
    };
    let own = part.own.as_ref();
    let missing = |what: &str| Stop::Usage(format!("{} has no grid of its own: give --printer, or {what}", part.name));
    let size = args.size.or(printer.as_ref().map(|printer| printer.size));
    let pitch = args.pitch.or(printer.as_ref().map(|printer| printer.pitch));
    let of_part = size.is_none() && pitch.is_none();
    let origin = args.origin.or(own.filter(|_| of_part).map(|own| Origin::Corner([own.origin[0], own.origin[1]])));
    let size = size.or(own.map(|own| (own.width, own.height))).ok_or_else(|| missing("--size 3840x2400"))?;
    let pitch = pitch.or(own.map(|own| [own.step[0], own.step[1]])).ok_or_else(|| missing("--pitch 0.05mm"))?;
    if size.0 == 0 || size.1 == 0 || !pitch.iter().all(|pitch| pitch.is_positive()) {
        return Err(Stop::Usage(format!(
            "{}: its own grid has a size or a step of 0: give --size and --pitch",
            part.name
        )));
    }
    Ok(Sizes { size, pitch, origin: origin.unwrap_or(Origin::Centre) })
}

pub fn plate(args: &PlateArgs, part: &Part, aa: u32) -> Result<Plate, Stop> {
    let Sizes { size, pitch, origin } = sizes(args, part)?;
    Plate::new(size, pitch, origin, aa, args.pitch_nearest)
}

/// The layers of the flags; what they leave out is the part's own.
pub fn levels(args: &LevelArgs, part: &Part) -> Result<Levels, Stop> {
    let own = part.own.as_ref().filter(|own| own.depth > 0);
    let missing = |what: &str| Stop::Usage(format!("{} has no layers of its own: give {what}", part.name));
    let own_top = own.map(|own| own.origin[2] + own.step[2] * Fraction::whole(own.depth.into()));
    let height = args.layer_height.or(own.map(|own| own.step[2])).filter(|height| height.is_positive());
    let height = height.ok_or_else(|| missing("--layer-height 0.05mm"))?;
    let from = args.z_from.or(own.map(|own| own.origin[2])).unwrap_or(Fraction::whole(0));
    let to = args.z_to.or(own_top).ok_or_else(|| missing("--z-to MM"))?;
    Levels::stack(from, to, height)
}

/// The one layer of the flags, or of the part's own grid.
pub fn level(z: Option<Fraction>, part: &Part) -> Result<Levels, Stop> {
    let own = part.own.as_ref().filter(|own| own.depth == 0).map(|own| own.origin[2]);
    let z = z.or(own).ok_or_else(|| Stop::Usage(format!("{} has no z of its own: give --z MM", part.name)))?;
    Levels::One(z).fitting()
}

/// What the masks of these flags have in common.
pub fn heading(part: &Part, plate: &PlateArgs, mask: &MaskArgs, levels: Levels) -> Result<Heading, Stop> {
    let Sizes { size, pitch, origin } = sizes(plate, part)?;
    let format = mask.format.unwrap_or(if mask.aa == 1 { Format::Png1 } else { Format::Png8 });
    if mask.aa > 1 && format != Format::Png8 {
        return Err(Stop::Usage(format!(
            "--aa {} gives greys, which {} can't hold: take png8",
            mask.aa,
            format.name()
        )));
    }
    Ok(Heading {
        source: Source::of(part),
        size,
        pitch,
        origin,
        aa: mask.aa,
        nearest: plate.pitch_nearest,
        levels,
        format,
        material: mask.material,
        up: mask.y == "up",
    })
}

/// What clamps, in words; stops unless that is allowed.
pub fn guarded(part: &Part, plate: &Plate, levels: &[i128], allowed: bool) -> Result<Option<String>, Stop> {
    match clamp_words(part, plate, levels) {
        Some(words) if !allowed => {
            Err(Stop::Failed(format!("{words}; nothing is drawn (--allow-clamped draws it all the same)")))
        }
        found => Ok(found),
    }
}

/// What clamps on the plate at these z, in units; in words.
pub fn clamp_words(part: &Part, plate: &Plate, levels: &[i128]) -> Option<String> {
    let clamped = clamp::clamped(&part.tape.clauses(), plate.x.range(), plate.y.range(), levels)?;
    Some(format!("{}: {}", part.name, clamp::words(part, &clamped)))
}

/// The folder that is named, or out/ and the part's name.
pub fn folder(named: &Option<PathBuf>, args: &PartArgs) -> PathBuf {
    let stem = args.part.as_ref().and_then(|path| path.file_stem());
    named.clone().unwrap_or_else(|| PathBuf::from("out").join(stem.unwrap_or("formula".as_ref())))
}
