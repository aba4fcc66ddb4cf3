//! An SL1 archive of a folder's masks.

use crate::draw::flipped;
use crate::messages::Stop;
use crate::plate::Levels;
use crate::printers::Printer;
use crate::units::Fraction;
use crate::verify::Folder;
use files::mask::Mask;
use files::sl1::{self, Job};
use files::whole;
use std::io;
use std::path::Path;

/// Writes the archive, from masks that have their manifests' checksums.
pub fn write(dir: &Path, to: &Path, printer: Option<&Printer>) -> Result<Job, Stop> {
    let folder = Folder::read(dir)?;
    let job = job(&folder, dir, printer)?;
    let mut wrong = None;
    let mut layer = |number: usize| -> io::Result<Mask> {
        let number = number as u32;
        folder.mask(dir, number, &folder.records[&number]).map(|mask| upright(&folder, mask)).map_err(|words| {
            wrong = Some(words.clone());
            io::Error::other(words)
        })
    };
    let written = whole::write(to, |out| sl1::write(&job, out, &mut layer));
    match (written, wrong) {
        (Ok(()), _) => Ok(job),
        (Err(_), Some(words)) => Err(Stop::Failed(words)),
        (Err(error), None) => Err(Stop::unwritten(to, &error)),
    }
}

/// With the greatest y in its first row.
fn upright(folder: &Folder, mask: Mask) -> Mask {
    if folder.heading.up { mask } else { flipped(&mask) }
}

fn job(folder: &Folder, dir: &Path, printer: Option<&Printer>) -> Result<Job, Stop> {
    let Levels::Stack { height, count, .. } = folder.heading.levels else {
        return Err(Stop::Usage(format!("{} has a single layer, no stack", dir.display())));
    };
    let (width, rows) = folder.heading.size;
    let side = |pixels: u32, pitch: Fraction| (pitch * Fraction::whole(pixels.into())).decimal();
    let tall = printer.map_or(height * Fraction::whole(count.into()), |printer| printer.height);
    Ok(Job {
        name: name_of(dir),
        printer: printer.map_or("lezantsiro".to_string(), |printer| printer.name.clone()),
        pixels: (width, rows),
        size: (side(width, folder.heading.pitch[0]), side(rows, folder.heading.pitch[1])),
        layer_height: height.decimal(),
        max_height: tall.decimal(),
        layers: count as usize,
    })
}

/// The folder's name in the letters that an archive takes.
fn name_of(dir: &Path) -> String {
    let name = dir.file_name().map(|name| name.to_string_lossy().into_owned()).unwrap_or_default();
    let plain = |letter: char| if letter.is_ascii_alphanumeric() || "-_".contains(letter) { letter } else { '_' };
    let name: String = name.chars().map(plain).collect();
    if name.is_empty() { "part".to_string() } else { name }
}
