//! What a part sweeps along a path: the first position that covers each pixel, by the core's own call, block by block.

use crate::args::SweepArgs;
use crate::clamp;
use crate::commands::{Said, off_words};
use crate::diff::save;
use crate::messages::{Stop, grouped, text};
use crate::part::Part;
use crate::plate::{Block, Plate};
use crate::setup;
use crate::stack::tape_for;
use crate::units::Fraction;
use files::colour::{BLACK, Colour, Picture, WHITE, scale};
use files::json::Value;
use files::whole;
use layers::{MAX_POSITIONS, Refusal, Sweep};
use rayon::prelude::*;
use std::path::Path;

/// Offsets of x and y in mm.
type Offset = [Fraction; 2];

pub fn run(args: &SweepArgs) -> Result<Said, Stop> {
    let part = setup::part(&args.part)?;
    let plate = setup::plate(&args.plate, &part, 1)?;
    let z = setup::level(args.z, &part)?.units(0);
    let path = path_of(&args.path)?;
    let clamped = guarded(&part, &plate, z, &path, args.plate.allow_clamped)?;
    let tape = tape_for(&part.tape, &plate)?;
    let z = i32::try_from(z).map_err(|_| Stop::from(Refusal::SampleOutOfRange))?;
    let moved = steps(&plate, &path)?;
    let blocks: Vec<Block> = plate.bands().into_iter().flatten().collect();
    let draw = |block: &Block| -> Result<Sweep, Stop> {
        let grid = plate.place(block, z).ok_or(Refusal::SampleOutOfRange)?;
        Ok(Sweep::draw(&tape, grid, &moved)?)
    };
    let drawn: Result<Vec<Sweep>, Stop> = blocks.par_iter().map(draw).collect();
    let mut numbers = vec![0; plate.width as usize * plate.height as usize];
    for (block, swept) in blocks.iter().zip(drawn?) {
        // rows from above, y going up
        for (row, found) in (block.row..).zip(swept.rows()) {
            let from = (plate.height - 1 - row) as usize * plate.width as usize + block.column as usize;
            numbers[from..from + found.len()].copy_from_slice(found);
        }
    }
    let dir = setup::folder(&args.out, &args.part);
    std::fs::create_dir_all(&dir).map_err(|error| Stop::unwritten(&dir, &error))?;
    let [pgm, png] = ["sweep.pgm", "sweep.png"].map(|name| dir.join(name));
    let file = netpbm(plate.width, plate.height, &numbers);
    whole::write(&pgm, |to| to.write_all(&file)).map_err(|error| Stop::unwritten(&pgm, &error))?;
    save(&png, &coloured(&plate, &numbers, path.len()))?;
    let swept = numbers.iter().filter(|number| **number > 0).count() as u128;
    let area = (plate.pitch[0] * plate.pitch[1]).to_f64() * swept as f64;
    let mut lines = vec![
        format!(
            "{}: {} of {} pixels swept by {} positions, {area:.2} square mm",
            pgm.display(),
            grouped(swept),
            grouped(numbers.len() as u128),
            path.len()
        ),
        format!("{}: in colour by the first position that covers a pixel, with its scale", png.display()),
    ];
    lines.extend(clamped.map(|words| format!("clamped, as allowed: {words}")));
    lines.extend(off_words(&plate));
    lines.extend(part.remark());
    let value = Value::object([
        ("status", Value::Whole(0)),
        ("file", text(pgm.display())),
        ("picture", text(png.display())),
        ("positions", Value::Whole(path.len() as i128)),
        ("swept", Value::Whole(swept as i128)),
    ]);
    Ok(Said::well(lines, value))
}

/// What clamps on the plate less the offsets, in words; stops unless that is allowed.
fn guarded(part: &Part, plate: &Plate, z: i128, path: &[Offset], allowed: bool) -> Result<Option<String>, Stop> {
    let moved = |axis: usize, range: [i128; 2]| {
        let offsets = path.iter().map(|offset| offset[axis].floor_units());
        let (least, most) = offsets.fold((i128::MAX, i128::MIN), |(low, high), at| (low.min(at), high.max(at)));
        [range[0] - most - 1, range[1] - least]
    };
    let ranges = [moved(0, plate.x.range()), moved(1, plate.y.range())];
    let found = clamp::clamped(&part.tape.clauses(), ranges[0], ranges[1], &[z]);
    match found.map(|found| format!("{}: {}", part.name, clamp::words(part, &found))) {
        Some(words) if !allowed => {
            Err(Stop::Failed(format!("{words}; nothing is drawn (--allow-clamped draws it all the same)")))
        }
        words => Ok(words),
    }
}

/// The path of a file: a line a position, x and y in mm with a comma or a semicolon between. A first line of words, and
/// what is behind a #, says nothing.
fn path_of(file: &Path) -> Result<Vec<Offset>, Stop> {
    let words = std::fs::read_to_string(file).map_err(|error| Stop::unread(file, &error))?;
    let mut path = Vec::new();
    for (line, words) in words.lines().enumerate() {
        let words = words.split('#').next().unwrap_or("").trim();
        if words.is_empty() {
            continue;
        }
        match offset(words) {
            Some(offset) => path.push(offset),
            None if line == 0 && is_heading(words) => {}
            None => {
                let place = format!("{}, line {}", file.display(), line + 1);
                return Err(Stop::Usage(format!("{place}: '{words}' is no position such as 12.5,-3: x and y in mm")));
            }
        }
    }
    if path.is_empty() || path.len() > MAX_POSITIONS {
        let words = format!("{} has {} positions, a path 1 to {MAX_POSITIONS}", file.display(), path.len());
        return Err(Stop::refused(Refusal::PathOutOfRange, &words));
    }
    Ok(path)
}

/// Whether no field of a line begins as a number does: then it names the columns.
fn is_heading(words: &str) -> bool {
    let number = |field: &str| field.trim().starts_with(|c: char| c.is_ascii_digit() || "+-.".contains(c));
    !words.split([',', ';']).any(number)
}

fn offset(words: &str) -> Option<Offset> {
    let (x, y) = words.split_once([',', ';'])?;
    Some([x.trim().parse().ok()?, y.trim().parse().ok()?])
}

/// The offsets in units of the plate's own grid, each to the nearest one: where an axis is divided, a mm has as many as
/// the divisor.
fn steps(plate: &Plate, path: &[Offset]) -> Result<Vec<[i32; 2]>, Stop> {
    let units = |offset: &Offset| {
        let on = |axis: usize| {
            let divisor = [plate.x, plate.y][axis].axis.divisor.unwrap_or(65_536);
            i32::try_from((offset[axis] * Fraction::whole(divisor.into())).round()).ok()
        };
        Some([on(0)?, on(1)?])
    };
    let steps: Option<Vec<[i32; 2]>> = path.iter().map(units).collect();
    steps.ok_or_else(|| Stop::refused(Refusal::PathOutOfRange, "an offset is beyond the core's values"))
}

fn netpbm(width: u32, height: u32, numbers: &[u16]) -> Vec<u8> {
    let mut file = format!("P5\n{width} {height}\n65535\n").into_bytes();
    file.extend(numbers.iter().flat_map(|number| number.to_be_bytes()));
    file
}

/// How wide the scale beside a picture is, with its digits.
const SCALE: u32 = 70;

/// What no position covers.
const UNSWEPT: Colour = [225, 225, 225];

fn coloured(plate: &Plate, numbers: &[u16], positions: usize) -> Picture {
    let (width, height) = (plate.width, plate.height.max(60));
    let mut picture = Picture::new(width + SCALE, height, WHITE);
    let colour = |position: usize| scale(position as f64 / (positions.max(2) - 1) as f64);
    for (at, number) in (0..).zip(numbers) {
        let shown = usize::from(*number).checked_sub(1).map_or(UNSWEPT, colour);
        picture.put(at % width, at / width, shown);
    }
    let (top, tall) = (10, height - 20);
    for row in 0..tall {
        let position = (u64::from(row) * (positions as u64 - 1) / u64::from(tall.max(2) - 1)) as usize;
        picture.fill(width + 10..width + 22, top + row..top + row + 1, colour(position));
    }
    picture.number(width + 28, top, 2, 0, BLACK);
    picture.number(width + 28, top + tall - 10, 2, positions as u64 - 1, BLACK);
    picture
}

#[cfg(test)]
mod tests {
    use super::*;

    #[test]
    fn a_path_is_read_line_by_line() {
        let path = std::env::temp_dir().join(format!("lezantsiro-path-{}.csv", std::process::id()));
        let read = |words: &str| {
            std::fs::write(&path, words).expect("written");
            path_of(&path).map(|path| path.iter().map(|offset| offset.map(Fraction::decimal)).collect::<Vec<_>>())
        };
        assert_eq!(
            read("x,y\n1.5,-2\n\n# a comment\n0; 1/4 # here\n").expect("a path"),
            [["1.5", "-2"], ["0", "0.25"]]
        );
        for (words, said) in
            [("", "0 positions"), ("1,2\nx,y", "line 2"), ("1\n", "line 1"), ("1,2,3", "line 1"), ("1e1,0", "line 1")]
        {
            let stop = read(words).expect_err(words);
            assert!(stop.to_string().contains(said), "{stop}");
        }
        assert!(read(&"0,0\n".repeat(4097)).expect_err("too long").to_string().starts_with("refused 25 at 0"));
        std::fs::remove_file(&path).expect("removed");
    }
}
