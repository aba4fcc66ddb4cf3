//! A folder's masks as one page to look at: no network, no other file.

use crate::args::ViewArgs;
use crate::commands::Said;
use crate::manifest::Source;
use crate::messages::{Stop, grouped, text};
use crate::part::one_line;
use crate::plate::{Levels, Samples};
use crate::spans::spans;
use crate::units::Fraction;
use crate::verify::Folder;
use files::colour::{BLACK, Picture};
use files::json::{self, Value};
use files::mask::{Format, Mask, Material, Pixels, Style, encode};
use files::{base64, whole};
use std::path::Path;

/// The largest page: beyond it every n-th layer is taken.
const LARGEST: usize = 50_000_000;

/// The most layers whose heights fit the page's 16 bits.
const MOST_LAYERS: u32 = 65_534;

pub fn run(args: &ViewArgs) -> Result<Said, Stop> {
    let folder = Folder::read(&args.dir)?;
    if folder.heading.levels.count() > MOST_LAYERS {
        return Err(Stop::Usage(format!("{}: a page has at most {MOST_LAYERS} layers", args.dir.display())));
    }
    let out = args.out.clone().unwrap_or_else(|| args.dir.join("view.html"));
    let (layers, heights) = pictures(&args.dir, &folder)?;
    let every = every(&layers, args.largest.unwrap_or(LARGEST));
    let page = page(&args.dir, &folder, &layers, &heights, every)?;
    whole::write(&out, |to| to.write_all(page.as_bytes())).map_err(|error| Stop::unwritten(&out, &error))?;
    let taken = layers.len().div_ceil(every);
    let mut lines = vec![format!("{}: {taken} layers, {} bytes", out.display(), grouped(page.len() as u128))];
    lines.extend((every > 1).then(|| taken_words(every, layers.len())));
    let value = Value::object([
        ("status", Value::Whole(0)),
        ("file", text(out.display())),
        ("layers", Value::Whole(taken as i128)),
        ("every", Value::Whole(every as i128)),
        ("bytes", Value::Whole(page.len() as i128)),
    ]);
    Ok(Said::well(lines, value))
}

fn taken_words(every: usize, layers: usize) -> String {
    format!("one layer of {every} is shown, of {layers}: all of them would make a larger page than 50 MB")
}

/// Each layer's mask as a PNG in base 64, and the highest layer with material, plus 1, of each pixel.
fn pictures(dir: &Path, folder: &Folder) -> Result<(Vec<String>, Vec<u32>), Stop> {
    let (width, height) = folder.heading.size;
    let mut heights = vec![0; width as usize * height as usize];
    let mut layers = Vec::new();
    for (layer, record) in &folder.records {
        let failed = |words: String| Stop::Failed(format!("{}: {words}", dir.display()));
        let mask = folder.mask(dir, *layer, record).map_err(failed)?;
        for (at, highest) in (0..).zip(&mut heights) {
            if mask.level(at % width, at / width) > 0 {
                *highest = layer + 1;
            }
        }
        layers.push(base64::encode(&png_of(&mask)?));
    }
    Ok((layers, heights))
}

/// Material is white in every page, whatever the masks have.
fn png_of(mask: &Mask) -> Result<Vec<u8>, Stop> {
    let format = if matches!(mask.pixels(), Pixels::Bits(_)) { Format::Png1 } else { Format::Png8 };
    let style = Style { format, material: Material::White, density: None };
    let mut file = Vec::new();
    encode(mask, style, &mut file).map_err(|error| Stop::Failed(error.to_string()))?;
    Ok(file)
}

/// Of how many layers one is taken, so that the page is not larger than this.
fn every(layers: &[String], largest: usize) -> usize {
    let size = |every: usize| layers.iter().step_by(every).map(String::len).sum::<usize>();
    (1..).find(|every| size(*every) <= largest || *every >= layers.len()).unwrap_or(1)
}

/// Heights by the two lower bytes of a picture's colours, red the higher.
fn heights_png(width: u32, height: u32, heights: &[u32]) -> Result<Vec<u8>, Stop> {
    let mut picture = Picture::new(width, height, BLACK);
    for (at, highest) in (0..).zip(heights) {
        picture.put(at % width, at / width, [(highest >> 8) as u8, (highest & 255) as u8, 0]);
    }
    let mut file = Vec::new();
    picture.encode(&mut file).map_err(|error| Stop::Failed(error.to_string()))?;
    Ok(file)
}

const PAGE: &str = include_str!("view/page.html");
const STYLE: &str = include_str!("view/page.css");
const EVALUATE: &str = include_str!("view/evaluate.js");
const SCRIPT: &str = include_str!("view/page.js");

fn page(dir: &Path, folder: &Folder, layers: &[String], heights: &[u32], every: usize) -> Result<String, Stop> {
    let (width, height) = folder.heading.size;
    let heading = &folder.heading;
    let title = dir.file_name().unwrap_or(dir.as_os_str()).to_string_lossy().into_owned();
    let [x, y] = heading.pitch;
    let mm = |side: u32, pitch: Fraction| (pitch * Fraction::whole(side.into())).decimal();
    let plate = format!("{width} by {height} pixels of {x} by {y} mm, {} by {} mm", mm(width, x), mm(height, y));
    let remark = if every > 1 { taken_words(every, layers.len()) } else { String::new() };
    let data = json::line(&data(dir, folder, layers, heights, every)?).replace('<', "\\u003c");
    let formula = match &heading.source {
        Source::Formula(formula) => formula.clone(),
        Source::Tape(_) => "the part is a tape, without a text".to_string(),
    };
    let mut page = PAGE.to_string();
    for (name, words) in [
        ("@TITLE@", escaped(&title)),
        ("@PLATE@", escaped(&plate)),
        ("@LAYERS@", format!("{} layers", layers.len())),
        ("@FORMULA@", escaped(&formula)),
        ("@REMARK@", escaped(&remark)),
        ("@STYLE@", STYLE.to_string()),
        ("@EVALUATE@", EVALUATE.to_string()),
        ("@SCRIPT@", SCRIPT.to_string()),
        // last: nothing in it is looked at
        ("@DATA@", data),
    ] {
        page = page.replace(name, &words);
    }
    Ok(page)
}

fn escaped(words: &str) -> String {
    words.replace('&', "&amp;").replace('<', "&lt;").replace('>', "&gt;")
}

/// What the page's script reads.
fn data(dir: &Path, folder: &Folder, layers: &[String], heights: &[u32], every: usize) -> Result<Value, Stop> {
    let heading = &folder.heading;
    let (width, height) = heading.size;
    let number = |number: i128| Value::Whole(number);
    let url = |bytes: &str| text(format_args!("data:image/png;base64,{bytes}"));
    let shown = folder.records.iter().zip(layers).step_by(every).map(|((layer, record), mask)| {
        Value::object([("index", number((*layer).into())), ("z", number(record.z)), ("mask", url(mask))])
    });
    let clauses = folder.tape.to_list();
    let clauses = clauses.chunks(5).map(|clause| Value::List(clause.iter().map(|n| number((*n).into())).collect()));
    let formula = match &heading.source {
        Source::Formula(formula) => Some(one_line(formula)),
        Source::Tape(_) => None,
    };
    let found = formula.as_deref().and_then(spans).unwrap_or_default();
    let found =
        found.iter().map(|span| Value::List([span.bytes.start, span.bytes.end].map(|at| number(at as i128)).to_vec()));
    let highest = heights.iter().copied().max().unwrap_or(0).max(1);
    Ok(Value::object([
        ("width", number(width.into())),
        ("height", number(height.into())),
        ("aa", number(heading.aa.into())),
        ("up", Value::Bool(heading.up)),
        (
            "count",
            number(match heading.levels {
                Levels::One(_) => 1,
                Levels::Stack { count, .. } => count.into(),
            }),
        ),
        ("folder", text(dir.display())),
        ("x", axis(&folder.plate.x)),
        ("y", axis(&folder.plate.y)),
        ("highest", number(highest.into())),
        ("formula", formula.map_or(Value::Null, Value::Text)),
        ("spans", Value::List(found.collect())),
        ("clauses", Value::List(clauses.collect())),
        ("heights", url(&base64::encode(&heights_png(width, height, heights)?))),
        ("layers", Value::List(shown.collect())),
    ]))
}

/// Where an axis has its samples; numbers as texts, since a script's own numbers are not whole.
fn axis(samples: &Samples) -> Value {
    let fraction = |length: Fraction| Value::List(vec![text(length.num()), text(length.den())]);
    Value::object([
        ("exact", Value::Bool(samples.exact)),
        ("origin", fraction(samples.origin)),
        ("pitch", fraction(samples.pitch)),
        ("begin", text(samples.axis.origin)),
        ("step", text(samples.axis.step)),
    ])
}

#[cfg(test)]
mod tests {
    use super::*;

    #[test]
    fn a_page_too_large_takes_every_nth_layer() {
        let layers = vec!["x".repeat(100); 10];
        assert_eq!([1000, 999, 500, 200, 1].map(|largest| every(&layers, largest)), [1, 2, 2, 5, 10]);
    }
}
