//! Where the clauses are run: the count of each layer, as a chart.

use crate::args::TimeArgs;
use crate::commands::Said;
use crate::diff::save;
use crate::draw::{Share, layer};
use crate::messages::{Stop, grouped, text};
use crate::progress::Progress;
use crate::setup;
use crate::stack::tape_for;
use files::colour::{BLACK, Picture, WHITE, scale};
use files::json::Value;
use rayon::prelude::*;
use std::time::{Duration, Instant};

/// What drawing a layer took.
#[derive(Clone, Copy, Debug, PartialEq, Eq)]
struct Cost {
    count: u64,
    time: Duration,
}

/// How many lines the chart in a terminal has at most, and how many signs its longest bar.
const LINES: usize = 24;
const LONGEST: u64 = 50;

/// Draws every layer, writes none, and says what each took.
pub fn run(args: &TimeArgs, quiet: bool) -> Result<Said, Stop> {
    let part = setup::part(&args.part)?;
    let plate = setup::plate(&args.plate, &part, 1)?;
    let levels = setup::levels(&args.levels, &part)?;
    setup::guarded(&part, &plate, &levels.all_units(), args.plate.allow_clamped)?;
    let tape = tape_for(&part.tape, &plate)?;
    let progress = Progress::new("layers", levels.count().into(), quiet);
    let cost = |index: u32| -> Result<Cost, Stop> {
        let z = i32::try_from(levels.units(index)).map_err(|_| Stop::Usage("z is too large".to_string()))?;
        let began = Instant::now();
        let count = layer(&tape, &plate, z, Share::Nothing)?.count;
        progress.step();
        Ok(Cost { count, time: began.elapsed() })
    };
    let costs: Result<Vec<Cost>, Stop> = (0..levels.count()).into_par_iter().map(cost).collect();
    let costs = costs?;
    let samples = u128::from(plate.width) * u128::from(plate.height);
    let full = samples * tape.clause_count() as u128 * u128::from(levels.count());
    let total: u128 = costs.iter().map(|cost| u128::from(cost.count)).sum();
    let time: Duration = costs.iter().map(|cost| cost.time).sum();
    let mut lines = chart(&costs);
    lines.push(format!(
        "{} clauses run in {} layers, {:.1} ms a layer on one core; each sample in full would run {}, {:.0} times as many",
        grouped(total),
        costs.len(),
        time.as_secs_f64() * 1000.0 / costs.len() as f64,
        grouped(full),
        full as f64 / total.max(1) as f64
    ));
    if let Some(path) = &args.png {
        save(path, &bars(&costs))?;
        lines.push(format!("{}: a column a layer, the lowest at left", path.display()));
    }
    lines.extend(part.remark());
    let counts = costs.iter().map(|cost| Value::Whole(cost.count.into())).collect();
    let value = Value::object([
        ("status", Value::Whole(0)),
        ("counts", Value::List(counts)),
        ("full", text(full)),
        ("seconds", Value::Real(time.as_secs_f64())),
    ]);
    Ok(Said::well(lines, value))
}

/// A bar for each layer, or for the mean of neighbours where there are many.
fn chart(costs: &[Cost]) -> Vec<String> {
    let each = costs.len().div_ceil(LINES);
    let means: Vec<u64> =
        costs.chunks(each).map(|chunk| chunk.iter().map(|cost| cost.count).sum::<u64>() / chunk.len() as u64).collect();
    let most = means.iter().copied().max().unwrap_or(1).max(1);
    let bar = |(place, mean): (usize, &u64)| {
        let from = place * each;
        let to = (from + each).min(costs.len()) - 1;
        let name = if each == 1 { format!("{from}") } else { format!("{from}-{to}") };
        let length = (u128::from(*mean) * u128::from(LONGEST)).div_ceil(most.into()) as usize;
        format!("{name:>11} {:<50} {}", "#".repeat(length), grouped((*mean).into()))
    };
    means.iter().enumerate().map(bar).collect()
}

/// The height of the chart as a picture, and of a column's digits.
const HEIGHT: u32 = 200;
const MARGIN: u32 = 20;

fn bars(costs: &[Cost]) -> Picture {
    let most = costs.iter().map(|cost| cost.count).max().unwrap_or(1).max(1);
    let wide = (600 / costs.len() as u32).clamp(1, 20);
    let width = (wide * costs.len() as u32).max(160);
    let mut picture = Picture::new(width + 2 * MARGIN, HEIGHT + 2 * MARGIN, WHITE);
    for (place, cost) in (0..).zip(costs) {
        let part = cost.count as f64 / most as f64;
        let tall = (part * f64::from(HEIGHT)).ceil() as u32;
        let from = MARGIN + place * wide;
        picture.fill(from..from + wide, MARGIN + HEIGHT - tall..MARGIN + HEIGHT, scale(part));
    }
    picture.fill(MARGIN..MARGIN + width, MARGIN + HEIGHT..MARGIN + HEIGHT + 1, BLACK);
    picture.number(MARGIN, 6, 2, most, BLACK);
    picture.number(MARGIN, MARGIN + HEIGHT + 6, 2, 0, BLACK);
    let last = costs.len() as u64 - 1;
    let room = last.to_string().len() as u32 * 8;
    picture.number(MARGIN + width - room, MARGIN + HEIGHT + 6, 2, last, BLACK);
    picture
}

#[cfg(test)]
mod tests {
    use super::*;

    fn costs(counts: &[u64]) -> Vec<Cost> {
        counts.iter().map(|count| Cost { count: *count, time: Duration::ZERO }).collect()
    }

    #[test]
    fn bars_are_as_long_as_the_counts() {
        let lines = chart(&costs(&[100, 50, 0, 1]));
        let long: Vec<usize> = lines.iter().map(|line| line.matches('#').count()).collect();
        assert_eq!(long, [50, 25, 0, 1]);
        assert!(lines[1].trim_start().starts_with("1 ") && lines[1].ends_with(" 50"), "{}", lines[1]);
        let many = chart(&costs(&[7; 100]));
        assert_eq!((many.len(), many[0].trim_start().starts_with("0-4 ")), (20, true));
    }

    #[test]
    fn the_picture_has_a_column_a_layer() {
        let picture = bars(&costs(&[10, 5]));
        let tall =
            |column: u32| (0..MARGIN + HEIGHT).filter(|row| *row > MARGIN && picture.at(column, *row) != WHITE).count();
        assert_eq!([tall(MARGIN + 10), tall(MARGIN + 30)], [199, 100]);
    }
}
