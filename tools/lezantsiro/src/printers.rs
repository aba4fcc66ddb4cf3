//! The table of printers: a text that a shop can extend.

use crate::messages::Stop;
use crate::units::Fraction;
use std::path::Path;

/// The table that comes with the tool.
const TABLE: &str = include_str!("../../printers.txt");

/// What a line of the table says.
#[derive(Clone, Debug, PartialEq, Eq)]
pub struct Printer {
    pub name: String,
    pub size: (u32, u32),
    pub pitch: [Fraction; 2],
    pub height: Fraction,
}

/// The printer of this name, in the tool's own table or in the one that a file has.
pub fn find(name: &str, table: Option<&Path>) -> Result<Printer, Stop> {
    let (text, what) = match table {
        Some(path) => {
            let text = std::fs::read_to_string(path).map_err(|error| Stop::unread(path, &error))?;
            (text, path.display().to_string())
        }
        None => (TABLE.to_string(), "the table".to_string()),
    };
    let printers = read(&text).map_err(|line| {
        Stop::Usage(format!("{what}, line {line}: a printer is NAME WIDTHxHEIGHT PITCH HEIGHT, such as {EXAMPLE}"))
    })?;
    let names: Vec<String> = printers.iter().map(|printer| printer.name.clone()).collect();
    printers
        .into_iter()
        .find(|printer| printer.name == name)
        .ok_or_else(|| Stop::Usage(format!("no printer '{name}' in {what}: it has {}", names.join(", "))))
}

const EXAMPLE: &str = "'saturn 3840x2400 0.05 200'";

/// The printers of a table, or the number of the first line that is wrong.
fn read(text: &str) -> Result<Vec<Printer>, usize> {
    let mut printers = Vec::new();
    for (index, line) in text.lines().enumerate() {
        let words: Vec<&str> = line.split('#').next().unwrap_or("").split_whitespace().collect();
        if !words.is_empty() {
            printers.push(printer(&words).ok_or(index + 1)?);
        }
    }
    Ok(printers)
}

fn printer(words: &[&str]) -> Option<Printer> {
    let [name, pixels, pitch, height] = words else { return None };
    let height: Fraction = height.parse().ok()?;
    let printer = Printer { name: name.to_string(), size: size(pixels)?, pitch: pitches(pitch)?, height };
    height.is_positive().then_some(printer)
}

/// `3840x2400`.
pub fn size(text: &str) -> Option<(u32, u32)> {
    let (width, height) = text.split_once('x')?;
    let side = |text: &str| text.parse::<u16>().ok().filter(|side| *side > 0).map(u32::from);
    Some((side(width)?, side(height)?))
}

/// One pitch for both axes, or two with an x between.
pub fn pitches(text: &str) -> Option<[Fraction; 2]> {
    let pitch = |text: &str| text.parse::<Fraction>().ok().filter(|pitch| pitch.is_positive());
    match text.split_once('x') {
        Some((x, y)) => Some([pitch(x)?, pitch(y)?]),
        None => pitch(text).map(|both| [both, both]),
    }
}

#[cfg(test)]
mod tests {
    use super::*;

    #[test]
    fn the_own_table_is_read_whole() {
        let printers = read(TABLE).expect("a table");
        assert!(printers.len() >= 8);
        let found = find("saturn", None).expect("a printer");
        assert_eq!((found.size, found.pitch[0].to_string().as_str()), ((3840, 2400), "1/20"));
        assert_eq!(find("saturn3ultra", None).expect("a printer").pitch.map(|p| p.to_string()), ["19/1000", "3/125"]);
        let stop = find("nosuch", None).expect_err("none");
        assert!(stop.to_string().contains("no printer 'nosuch'") && stop.to_string().contains("saturn"), "{stop}");
    }

    #[test]
    fn wrong_lines_are_told_by_number() {
        assert_eq!(read("a 2x3 0.1 5\n# none\n\nb 2x3 0.1"), Err(4));
        for line in ["a 2 0.1 5", "a 0x3 0.1 5", "a 2x3 0 5", "a 2x3 0.1 -5", "a 2x70000 0.1 5", "a 2x3 0.1 5 6"] {
            assert_eq!(read(line), Err(1), "{line}");
        }
    }
}
