//! Writes a picture of the program as a PNG file to look at.

use preview::view::view;
use preview::{Fault, Grid, Picture};
use std::path::{Path, PathBuf};
use std::process::ExitCode;

const USAGE: &str = "use: preview INPUT PICTURE PNG
INPUT is what the program drawlayer was given, PICTURE what it wrote, PNG the file to write.";

fn main() -> ExitCode {
    let names: Vec<PathBuf> = std::env::args_os().skip(1).map(PathBuf::from).collect();
    let done = match &names[..] {
        [input, picture, png] => convert(input, picture, png),
        _ => Err(USAGE.to_string()),
    };
    match done {
        Ok(()) => ExitCode::SUCCESS,
        Err(message) => {
            eprintln!("preview: {message}");
            ExitCode::FAILURE
        }
    }
}

fn convert(input: &Path, picture: &Path, png: &Path) -> Result<(), String> {
    let grid = Grid::read(&bytes(input)?).map_err(of(input))?;
    let drawn = Picture::read(&bytes(picture)?).map_err(of(picture))?;
    let (from, what) = (input.display(), picture.display());
    let file = view(&grid, &drawn).map_err(|fault| format!("{what} is not the picture of {from}: {fault}"))?;
    std::fs::write(png, file).map_err(|e| format!("{} cannot be written: {e}", png.display()))
}

fn bytes(name: &Path) -> Result<Vec<u8>, String> {
    std::fs::read(name).map_err(|e| format!("{} cannot be read: {e}", name.display()))
}

/// The message of a fault of a file.
fn of(name: &Path) -> impl Fn(Fault) -> String {
    move |fault| format!("{}: {fault}", name.display())
}
