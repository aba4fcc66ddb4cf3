//! Writes the example parts: program inputs to examples/, pictures to docs/pictures/, both under the folder given.

use parts::{Part, picture};
use std::fs;
use std::path::Path;

fn main() -> std::io::Result<()> {
    let root = std::env::args().nth(1).unwrap_or_else(|| ".".into());
    let (inputs, pictures) = (Path::new(&root).join("examples"), Path::new(&root).join("docs/pictures"));
    fs::create_dir_all(&inputs)?;
    fs::create_dir_all(&pictures)?;
    for part in parts::all() {
        for (name, bytes) in part.inputs() {
            fs::write(inputs.join(name), bytes)?;
        }
        fs::write(pictures.join(format!("{}-flat.png", part.name)), picture::flat_png(&part))?;
        fs::write(pictures.join(format!("{}-solid.png", part.name)), picture::solid_png(&part))?;
        report(&part);
    }
    Ok(())
}

/// The part's size, and what tiles save.
fn report(part: &Part) {
    let clauses = part.clauses() as u64;
    let flat = picture::flat(part).count;
    let solid = picture::solid(part, part.solid).count;
    let (full_flat, full_solid) = (clauses * 512 * 512, clauses * 128 * 128 * 128);
    println!("{}: {clauses} clauses, {} slots", part.name, part.tape.slots());
    println!("  flat {flat} of {full_flat}, 1/{:.1}", full_flat as f64 / flat as f64);
    println!("  solid {solid} of {full_solid}, 1/{:.1}", full_solid as f64 / solid as f64);
}
