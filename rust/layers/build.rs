//! Links the proved archive, which .ci/run and ./lezantsiro put in target/staticlib. LAYERS_LIB_DIR names another folder
//! that has it: what `rt lib` makes in crates/layers_c lies in its folder out.

use std::env;
use std::path::{Path, PathBuf};

fn main() {
    println!("cargo::rerun-if-env-changed=LAYERS_LIB_DIR");
    match folder() {
        Ok(folder) => {
            println!("cargo::rustc-link-search=native={}", folder.display());
            println!("cargo::rustc-link-lib=static=layers_c");
        }
        Err(message) => println!("cargo::error={message}"),
    }
}

/// The folder that has the archive.
fn folder() -> Result<PathBuf, String> {
    let folder = match env::var_os("LAYERS_LIB_DIR") {
        Some(named) => PathBuf::from(named),
        None => Path::new(env!("CARGO_MANIFEST_DIR")).join("../../target/staticlib"),
    };
    // This script runs in the crate's folder, the linker in another.
    if !folder.is_absolute() {
        return Err(format!("LAYERS_LIB_DIR must be an absolute path, not '{}'", folder.display()));
    }
    let archive = folder.join("liblayers_c.a");
    println!("cargo::rerun-if-changed={}", archive.display());
    if !archive.is_file() {
        let place = archive.display();
        return Err(format!(
            "{place} is not there: run ./lezantsiro or .ci/run, which put it in target/staticlib; \
             LAYERS_LIB_DIR names another folder that has it"
        ));
    }
    Ok(folder)
}
