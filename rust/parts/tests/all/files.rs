//! The example parts are within the limits, and the files of the repository are theirs.

use crate::common::value_at;
use layers::Opcode;
use parts::{Part, all, picture};
use std::path::{Path, PathBuf};

fn root() -> PathBuf {
    Path::new(env!("CARGO_MANIFEST_DIR")).join("../..")
}

fn same(path: PathBuf, bytes: &[u8]) {
    let found = std::fs::read(&path).unwrap_or_else(|e| panic!("{}: {e}", path.display()));
    assert!(found == bytes, "{} is stale: run the program 'parts' in the repository's root", path.display());
}

#[test]
fn inputs_are_as_built() {
    for (name, bytes) in all().iter().flat_map(Part::inputs) {
        same(root().join("examples").join(name), &bytes);
    }
}

#[test]
fn pictures_are_as_drawn() {
    for part in all() {
        let (flat, solid) = (picture::flat_png(&part), picture::solid_png(&part));
        assert!(flat.len() < 60 << 10 && solid.len() < 60 << 10);
        same(root().join(format!("docs/pictures/{}-flat.png", part.name)), &flat);
        same(root().join(format!("docs/pictures/{}-solid.png", part.name)), &solid);
    }
}

#[test]
fn no_other_files_are_there() {
    for (folder, extension) in [("examples", "part"), ("docs/pictures", "png")] {
        let files = std::fs::read_dir(root().join(folder)).unwrap().map(|file| file.unwrap().path());
        let count = files.filter(|file| file.extension().is_some_and(|found| found == extension)).count();
        assert_eq!(count, 2 * all().len(), "{folder}");
    }
}

#[test]
fn lettering_is_near_the_limit_of_edition_1() {
    let lettering = all().into_iter().find(|part| part.name == "lettering").unwrap();
    assert!((950..=1024).contains(&lettering.clauses()));
}

/// Where a part is written with products, each is of a slot by itself.
#[test]
fn tray_has_products_for_squares() {
    let tray = all().into_iter().find(|part| part.name == "tray").unwrap();
    let clauses = tray.tape.clauses();
    let products: Vec<_> = clauses.iter().filter(|clause| clause.opcode == Opcode::Multiply).collect();
    assert!(products.len() >= 12 && products.iter().all(|clause| clause.left == clause.right));
    assert!(clauses.iter().all(|clause| clause.opcode != Opcode::Square));
}

/// The core's material is where the formula is below 0.
#[test]
fn the_core_sees_the_formula() {
    for design in parts::examples::designs() {
        let part = design.part();
        let mut formula = parts::formula::Formula::default();
        let result = design.shape.formula(&mut formula);
        let drawn = picture::flat(&part).picture;
        for index in (0..512 * 512).step_by(101) {
            let (row, column) = (index / 512, index % 512);
            let x = part.flat.xorigin + column as i32 * part.flat.xstep + part.flat.xstep / 2;
            let y = part.flat.yorigin + row as i32 * part.flat.ystep + part.flat.ystep / 2;
            let value = value_at(&formula, result, [x, y, part.flat.zorigin].map(i128::from));
            assert_eq!(drawn.pixel(column, row), value < 0, "{} at {column}, {row}", part.name);
        }
    }
}

/// No part touches a side or the top of its box.
#[test]
fn boxes_hold_their_parts() {
    for part in all() {
        let n = 128;
        let heights = picture::solid(&part, part.solid).picture.into_vec();
        for i in 0..n {
            let border = [heights[i], heights[(n - 1) * n + i], heights[i * n], heights[i * n + n - 1]];
            assert_eq!(border, [0; 4], "{} at {i}", part.name);
        }
        let top = *heights.iter().max().unwrap();
        assert!(0 < top && (top as usize) < n, "{}: {top}", part.name);
    }
}

/// The finer grid has its cells in the same box.
#[test]
fn finer_grids_cover_the_same_box() {
    for part in all() {
        let (coarse, fine) = (part.solid, part.solid_at(512));
        assert_eq!(part.solid_at(128), coarse);
        assert_eq!((fine.width, fine.height, fine.depth), (512, 512, 512));
        assert_eq!([4 * fine.xstep, 4 * fine.ystep, 4 * fine.zstep], [coarse.xstep, coarse.ystep, coarse.zstep]);
        assert_eq!([fine.xorigin, fine.yorigin, fine.zorigin], [coarse.xorigin, coarse.yorigin, coarse.zorigin]);
    }
}
