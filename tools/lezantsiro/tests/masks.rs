//! Masks as they are written: formats, orientation, samples, checksums, shares, archives.

mod common;

use common::{Folder, RING, contents, names};
use files::json::{self, Value};
use files::mask::{Format, Material, Pixels, decode};
use files::zip;
use layers::{Bitmap, Grid, Heightmap, Tape};

fn ring(folder: &Folder) {
    folder.write("ring.txt", RING);
}

/// The same layer in each format, against one drawing of the core.
#[test]
fn every_format_has_the_cores_pixels() {
    let folder = Folder::new();
    ring(&folder);
    let flags = "--z 1 --size 400x300 --pitch 1/16 --y down";
    let tape = Tape::from_text(RING).unwrap();
    let grid = Grid::flat(400, 300).origin(-200 * 4096, -150 * 4096, 65_536).step(4096, 4096, 1);
    let bits = Bitmap::draw(&tape, grid).unwrap().picture;
    for format in ["png1", "png8", "pbm"] {
        for material in ["white", "black"] {
            let out = format!("{format}-{material}");
            folder.well(&format!("layer ring.txt {flags} --format {format} --material {material} --out {out}"));
            let name = if format == "pbm" { "layer00000.pbm" } else { "layer00000.png" };
            assert_eq!(names(&folder.path(&out)), [name, "manifest.json"]);
            let colour: Material = material.parse().unwrap();
            let (mask, style) = decode(&folder.bytes(&format!("{out}/{name}")), colour).unwrap();
            assert_eq!(style.format.name(), format);
            assert_eq!(style.density, (format != "pbm").then_some((16_000, 16_000)));
            for (x, y) in (0..300).flat_map(|y| (0..400).map(move |x| (x, y))) {
                assert_eq!(mask.level(x, y) == 255, bits.pixel(x, y), "{out} at {x}, {y}");
            }
        }
    }
    // a PBM is the core's own file, whatever the colour
    assert_eq!(folder.bytes("pbm-white/layer00000.pbm"), bits.to_netpbm());
    assert_eq!(folder.bytes("pbm-black/layer00000.pbm"), bits.to_netpbm());
}

/// Another decoder's pixels, where netpbm is at hand.
#[test]
fn another_decoder_reads_the_same() {
    let folder = Folder::new();
    ring(&folder);
    let flags = "--z 1 --size 413x301 --pitch 0.05mm";
    for format in ["png1", "png8", "pbm"] {
        folder.well(&format!("layer ring.txt {flags} --format {format} --out {format}"));
    }
    let (mask, _) = folder.mask("pbm/layer00000.pbm");
    let material: Vec<bool> =
        (0..301).flat_map(|y| (0..413).map(move |x| (x, y))).map(|(x, y)| mask.level(x, y) > 0).collect();
    for format in ["png1", "png8"] {
        let path = folder.path(&format!("{format}/layer00000.png"));
        match std::process::Command::new("pngtopam").arg(&path).output() {
            Ok(output) => assert!(white(&output.stdout) == material, "{format}"),
            Err(_) => println!("pngtopam is not here: {format} is read by our own decoder alone"),
        }
        let (own, _) = folder.mask(&format!("{format}/layer00000.png"));
        assert_eq!(own.filled(), mask.filled());
    }
}

/// Which pixels of a Netpbm file of 413 by 301 are white: bits of 0, or bytes of 255.
fn white(file: &[u8]) -> Vec<bool> {
    if file.starts_with(b"P4") {
        let rows = file[file.len() - 52 * 301..].chunks(52);
        rows.flat_map(|row| (0..413).map(move |x| row[x / 8] & (0x80 >> (x % 8)) == 0)).collect()
    } else {
        file[file.len() - 413 * 301..].iter().map(|level| *level == 255).collect()
    }
}

#[test]
fn y_goes_up_unless_told() {
    let folder = Folder::new();
    // material above y = 0
    folder.well("layer --formula -y --z 0 --size 8x4 --pitch 1 --out up");
    folder.well("layer --formula -y --z 0 --size 8x4 --pitch 1 --y down --out down");
    let rows = |name: &str| (0..4).map(|row| folder.mask(name).0.level(0, row)).collect::<Vec<_>>();
    assert_eq!(rows("up/layer00000.png"), [255, 255, 0, 0]);
    assert_eq!(rows("down/layer00000.png"), [0, 0, 255, 255]);
}

#[test]
fn origins_are_centre_corner_or_given() {
    let folder = Folder::new();
    // material from x = 2 on: columns counted from the plate's left
    for (index, (origin, empty)) in [("centre", 6), ("corner", 2), ("-1,0", 3), ("1.5,-7", 1)].into_iter().enumerate() {
        folder.well(&format!("layer --formula 2-x --z 0 --size 8x4 --pitch 1 --origin {origin} --out m{index}"));
        let (mask, _) = folder.mask(&format!("m{index}/layer00000.png"));
        let found = (0..8).take_while(|column| mask.level(*column, 0) == 0).count();
        assert_eq!(found, empty, "{origin}");
    }
}

#[test]
fn greys_count_samples_and_nothing_else() {
    let folder = Folder::new();
    // material where x is below 0.5 in its pixel, and where x + y is
    folder.well("layer --formula x-0.5 --z 0 --size 2x2 --pitch 1 --origin corner --aa 4 --out half");
    folder.well("layer --formula x+y-1 --z 0 --size 1x1 --pitch 1 --origin corner --aa 2 --out corner");
    let (half, style) = folder.mask("half/layer00000.png");
    assert_eq!(style.format, Format::Png8);
    assert_eq!(*half.pixels(), Pixels::Grey(vec![128, 0, 128, 0]));
    // of the four samples 0.25 + 0.25 alone is below 1; the two others are at 1
    assert_eq!(*folder.mask("corner/layer00000.png").0.pixels(), Pixels::Grey(vec![64]));
}

#[test]
fn a_stack_is_the_single_layers() {
    let folder = Folder::new();
    ring(&folder);
    let plate = "--size 520x200 --pitch 0.05mm";
    folder.well(&format!("stack ring.txt {plate} --layer-height 0.25mm --z-from -1 --z-to 1 --out stack"));
    let stack = folder.json("stack/manifest.json");
    assert_eq!(stack.get("layers").unwrap().whole(), Some(8));
    for (index, z) in ["-0.875", "-0.625", "-0.375", "-0.125", "0.125", "0.375", "0.625", "0.875"].iter().enumerate() {
        folder.well(&format!("layer ring.txt {plate} --z {z} --out one{index}"));
        let one = folder.bytes(&format!("one{index}/layer00000.png"));
        assert_eq!(one, folder.bytes(&format!("stack/layer{index:05}.png")), "{z}");
        let record = &stack.get("drawn").unwrap().list().unwrap()[index];
        assert_eq!(record.get("sha256").unwrap().text(), Some(&files::sha256::hex(&files::sha256::of(&one))[..]));
        assert_eq!(
            record.get("pixels").unwrap().whole(),
            Some(folder.mask(&format!("one{index}/layer00000.png")).0.filled())
        );
    }
}

#[test]
fn one_core_and_many_write_the_same() {
    let folder = Folder::new();
    ring(&folder);
    let flags = "--size 700x520 --pitch 0.035mm --layer-height 0.5mm --z-from 0 --z-to 4";
    for jobs in [1, 3, 16] {
        folder.well(&format!("stack ring.txt {flags} --jobs {jobs} --out j{jobs}"));
    }
    assert_eq!(contents(&folder.path("j1")), contents(&folder.path("j3")));
    assert_eq!(contents(&folder.path("j1")), contents(&folder.path("j16")));
}

#[test]
fn shares_join_to_one_run() {
    let folder = Folder::new();
    ring(&folder);
    let flags = "--size 300x300 --pitch 0.0725mm --layer-height 0.05mm --z-from 0 --z-to 0.55";
    folder.well(&format!("stack ring.txt {flags} --out whole"));
    for share in ["1/3", "2/3"] {
        folder.well(&format!("stack ring.txt {flags} --shard {share} --out shares"));
    }
    let missing = folder.run("verify shares");
    assert_eq!(missing.status, Some(3));
    assert!(missing.err.contains("layers 2, 5, 8 are missing"), "{}", missing.err);
    folder.well(&format!("stack ring.txt {flags} --shard 3/3 --out shares"));
    for layer in 0..11 {
        let name = format!("layer{layer:05}.png");
        assert_eq!(folder.bytes(&format!("whole/{name}")), folder.bytes(&format!("shares/{name}")));
    }
    folder.well("verify shares --seed 1");
    let manifests: Vec<String> =
        names(&folder.path("shares")).into_iter().filter(|name| name.ends_with("json")).collect();
    assert_eq!(manifests, ["manifest-1-of-3.json", "manifest-2-of-3.json", "manifest-3-of-3.json"]);
    // a share of another part in the same folder
    folder.well(&format!("stack --formula x {flags} --shard 2/3 --out shares"));
    let mixed = folder.run("verify shares");
    assert_eq!(mixed.status, Some(3));
    assert!(mixed.err.contains("its manifests differ in: formula"), "{}", mixed.err);
}

#[test]
fn verifying_finds_what_is_wrong() {
    let folder = Folder::new();
    ring(&folder);
    for (aa, y) in [(1, "up"), (2, "down"), (4, "up")] {
        let flags = format!("--size 300x200 --pitch 0.0725mm --aa {aa} --y {y}");
        folder.well(&format!("stack ring.txt {flags} --layer-height 1 --z-to 3 --out m{aa}"));
        let said = folder.well(&format!("verify m{aa} --seed 37 --pixels 2000"));
        assert!(
            said.out.contains("3 layers have their checksums; 6,000 pixels are the probe's (seed 37)"),
            "{}",
            said.out
        );
    }
    // a byte of a mask
    let mut bytes = folder.bytes("m1/layer00001.png");
    let whole = bytes.clone();
    bytes[90] ^= 1;
    folder.write("m1/layer00001.png", bytes);
    let wrong = folder.run("verify m1");
    assert_eq!(wrong.status, Some(3));
    assert!(wrong.err.contains("layer00001.png has another checksum"), "{}", wrong.err);
    folder.write("m1/layer00001.png", &whole);
    // a formula that is not the masks'
    let manifest = String::from_utf8(folder.bytes("m1/manifest.json")).unwrap();
    folder.write("m1/manifest.json", manifest.replace("- 9 +", "- 8 +"));
    let wrong = folder.run("verify m1");
    assert_eq!(wrong.status, Some(3));
    assert!(wrong.err.contains("by the probe"), "{}", wrong.err);
    // a plate that is not the masks'
    folder.write("m1/manifest.json", manifest.replace("29/400", "29/401"));
    assert_eq!(folder.run("verify m1").status, Some(3));
    folder.write("m1/manifest.json", &manifest);
    folder.well("verify m1");
    assert_eq!(folder.run("verify .").status, Some(2));
}

#[test]
fn an_archive_has_the_masks_as_white_greys() {
    let folder = Folder::new();
    ring(&folder);
    let flags = "--size 160x120 --pitch 0.125mm --layer-height 0.5 --z-to 2 --material black --y down";
    folder.well(&format!("stack ring.txt {flags} --out masks"));
    folder.well(
        &format!("stack ring.txt {flags} --y up --material white --out up").replace(" --material black --y down", ""),
    );
    folder.well("sl1 masks --printer saturn");
    let archive = folder.bytes("masks.sl1");
    let files = zip::read(&archive).unwrap();
    let names: Vec<&str> = files.iter().map(|(name, _)| name.as_str()).collect();
    let layers = ["masks00000.png", "masks00001.png", "masks00002.png", "masks00003.png"];
    assert_eq!(names, [&["config.ini", "prusaslicer.ini"][..], &layers].concat());
    let profile = String::from_utf8(files[1].1.to_vec()).unwrap();
    for line in ["display_width = 20", "display_height = 15", "display_pixels_x = 160", "max_print_height = 200"] {
        assert!(profile.lines().any(|found| found == line), "{line}");
    }
    for (index, (_, file)) in files[2..].iter().enumerate() {
        let (mask, style) = decode(file, Material::White).unwrap();
        assert_eq!(style.format, Format::Png8);
        let (up, _) = folder.mask(&format!("up/layer{index:05}.png"));
        assert!((0..120).all(|row| (0..160).all(|column| mask.level(column, row) == up.level(column, row))));
    }
    // one that is damaged is not put into an archive
    folder.write("masks/layer00002.png", b"no mask");
    let wrong = folder.run("sl1 masks --out other.sl1");
    assert_eq!(wrong.status, Some(3));
    assert!(wrong.err.contains("layer00002.png has another checksum") && !folder.path("other.sl1").exists());
    folder.well("layer ring.txt --z 0 --size 8x8 --pitch 1 --out single");
    assert_eq!(folder.run("sl1 single").status, Some(2));
}

#[test]
fn heights_are_the_cores() {
    let folder = Folder::new();
    ring(&folder);
    let flags = "--size 200x160 --pitch 1/8 --layer-height 1/4 --z-from -2 --z-to 6";
    folder.well(&format!("heights ring.txt {flags} --shade --y down --out h"));
    let tape = Tape::from_text(RING).unwrap();
    let grid = Grid::solid(200, 160, 32).origin(-100 * 8192, -80 * 8192, -2 * 65_536).step(8192, 8192, 16_384);
    let expected = Heightmap::draw(&tape, grid).unwrap().picture;
    assert_eq!(folder.bytes("h/heights.pgm"), expected.to_netpbm());
    let (shade, _) = folder.mask("h/shade.png");
    // nothing is white, and something is not
    let seen = |column, row| expected.height_at(column, row) > 0;
    assert!((0..160).all(|row| (0..200).all(|column| (shade.level(column, row) < 255) == seen(column, row))));
    folder.well(&format!("heights ring.txt {flags} --out up"));
    let up: Vec<u8> = expected.rows().rev_rows();
    assert!(folder.bytes("up/heights.pgm").ends_with(&up));
}

trait Reversed {
    fn rev_rows(self) -> Vec<u8>;
}

impl<'a, I: ExactSizeIterator<Item = &'a [u16]>> Reversed for I {
    fn rev_rows(self) -> Vec<u8> {
        let rows: Vec<&[u16]> = self.collect();
        rows.into_iter().rev().flatten().flat_map(|height| height.to_be_bytes()).collect()
    }
}

#[test]
fn results_are_told_as_json() {
    let folder = Folder::new();
    ring(&folder);
    let plate = "--size 64x48 --pitch 0.5";
    let value = |words: &str| {
        json::parse(folder.run(words).out.trim_end()).unwrap_or_else(|wrong| panic!("{words}: {wrong:?}"))
    };
    let whole = |value: &Value, name: &str| value.get(name).and_then(|value| value.whole::<i64>());
    let layer = value(&format!("layer ring.txt --z 0 {plate} --out m --json"));
    assert_eq!((whole(&layer, "status"), whole(&layer, "drawn")), (Some(0), Some(1)));
    assert_eq!(whole(&value("verify m --json --seed 5"), "seed"), Some(5));
    let probe = value("probe ring.txt 6 -1 0 --json");
    assert_eq!(probe.get("side").unwrap().text(), Some("inside"));
    assert_eq!(folder.well("probe --formula x/3 1 0 0").out, "outside, 0.3333282470703125\n");
    let clamped = value("check --formula x*x --size 800x8 --pitch 1 --json");
    assert!(clamped.get("clamped").unwrap().text().unwrap().contains("x*x at byte 0"));
    let check = value(&format!("check ring.txt {plate} --layer-height 1 --z-to 60 --json"));
    assert_eq!((whole(&check, "clauses"), whole(&check, "layers")), (Some(28), Some(60)));
    assert!(check.get("empty").unwrap().list().unwrap().len() > 20);
    let refused = value("probe --formula x+ 0 0 0 --json");
    assert_eq!((whole(&refused, "status"), whole(&refused, "refused")), (Some(1), Some(17)));
    assert_eq!(whole(refused.get("place").unwrap(), "byte"), Some(2));
}

#[test]
fn a_part_brings_its_own_grid() {
    let folder = Folder::new();
    let examples = concat!(env!("CARGO_MANIFEST_DIR"), "/../../examples");
    for (name, layers) in [("gasket.txt", 1), ("flange-flat.part", 1), ("pulley.txt", 80)] {
        let command = if layers == 1 { "layer" } else { "stack" };
        folder.well(&format!("{command} {examples}/{name} --out {name} --quiet"));
        folder.well(&format!("verify {name} --pixels 64"));
        assert_eq!(names(&folder.path(name)).len(), layers + 1);
    }
    // the flange's layer is what the program drawlayer draws of it
    let input = std::fs::read(format!("{examples}/flange-flat.part")).unwrap();
    let grid = Grid::flat(512, 512).origin(-40 * 65_536, -40 * 65_536, 9 * 65_536).step(10_240, 10_240, 1);
    let drawn = Bitmap::draw(&Tape::from_bytes(&input[32..]).unwrap(), grid).unwrap().picture;
    folder.well(&format!("layer {examples}/flange-flat.part --format pbm --y down --out pbm"));
    assert_eq!(folder.bytes("pbm/layer00000.pbm"), drawn.to_netpbm());
}
