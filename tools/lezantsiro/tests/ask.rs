//! The commands that answer questions or make a part of others: why, join, diff, time, import.

mod common;

use common::{Folder, RING};
use files::json;
use layers::{Probe, Tape};

/// A sequence that its seed fixes.
struct Random(u64);

impl Random {
    fn below(&mut self, bound: u64) -> u64 {
        self.0 = self.0.wrapping_mul(6_364_136_223_846_793_005).wrapping_add(1_442_695_040_888_963_407);
        (self.0 >> 33) % bound
    }
}

#[test]
fn why_agrees_with_every_mask() {
    let folder = Folder::new();
    folder.write("ring.txt", RING);
    folder.well("stack ring.txt --size 90x70 --pitch 0.3mm --layer-height 2mm --z-to 12");
    let mut random = Random(3);
    let mut met = [0; 2];
    for _ in 0..60 {
        let (column, row, layer) = (random.below(90) as u32, random.below(70) as u32, random.below(6));
        let asked = format!("--pixel {column},{row} --layer {layer}");
        let of_folder = folder.well(&format!("why out/ring {asked}")).out;
        let (mask, _) = folder.mask(&format!("out/ring/layer{layer:05}.png"));
        let material = mask.level(column, row) > 0;
        met[usize::from(material)] += 1;
        let begins =
            format!("pixel {column}, {row} of layer {layer} has {}: ", if material { "material" } else { "none" });
        assert!(of_folder.starts_with(&begins), "{begins}{of_folder}");
        // the same part with flags in the folder's place
        let flags = "--size 90x70 --pitch 0.3mm --layer-height 2mm --z-to 12";
        assert_eq!(folder.well(&format!("why ring.txt {flags} {asked}")).out, of_folder);
    }
    assert!(met.iter().all(|count| *count > 5), "{met:?}");
    let by_z = folder.run("why out/ring --pixel 1,1 --z 3");
    assert_eq!((by_z.status, by_z.err.contains("give --layer in the place of --z")), (Some(2), true));
}

#[test]
fn why_names_the_part_of_the_text_that_decided() {
    let folder = Folder::new();
    let plate = "--size 64x64 --pitch 1 --z 0 --y down --origin corner";
    let why =
        |pixel: &str| folder.run(&format!("why --formula max(x|-|20,10|-|x) {plate} --pixel {pixel} --png w.png"));
    assert!(why("5,3").out.contains("what decided there: 10 - x at byte 11, which is 4.5"), "{}", why("5,3").out);
    assert!(why("30,3").out.contains("what decided there: x - 20 at byte 4, which is 10.5"));
    let said = why("40,3").out;
    assert!(
        said.starts_with("pixel 40, 3 of layer 0 has none: over its 8 by 8 samples the formula lies from 20.5 to 27.5"),
        "{said}"
    );
    assert!(said.contains("7 clauses were left of the tape there"), "{said}");
    // the picture: dark where samples were run one by one, at 10 and 20, grey where 8 by 8 were decided
    let (stops, _) = folder.mask("w.png");
    assert_eq!([stops.level(9, 0), stops.level(17, 0), stops.level(40, 60)], [30, 30, 130]);
    let outside = folder.run(&format!("why --formula x {plate} --pixel 64,0"));
    assert_eq!((outside.status, outside.err.starts_with("lezantsiro: refused 23 at 0: pixel 64,0")), (Some(1), true));
    assert_eq!(folder.run(&format!("why --formula x {plate} --pixel 1")).status, Some(2));
}

#[test]
fn join_has_the_smaller_value() {
    let folder = Folder::new();
    let texts = ["root(sqr(x) + sqr(y)) - 6", "max(abs(x) - 20, abs(z) - 2)", "abs(y - 7) - 1"];
    for (name, text) in ["a.txt", "b.txt", "c.txt"].into_iter().zip(texts) {
        folder.write(name, text);
    }
    let said = folder.well("join a.txt b.txt c.txt --out parts/all.tape").out;
    assert!(said.contains("of 3 parts of 8 and 9 and 6 clauses"), "{said}");
    let value = |tape: &Tape, point: [f64; 3]| match tape.probe(point[0], point[1], point[2]).expect("a probe") {
        Probe::Inside(value) | Probe::Outside(value) => value,
        Probe::Surface => 0.0,
    };
    let joined = Tape::from_bytes(folder.bytes("parts/all.tape")).expect("a tape");
    let parts = texts.map(|text| Tape::from_text(text).expect(text));
    let mut random = Random(9);
    for _ in 0..500 {
        let point = [(); 3].map(|()| random.below(60_000) as f64 / 1_000.0 - 30.0);
        let least = parts.iter().map(|part| value(part, point)).fold(f64::INFINITY, f64::min);
        assert_eq!(value(&joined, point), least, "{point:?}");
    }
}

#[test]
fn diff_counts_the_pixels_that_differ() {
    let folder = Folder::new();
    let plate = "--size 40x30 --pitch 1 --layer-height 1 --z-to 4";
    folder.well(&format!("stack --formula max(abs(x)|-|5,abs(y)|-|5) {plate} --out a"));
    folder.well(&format!("stack --formula max(max(abs(x)|-|5,abs(y)|-|5),z|-|2) {plate} --out b --format pbm"));
    folder.well(&format!("stack --formula max(abs(x)|-|5,abs(y)|-|5) {plate} --out c"));
    let found = folder.run("diff a b");
    assert_eq!(found.status, Some(3));
    // two layers of ten by ten pixels
    assert!(found.out.starts_with("2 of 4 layers differ, in 200 pixels: layers 2 to 3\n"), "{}", found.out);
    assert!(folder.path("out/diff.png").exists());
    assert_eq!(folder.well("diff a c").out.trim(), "4 layers are equal, pixel by pixel");
    folder.well("stack --formula x --size 40x30 --pitch 2 --layer-height 1 --z-to 4 --out d");
    let apart = folder.run("diff a d");
    assert_eq!(
        (apart.status, apart.err.contains("not of one plate: they differ in pitch")),
        (Some(2), true),
        "{}",
        apart.err
    );
}

#[test]
fn time_counts_what_the_manifest_counts() {
    let folder = Folder::new();
    folder.write("ring.txt", RING);
    let plate = "ring.txt --size 90x70 --pitch 0.3mm --layer-height 2mm --z-to 12";
    folder.well(&format!("stack {plate}"));
    let said = folder.well(&format!("--json time {plate} --png chart.png")).out;
    let said = json::parse(&said).expect("JSON");
    let counts = |value: &json::Value, name: &str| value.get(name).and_then(|it| it.whole::<u64>()).expect("a count");
    let drawn = folder.json("out/ring/manifest.json");
    let of_masks: Vec<u64> =
        drawn.get("drawn").and_then(|it| it.list()).expect("layers").iter().map(|it| counts(it, "count")).collect();
    let of_time: Vec<u64> =
        said.get("counts").and_then(|it| it.list()).expect("counts").iter().filter_map(|it| it.whole()).collect();
    assert_eq!((of_time.len(), of_time), (6, of_masks));
    assert!(folder.path("chart.png").exists());
}

/// A random model, and its value by the slow drawing's arithmetic, line by line.
fn random_model(random: &mut Random) -> (String, Vec<(u8, i32, usize, usize)>) {
    let mut text = "# made by a test\n".to_string();
    let mut lines: Vec<(u8, i32, usize, usize)> = Vec::new();
    for line in 0..30 {
        let constant = random.below(400_000) as i32 - 200_000;
        let [a, b] = [(); 2].map(|()| random.below(line.max(1)) as usize);
        let kind = if line < 3 { line } else { 3 + random.below(11) };
        let (words, opcode) = match kind {
            0 => ("var-x".to_string(), 1),
            1 => ("var-y".to_string(), 2),
            2 => ("var-z".to_string(), 3),
            3 => (format!("const {}", f64::from(constant) / 65_536.0), 0),
            4 => (format!("neg _{a:x}"), 5),
            5 => (format!("abs _{a:x}"), 6),
            6 => (format!("square _{a:x}"), 7),
            7 => (format!("sqrt _{a:x}"), 8),
            8 => (format!("add _{a:x} _{b:x}"), 9),
            9 => (format!("sub _{a:x} _{b:x}"), 10),
            10 => (format!("mul _{a:x} _{b:x}"), 11),
            11 => (format!("min _{a:x} _{b:x}"), 12),
            12 => (format!("max _{a:x} _{b:x}"), 13),
            _ => (format!("div _{a:x} _{b:x}"), 14),
        };
        text += &format!("_{line:x} {words}\n");
        lines.push((opcode, constant, a, b));
    }
    (text, lines)
}

#[test]
fn imported_models_have_the_slow_drawings_values() {
    let folder = Folder::new();
    let mut random = Random(38);
    for _ in 0..25 {
        let (text, lines) = random_model(&mut random);
        folder.write("model.vm", &text);
        let said = folder.well("import model.vm --out model.tape").out;
        assert!(said.contains("every constant is a whole number of units"), "{said}");
        let tape = Tape::from_bytes(folder.bytes("model.tape")).expect("a tape");
        for _ in 0..200 {
            let sample = [(); 3].map(|()| random.below(1 << 22) as i128 - (1 << 21));
            let mut values: Vec<i128> = Vec::new();
            for (opcode, constant, a, b) in &lines {
                let [a, b] = [*a, *b].map(|line| values.get(line).copied().unwrap_or(0));
                values.push(slow::arith::value(*opcode, *constant, sample, a, b));
            }
            let [x, y, z] = sample.map(|units| units as f64 / 65_536.0);
            let probed = match tape.probe(x, y, z).expect("a probe") {
                Probe::Inside(value) | Probe::Outside(value) => (value * 65_536.0) as i128,
                Probe::Surface => 0,
            };
            assert_eq!(Some(&probed), values.last(), "{text}at {sample:?}");
        }
    }
    folder.write("bad.vm", "a var-x\nb exp a\n");
    let bad = folder.run("import bad.vm");
    assert_eq!((bad.status, bad.err.contains("bad.vm, line 2: `exp` is no operation")), (Some(2), true), "{}", bad.err);
}
