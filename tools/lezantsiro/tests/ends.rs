//! How runs end badly: the status, the number, the place and the words of each.

mod common;

use common::{Folder, RING, names};
use layers::{Clause, Tape};

const PLATE: &str = "--size 64x48 --pitch 0.5mm";

/// Every line of the core's table that the program can meet, and the words that tell it. Lines 10, 12, 13, 14 and 16
/// are about sizes and buffers that it never asks for.
#[test]
fn every_refusal_has_its_number_place_and_words() {
    let folder = Folder::new();
    let tape = |bytes: &[u8]| [b"TP\x01\x01\x01\x00\x00\x00", bytes].concat();
    let clause = |bytes: [u8; 8]| [&b"CL"[..], &bytes].concat();
    let parts = [
        ("short", b"TP\x01".to_vec(), "refused 1 at 0: short: the tape is shorter than its head"),
        ("head", b"TP\x07\x01\x01\x00\x00\x00".to_vec(), "refused 2 at 0: head: this is no tape of edition 1 or 2"),
        ("counts", b"TP\x01\x00\x01\x00\x00\x00".to_vec(), "refused 3 at 0: counts: a tape has 1 to 128 slots"),
        ("length", tape(b"CL"), "refused 4 at 0: length: the length does not fit"),
        ("opcode", tape(&clause([99, 0, 0, 0, 0, 0, 0, 0])), "refused 5 at clause 0: opcode: clause 0"),
        ("slot", tape(&clause([1, 3, 0, 0, 0, 0, 0, 0])), "refused 6 at clause 0: slot: clause 0"),
        ("field", tape(&clause([1, 0, 0, 0, 9, 0, 0, 0])), "refused 7 at clause 0: field: clause 0"),
        ("least", tape(&clause([0, 0, 0, 0, 0, 0, 0, 0x80])), "refused 8 at clause 0: least: clause 0"),
        ("unwritten", tape(&clause([4, 0, 0, 0, 0, 0, 0, 0])), "refused 9 at clause 0: unwritten: clause 0"),
        ("record", b"GR\x01".to_vec(), "refused 15 at 0: record: "),
        (
            "broken.txt",
            b"max(x - 24, 8 - root(y)".to_vec(),
            "refused 17 at byte 23: broken.txt: line 1: the text ends too early: expected is a sign such as + or *, \
             `,` or `)`\n    max(x - 24, 8 - root(y)\n                           ^",
        ),
        ("deep.txt", "(".repeat(300).into_bytes(), "refused 17 at byte 200: deep.txt: line 1: more than 200 brackets"),
        ("large.txt", large(), "refused 19 at 0: large.txt: 6,400 clauses with equal parts shared"),
    ];
    for (name, bytes, words) in parts {
        folder.write(name, bytes);
        let ended = folder.run(&format!("layer {name} --z 0 {PLATE}"));
        assert_eq!(ended.status, Some(1), "{name}");
        assert!(ended.err.starts_with(&format!("lezantsiro: {words}")), "{name}: {}", ended.err);
        assert!(ended.out.is_empty() && !folder.path("out").exists(), "{name}");
    }
    for (words, said) in [
        ("layer --formula x --z 40000 --size 64x48 --pitch 1", "refused 11 at 0: z = 40000 mm: "),
        (
            "layer --formula x --z 0 --size 64x48 --pitch 1 --origin 40000,0",
            "refused 11 at 0: x goes from 40000 to 40063.5 mm",
        ),
        ("layer --formula x --z 0 --size 64x48 --pitch 0.065537", "refused 11 at 0: 64 samples of 65537/1000000 mm"),
        ("probe --formula x 40000 0 0", "refused 20 at 0: "),
        ("probe --formula x+ 0 0 0", "refused 17 at byte 2: the formula: "),
    ] {
        let ended = folder.run(words);
        assert_eq!(ended.status, Some(1), "{words}: {}", ended.err);
        assert!(ended.err.starts_with(&format!("lezantsiro: {said}")), "{words}: {}", ended.err);
    }
}

/// A sum whose terms are all different.
fn large() -> Vec<u8> {
    let terms: Vec<String> = (0..1600).map(|i| format!("abs(x - {i})")).collect();
    terms.join(" + ").into_bytes()
}

/// A tape whose clauses or slots are all taken has no room for an exact pitch; the nearest step needs none.
#[test]
fn a_tape_without_room_is_told_what_to_do() {
    let folder = Folder::new();
    let tape = Tape::from_clauses(128, &[Clause::x(0)]).unwrap();
    folder.write("full", tape.as_bytes());
    let ended = folder.run("layer full --z 0 --size 64x48 --pitch 0.05mm");
    assert_eq!(ended.status, Some(1));
    assert!(
        ended.err.starts_with("lezantsiro: refused 3 at 0: with an exact pitch the tape is too large"),
        "{}",
        ended.err
    );
    assert!(ended.err.contains("--pitch-nearest"));
    let near = folder.well("layer full --z 0 --size 3840x48 --pitch 0.05mm --origin corner --pitch-nearest");
    assert!(near.out.contains("the far edge is 0.011718 mm off, 0.23 pixels"), "{}", near.out);
    folder.well("verify out/full");
    // units are exact as they are
    folder.well("layer full --z 0 --size 64x48 --pitch 0.125mm --out eighth");
}

#[test]
fn the_far_circle_is_refused_with_its_byte() {
    let folder = Folder::new();
    folder.write("far.txt", "root(sqr(x) + sqr(y)) - 200\n");
    let words = "layer far.txt --z 0 --size 512x512 --pitch 0.25 --origin 150,-64";
    let ended = folder.run(words);
    assert_eq!(ended.status, Some(3));
    assert!(ended.err.starts_with("lezantsiro: far.txt: sqr(x) at byte 5 clamps where |x| > 181"), "{}", ended.err);
    assert!(ended.err.contains("nothing is drawn") && !folder.path("out").exists());
    let allowed = folder.well(&format!("{words} --allow-clamped"));
    assert!(allowed.out.contains("clamped, as allowed: far.txt: sqr(x) at byte 5"), "{}", allowed.out);
    let check = folder.run("check far.txt --size 512x512 --pitch 0.25 --origin 150,-64");
    assert_eq!(check.status, Some(3));
    assert!(check.out.contains("clamping: far.txt: sqr(x) at byte 5 clamps"), "{}", check.out);
    // stacks and heights are held to the same
    for command in ["stack", "heights"] {
        let words = format!("{command} far.txt --size 512x512 --pitch 0.25 --origin 150,-64 --layer-height 1 --z-to 5");
        assert_eq!(folder.run(&words).status, Some(3), "{command}");
    }
}

#[test]
fn wrong_flags_are_usage() {
    let folder = Folder::new();
    folder.write("ring.txt", RING);
    folder.write("grid.txt", "# layer 3 3 from 0\nx");
    folder.write("printers", "mine 64x48 0.5 10\nbroken 64");
    let layer = format!("layer ring.txt {PLATE}");
    for (words, said) in [
        ("", "Usage"),
        ("lay", "lay"),
        ("layer", "no PART"),
        ("layer nosuch.txt --z 0", "nosuch.txt cannot be read"),
        ("layer ring.txt --z 0", "give --printer, or --size 3840x2400"),
        ("layer ring.txt --z 0 --size 64x48", "give --printer, or --pitch 0.05mm"),
        (&layer, "give --z MM"),
        (&format!("{layer} --z abc"), "no length"),
        (&format!("{layer} --z 0 --aa 3"), "not 1, 2 or 4"),
        (&format!("{layer} --z 0 --aa 2 --format png1"), "--aa 2 gives greys, which png1 can't hold"),
        (&format!("{layer} --z 0 --format gif"), "gif"),
        (&format!("{layer} --z 0 --y left"), "left"),
        (&format!("{layer} --z 0 --material grey"), "grey"),
        (&format!("{layer} --z 0 --origin here"), "not centre, corner, or X,Y"),
        (&format!("{layer} --z 0 --jobs 0"), "0"),
        (&format!("{layer} --z 0 --nosuch"), "--nosuch"),
        (&format!("{layer} --z 0 --formula x"), "cannot be used with"),
        ("layer ring.txt --z 0 --size 0x5 --pitch 1", "no size"),
        ("layer ring.txt --z 0 --size 5 --pitch 1", "no size"),
        ("layer ring.txt --z 0 --size 5x5 --pitch 0", "no pitch"),
        ("layer ring.txt --z 0 --printer nosuch", "no printer 'nosuch'"),
        ("layer ring.txt --z 0 --printer mine --printers printers", "printers, line 2"),
        ("layer grid.txt --z 0", "'# layer 3 3 from 0' is no grid"),
        (&format!("stack ring.txt {PLATE} --z-to 3"), "give --layer-height"),
        (&format!("stack ring.txt {PLATE} --layer-height 0.1"), "give --z-to"),
        (&format!("stack ring.txt {PLATE} --layer-height 0.1 --z-from 3 --z-to 3"), "a stack has 1 to 100000"),
        (&format!("stack ring.txt {PLATE} --layer-height 0 --z-to 3"), "not above 0"),
        (&format!("stack ring.txt {PLATE} --layer-height 0.1 --z-to 3 --shard 5/4"), "no share"),
        ("probe ring.txt 1 2", "probe takes PART X Y Z"),
        ("probe ring.txt 1 2 c", "no length"),
        ("verify", "DIR"),
        ("verify nosuch", "nosuch cannot be read"),
        ("sl1 nosuch", "nosuch cannot be read"),
    ] {
        let ended = folder.run(words);
        assert_eq!(ended.status, Some(2), "{words}: {}", ended.err);
        assert!(ended.err.contains(said), "{words}: {}", ended.err);
    }
    let mut left = names(&folder.0);
    left.retain(|name| !["ring.txt", "grid.txt", "printers"].contains(&name.as_str()));
    assert_eq!(left, [""; 0], "nothing is written");
}

#[test]
fn help_says_what_is_proved() {
    let folder = Folder::new();
    let help = folder.well("--help").out;
    assert!(help.contains("Every pixel comes from a call of the proved core"), "{help}");
    assert!(help.contains("tested, not proved"), "{help}");
    for command in ["layer", "stack", "heights", "probe", "check", "verify", "sl1"] {
        assert!(help.contains(command));
        folder.well(&format!("{command} --help"));
    }
}

#[test]
fn printers_come_from_a_table_that_can_grow() {
    let folder = Folder::new();
    folder.write("ring.txt", RING);
    folder.write("mine.txt", "# ours\nmine 100x60 0.05x0.0625 80 # a small one\n");
    let said = folder.well("layer ring.txt --z 0 --printer mine --printers mine.txt --out m").out;
    assert!(said.contains("100 by 60 pixels of 1/20 by 1/16 mm"), "{said}");
    assert_eq!(folder.mask("m/layer00000.png").1.density, Some((20_000, 16_000)));
    folder.well("verify m");
    assert!(
        folder.well("layer ring.txt --z 0 --printer saturn --out s").out.contains("3840 by 2400 pixels of 1/20 mm")
    );
}

#[test]
fn a_check_says_what_a_run_would_meet() {
    let folder = Folder::new();
    folder.write("ball.txt", "root(sqr(x) + sqr(y) + sqr(z - 3)) - 3");
    let said = folder.well("check ball.txt --size 120x80 --pitch 0.05mm --layer-height 0.5 --z-from -1 --z-to 7").out;
    for line in [
        "ball.txt: 13 clauses, 3 slots, edition 1",
        "plate: 120 by 80 pixels, x -3 to 3, y -2 to 2 mm",
        "pitch on x: 1/20 mm on a grid of 65,536 units, x divided by 1,310,720 units: exact, rounded down",
        "drawn: 17 clauses, 4 slots",
        // 17 clauses, 4,161 runs a tile, 2 by 2 tiles
        "most runs of a clause: 282,948 a layer, 4,527,168 in all",
        "clamping: none",
        "layers: 16; empty: 0 to 1, 14 to 15",
    ] {
        assert!(said.lines().any(|found| found == line), "{line}\n{said}");
    }
    assert!(said.contains("layers that touch the plate's edge: 3 to 12"), "{said}");
    assert_eq!(names(&folder.0), ["ball.txt"]);
}
