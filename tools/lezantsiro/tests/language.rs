//! Formulas as people write them, through the program: what they expand to, and what is said where they are wrong.

mod common;

use common::Folder;
use layers::Tape;

const GASKET: &str = "\
# a gasket, with names
r = sqrt(x^2 + y^2)      # the distance from the middle
corner = root(sqr(max(abs(x) - 20, 0)) + sqr(max(abs(y) - 14, 0)))
bolt = root((abs(x) - 20)^2 +
            (abs(y) - 14)^2)

max(corner - 6,
    10 - r, 3 - bolt,
    .5 - abs(x*cos(30) + y*sin(30)))
";

#[test]
fn names_and_powers_expand_to_a_plain_formula() {
    let folder = Folder::new();
    folder.write("gasket.txt", GASKET);
    let plain = folder.well("expand gasket.txt").out;
    assert_eq!(
        plain.trim_end(),
        "max(max(root(sqr(max(abs(x) - 20, 0)) + sqr(max(abs(y) - 14, 0))) - 6, 10 - root(sqr(x) + sqr(y))), \
         max(3 - root(sqr(abs(x) - 20) + sqr(abs(y) - 14)), 0.5 - abs(x*0.866 + y*0.5)))"
    );
    Tape::from_text(plain.trim_end()).expect("the proved reader takes it");
    // drawn and verified like any other
    folder.well("layer gasket.txt --z 0 --size 200x160 --pitch 0.3mm");
    folder.well("verify out/gasket --pixels 2000 --seed 5");
    // what is expanded expands to itself
    folder.write("plain.txt", &plain);
    assert_eq!(folder.well("expand plain.txt").out, plain);
}

#[test]
fn what_is_too_large_for_a_text_is_compiled_and_says_so() {
    let folder = Folder::new();
    let terms: Vec<String> =
        (0..300).map(|i| format!("root(sqr(x - {}.{}) + sqr(y - {})) - q", i / 4, i % 4, i % 7)).collect();
    folder.write("many.txt", format!("q = root(sqr(x) + sqr(z))/9\nmin({})\n", terms.join(",\n")));
    let said = folder.well("check many.txt --size 64x48 --pitch 0.5mm").out;
    assert!(said.contains("too large for the proved reader of texts; compiled by this program"), "{said}");
    assert!(said.contains("This step is not proved: its values are the formula's at 2,000 random points"), "{said}");
    // the plain formula can be looked at, and is not handed on in silence
    let looked = folder.run("expand many.txt");
    assert_eq!((looked.status, looked.err.contains("This step is not proved")), (Some(3), true), "{}", looked.err);
    assert!(looked.out.starts_with("min("));
    folder.well("layer many.txt --z 1 --size 64x48 --pitch 0.5mm");
    folder.well("verify out/many --pixels 3072 --seed 6");
}

#[test]
fn an_error_shows_the_line_with_a_mark() {
    let folder = Folder::new();
    folder.write("wrong.txt", "# a part\nr = root(sqr(x)\n      + sqr(y)\nr - 24\n");
    let ended = folder.run("expand wrong.txt");
    assert_eq!(ended.status, Some(1));
    assert_eq!(
        ended.err,
        "lezantsiro: refused 17 at byte 40: wrong.txt: line 4: `r` does not fit here: expected is a sign such as + or \
         *, `,` or `)`\n    r - 24\n    ^\n"
    );
    for (formula, words) in [
        ("square(x)", "the square is written sqr(a) or a^2"),
        ("Root(x)", "it is written root"),
        ("sin(x)", "sin and cos are of numbers alone, and this has x in it"),
        ("x|+|3|4", "a number does not fit here: expected is a sign such as + or *, or the end"),
        ("min()", "`)` does not fit here"),
        ("x\t+\t|", "the text ends too early"),
    ] {
        let ended = folder.run(&format!("expand --formula {formula}"));
        assert_eq!(ended.status, Some(1), "{formula}");
        assert!(ended.err.contains(words), "{formula}: {}", ended.err);
    }
}
