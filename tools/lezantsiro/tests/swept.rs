//! What a part sweeps along a path, through the program.

mod common;

use common::Folder;

#[test]
fn a_blade_sweeps_what_it_covers_first() {
    let folder = Folder::new();
    // a blade of 2 by 6 mm that goes right by 10 mm in steps of 1, and then up
    let path: Vec<String> =
        (0..=10).map(|step| format!("{step},0")).chain((1..=5).map(|step| format!("10,{step}"))).collect();
    folder.write("path.csv", format!("x,y\n{}\n", path.join("\n")));
    let blade = "sweep --formula max(abs(x)|-|1,abs(y)|-|3) --z 0 --path path.csv --origin corner";
    let said = folder.well(&format!("{blade} --size 16x10 --pitch 1 --out plain")).out;
    assert!(said.contains("of 160 pixels swept by 16 positions"), "{said}");
    let file = folder.bytes("plain/sweep.pgm");
    assert!(file.starts_with(b"P5\n16 10\n65535\n"));
    let number = |column: usize, row: usize| {
        // rows from above
        let at = file.len() - 2 * 160 + 2 * (16 * (9 - row) + column);
        u16::from_be_bytes([file[at], file[at + 1]])
    };
    // the sample of column c is at c + 1/2, first covered at the step c; row 4 only when the blade has gone up
    assert_eq!([0, 1, 5, 10, 11].map(|column| number(column, 0)), [1, 2, 6, 11, 0]);
    assert_eq!([number(10, 4), number(9, 4), number(12, 0)], [1 + 12, 1 + 12, 0]);
    // the same plate with a pitch that no grid has as it is: four pixels for one, with the same numbers
    folder.well(&format!("{blade} --size 80x50 --pitch 0.2 --out fine"));
    let fine = folder.bytes("fine/sweep.pgm");
    let at = |column: usize, row: usize| {
        let at = fine.len() - 2 * 4_000 + 2 * (80 * (49 - row) + column);
        u16::from_be_bytes([fine[at], fine[at + 1]])
    };
    for (column, row) in [(0, 0), (5, 0), (10, 0), (11, 2), (10, 4), (12, 0)] {
        assert_eq!(at(5 * column + 2, 5 * row + 2), number(column, row), "{column}, {row}");
    }
    assert!(folder.path("plain/sweep.png").exists());
    // offsets move samples to where the square clamps, and then nothing is drawn
    folder.write("far.csv", "-300,0\n");
    let far = folder.run("sweep --formula root(sqr(x)|+|sqr(y))|-|200 --z 0 --path far.csv --size 8x8 --pitch 1");
    assert_eq!((far.status, far.err.contains("clamps where |x| > 181")), (Some(3), true), "{}", far.err);
    folder.write("none.csv", "x,y\n");
    let none = folder.run(&format!("{} --size 16x10 --pitch 1", blade.replace("path.csv", "none.csv")));
    assert_eq!(
        (none.status, none.err.starts_with("lezantsiro: refused 25 at 0: none.csv has 0 positions")),
        (Some(1), true)
    );
}
