//! The Python module over the same archive, where python3 is at hand.

use std::process::Command;

#[test]
fn the_module_draws_what_it_says() {
    let example = concat!(env!("CARGO_MANIFEST_DIR"), "/../../examples/layers.py");
    let run = |words: &[&str]| Command::new("python3").args(words).output();
    if run(&["--version"]).is_err() {
        eprintln!("left out: python3 is not at hand");
        return;
    }
    let out = run(&[example]).expect("python3 runs");
    let said = String::from_utf8_lossy(&out.stdout).into_owned();
    assert!(out.status.success(), "{}", String::from_utf8_lossy(&out.stderr));
    let rows: Vec<&str> = said.lines().take(32).collect();
    // the ring's middle row, half a pixel below 0: 8 < |x| < 24
    assert_eq!(rows[15], format!("{0}{1}{2}{1}{0}", ".".repeat(8), "#".repeat(16), ".".repeat(16)));
    assert!(said.contains("6961 clauses run; at (10, 0, 0): ('inside', -2.0)"), "{said}");
    assert!(said.ends_with("max(x: refused 17 at 0\n"), "{said}");
    // slopes of the ramp z - x/2, as README has it
    let ramp = "import sys; sys.path.insert(0, sys.argv[1]); import layers as l\n\
        h, s, c = l.slopes(l.text('z - x/2'), l.solid(4, 1, 4, 1.0))\n\
        print([int(v) for v in l.numpy.ravel(h)] if l.numpy else list(h))\n\
        print([int(v) for v in l.numpy.ravel(s)[9:]] if l.numpy else list(s)[9:])";
    let folder = concat!(env!("CARGO_MANIFEST_DIR"), "/../../examples");
    let out = run(&["-c", ramp, folder]).expect("python3 runs");
    assert_eq!(String::from_utf8_lossy(&out.stdout), "[0, 1, 1, 2]\n[-32768, 0, 65536]\n");
    // what 32 bits cannot hold is an error, and not another place
    let far = "import sys; sys.path.insert(0, sys.argv[1]); import layers as l; l.flat(8, 8, 40000.0)";
    let out = run(&["-c", far, folder]).expect("python3 runs");
    assert!(String::from_utf8_lossy(&out.stderr).contains("OverflowError: 40000.0 is beyond 32,768"));
}
