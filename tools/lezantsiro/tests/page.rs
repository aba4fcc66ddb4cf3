//! The page that `view` writes: its evaluator against the probe, run by node, and the whole page in a browser. Where
//! node or Chromium is not at hand the test says so and ends.

mod common;

use common::{Folder, RING};
use layers::{Probe, Tape};
use std::io::Write;
use std::process::{Command, Stdio};

/// Whether a program is there.
fn at_hand(program: &str) -> bool {
    let found = Command::new(program).arg("--version").stdout(Stdio::null()).stderr(Stdio::null()).status().is_ok();
    if !found {
        eprintln!("left out: {program} is not at hand");
    }
    found
}

/// A sequence that its seed fixes.
struct Random(u64);

impl Random {
    fn below(&mut self, bound: u64) -> u64 {
        self.0 = self.0.wrapping_mul(6_364_136_223_846_793_005).wrapping_add(1_442_695_040_888_963_407);
        (self.0 >> 33) % bound
    }
}

const FORMULAS: [&str; 5] = [
    RING,
    "x*y/z - abs(z - x)/3 + root(y)*sqr(z)",
    "min(max(x, -y), max(z/x, 5 - y*z)) + sqr(sqr(x))",
    "root(sqr(x - 1.5) + sqr(y)) - 12/(z - z)",
    "-root(-x) + x/(0 - 0.0001) - 32767.9999*y",
];

#[test]
fn the_pages_evaluator_is_the_probe() {
    if !at_hand("node") {
        return;
    }
    const POINTS: usize = 20_000;
    let mut random = Random(7);
    let mut input = String::new();
    let mut expected = Vec::new();
    for formula in FORMULAS {
        let tape = Tape::from_text(formula).expect(formula);
        let list = tape.to_list();
        let clauses: Vec<String> = list.chunks(5).map(|clause| format!("{clause:?}")).collect();
        let mut points = Vec::new();
        for _ in 0..POINTS {
            let bits = [12, 22, 30][random.below(3) as usize];
            let sample = [(); 3].map(|()| random.below(1 << bits) as i64 - (1 << (bits - 1)));
            let [x, y, z] = sample.map(|units| units as f64 / 65_536.0);
            expected.push(match tape.probe(x, y, z).expect("a probe") {
                Probe::Inside(value) | Probe::Outside(value) => (value * 65_536.0) as i64,
                Probe::Surface => 0,
            });
            points.push(format!("{sample:?}"));
        }
        input += &format!("{{\"clauses\":[{}],\"points\":[{}]}}\n", clauses.join(","), points.join(","));
    }
    let script = "const { valuesAt } = require(process.argv[1]);\n\
        for (const line of require('fs').readFileSync(0, 'utf8').trim().split('\\n')) {\n\
          const { clauses, points } = JSON.parse(line);\n\
          console.log(points.map((point) => valuesAt(clauses, point.map(BigInt)).at(-1)).join('\\n'));\n\
        }";
    let evaluate = concat!(env!("CARGO_MANIFEST_DIR"), "/src/view/evaluate.js");
    let mut node = Command::new("node");
    let mut node =
        node.args(["-e", script, evaluate]).stdin(Stdio::piped()).stdout(Stdio::piped()).spawn().expect("node");
    let mut to = node.stdin.take().expect("an input");
    let writer = std::thread::spawn(move || to.write_all(input.as_bytes()));
    let out = node.wait_with_output().expect("an end");
    writer.join().expect("a thread").expect("written");
    let found: Vec<i64> = String::from_utf8_lossy(&out.stdout).lines().map(|line| line.parse().expect(line)).collect();
    assert_eq!(found.len(), FORMULAS.len() * POINTS);
    assert!(found == expected, "first apart: {:?}", found.iter().zip(&expected).position(|(a, b)| a != b));
}

/// The text of an element of the page, as the browser has it.
fn text_of<'a>(dom: &'a str, id: &str) -> &'a str {
    let from = dom.find(&format!("id=\"{id}\"")).unwrap_or_else(|| panic!("no {id} in {dom}"));
    let from = from + dom[from..].find('>').expect("an end") + 1;
    &dom[from..from + dom[from..].find("</").expect("an end")]
}

#[test]
fn the_page_works_in_a_browser() {
    let Some(browser) = ["chromium", "chromium-browser", "google-chrome"].into_iter().find(|name| at_hand(name)) else {
        return;
    };
    let folder = Folder::new();
    folder.write("ring.txt", RING);
    folder.well("stack ring.txt --size 60x50 --pitch 0.4mm --layer-height 1mm --z-to 12");
    folder.well("view out/ring");
    let dom = |hash: &str| {
        let page = format!("file://{}#{hash}", folder.path("out/ring/view.html").display());
        let mut command = Command::new(browser);
        command.args([
            "--headless",
            "--no-sandbox",
            "--disable-gpu",
            "--virtual-time-budget=5000",
            "--dump-dom",
            &page,
        ]);
        let out = command.env("HOME", &folder.0).output().expect("the browser runs");
        let errors = String::from_utf8_lossy(&out.stderr).into_owned();
        assert!(!errors.contains("Uncaught"), "{errors}");
        String::from_utf8_lossy(&out.stdout).into_owned()
    };
    let manifest = folder.json("out/ring/manifest.json");
    let drawn = manifest.get("drawn").and_then(|drawn| drawn.list()).expect("layers");
    let material = |layer: usize| drawn[layer].get("pixels").and_then(|pixels| pixels.whole::<u64>()).expect("pixels");
    let (low, high) = (dom("layer=0&pixel=40,20"), dom("layer=11&pixel=40,20"));
    // the slider's layer decides what is shown
    for (dom, layer) in [(&low, 0), (&high, 11)] {
        assert!(dom.contains(&format!("data-material=\"{}\"", material(layer))), "layer {layer}");
        assert!(text_of(dom, "where").starts_with(&format!("layer {layer} of 12")), "{}", text_of(dom, "where"));
    }
    assert_ne!(material(0), material(11));
    // column 40 is at x = (40 + 1/2 - 30) · 0.4 = 4.2 mm; row 20 from above is row 29: y = (29.5 - 25) · 0.4 = 1.8 mm
    let probed = folder.well("probe ring.txt 4.2 1.8 0.5").out;
    let value = probed.trim().split_once(", ").expect("a side and a value").1;
    let shown = text_of(&low, "value").split(' ').next().expect("a value");
    let [value, shown]: [f64; 2] = [value, shown].map(|number| number.parse().expect(number));
    assert!((value - shown).abs() < 1e-5, "{value} {shown}");
    assert_eq!(text_of(&low, "agrees"), "agrees");
    assert_eq!(text_of(&low, "command"), "./lezantsiro why out/ring --pixel 40,20 --layer 0");
    assert!(low.contains("class=\"decided\""));
    // the slider, moved by hand, changes the picture
    let moved = "<script>addEventListener('load', () => setTimeout(() => { const s = document.getElementById('layer'); \
        s.value = 11; s.dispatchEvent(new Event('input')); }, 500));</script></html>";
    let page = String::from_utf8(folder.bytes("out/ring/view.html")).expect("a text");
    folder.write("out/ring/view.html", page.replace("</html>", moved));
    let slid = dom("layer=0&pixel=40,20");
    assert!(
        slid.contains(&format!("data-material=\"{}\"", material(11)))
            && text_of(&slid, "where").starts_with("layer 11 ")
    );
}
