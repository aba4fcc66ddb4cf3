//! Formulas as text against the slow reader, and the slow reader against the grammar: figures of the request, random
//! trees written and read back, damage, where a reader stopped, long texts, refusals, planted faults.

use checks::grammar::{BYTES, Grammar};
use checks::program;
use checks::random::{Random, cases};
use checks::text::{Reading, damage, limit};
use checks::trees::{random_tree, spaced};
use layers::{TextError, raw};
use slow::call::Answer;
use slow::compile;
use slow::tape::Tape;
use slow::text::{self, Fault, OUTPUT, Stopped};

/// The number that comes back for a text.
fn number(text: impl Into<Vec<u8>>) -> u8 {
    let mut noise = Random::new(0x5EED_0050);
    let said = Reading::new(text).compare(&mut noise).unwrap_or_else(|e| panic!("{e}"));
    assert_eq!((said.place, said.count), (0, 0));
    said.number
}

/// The tape that the call leaves in the buffer.
fn tape(text: &str) -> Tape {
    assert_eq!(number(text), 0, "{text}");
    let mut out = [0; OUTPUT];
    raw::read_text(text.as_bytes(), &mut out);
    let clauses = u16::from_le_bytes([out[4], out[5]]) as usize;
    Tape::from_bytes(&out[..8 + 10 * clauses]).expect("an accepted tape")
}

fn opcodes(text: &str) -> Vec<u8> {
    tape(text).clauses.iter().map(|clause| clause.opcode).collect()
}

fn constant(text: &str) -> i32 {
    let tape = tape(text);
    assert_eq!((tape.slots, tape.clauses.len(), tape.clauses[0].opcode), (1, 1, 0));
    tape.clauses[0].constant
}

#[test]
fn figures() {
    let list =
        [[1, 0, 0, 0, 0], [5, 0, 0, 0, 0], [2, 1, 0, 0, 0], [11, 0, 0, 1, 0], [0, 1, 0, 0, 98_304], [9, 0, 0, 1, 0]];
    assert_eq!(tape("-x*y+1.5"), Tape::from_list(2, &list.concat()).expect("an accepted list"));
    assert_eq!(opcodes("x/y*z"), [1, 2, 14, 3, 11]);
    assert_eq!(opcodes("x--y"), [1, 2, 5, 10]);
    let numbers = ["0.0001", "0.9999", "32767.9999", "00001"].map(constant);
    assert_eq!(numbers, [6, 65_529, 2_147_483_641, 65_536]);
}

#[test]
fn broken_texts() {
    let broken = [
        "",
        "    ",
        "32768",
        "000001",
        "1.",
        ".5",
        "1 2",
        "1 .5",
        "1.23456",
        "ab s(x)",
        "min(x)",
        "(x",
        "x)",
        "X",
        "+x",
        "x---y",
        "--x",
        "x\n",
        "\tx",
        "x,y",
        "min(x,y,z)",
        "abs(x,y)",
        "()",
        "x y",
        "1e5",
        "x;",
        "\u{e9}",
    ];
    assert_eq!(broken.map(number), [17; 27]);
}

#[test]
fn limits() {
    for open in ["(", "abs("] {
        let nested = |n: usize| open.repeat(n) + "x" + &")".repeat(n);
        assert_eq!([32, 33, 34, 1_000].map(|n| number(nested(n))), [0, 18, 18, 18]);
        assert_eq!(number(open.repeat(32) + "1("), 17);
        assert_eq!(number(open.repeat(33) + "?"), 18);
        assert_eq!(number(open.repeat(32) + "?" + open), 17);
    }
    let sum = |n: usize| vec!["x"; n].join("+");
    assert_eq!((opcodes(&sum(512)).len(), opcodes(&("-".to_string() + &sum(512))).len()), (1_023, 1_024));
    assert_eq!([number(sum(513)), number("-".to_string() + &sum(513)), number(sum(513) + "+")], [19, 19, 17]);
    let nested = |inner: &str| "x+x*max(x,".repeat(21) + inner + &")".repeat(21);
    assert_eq!((tape(&nested("x")).slots, number(nested("x+x")), number(nested("x+x") + "?")), (64, 19, 17));
}

/// 14 comes first, whatever the text; then what is met first from the left; 19 last.
#[test]
fn order_of_refusals() {
    let long = vec!["x"; 600].join("+");
    let deep = "(".repeat(33);
    let texts = [("x", 0), ("?", 17), (&deep, 18), (&long, 19), ("", 17)];
    let mut noise = Random::new(0x5EED_0051);
    for (text, alone) in texts {
        for out in [0, 1, 18, 68, OUTPUT - 1, OUTPUT, OUTPUT + 1, 65_536] {
            let reading = Reading { text: text.into(), out };
            let said = reading.compare(&mut noise).unwrap_or_else(|e| panic!("{e}"));
            assert_eq!(said, Answer { number: if out == OUTPUT { alone } else { 14 }, place: 0, count: 0 });
        }
    }
    assert_eq!(number(format!("?{deep}")), 17);
    assert_eq!(number(format!("{deep}?")), 18);
    assert_eq!(number(format!("{long}?")), 17);
    assert_eq!(number(format!("{long}+{deep}")), 18);
}

/// What the grammar says of a text where so many brackets may be open at once.
fn by_grammar(grammar: &Grammar, text: &[u8], brackets: usize) -> Option<Stopped> {
    let mut open = 0;
    for (at, byte) in text.iter().enumerate() {
        if !grammar.begins(&text[..=at]) {
            return Some(Stopped { number: 17, at });
        }
        if *byte == b'(' && open == brackets {
            return Some(Stopped { number: 18, at });
        }
        open += (*byte == b'(') as usize;
        open -= (*byte == b')') as usize;
    }
    if grammar.allows(text) { None } else { Some(Stopped { number: 17, at: text.len() }) }
}

/// All that allowed texts of some bytes begin with, and one byte more: the slow reader stops where the grammar says,
/// and the call returns its number.
fn every_short_text(bytes: &[u8], longest: usize) -> usize {
    let grammar = Grammar::new(bytes, longest);
    let others: Vec<u8> = (0..=255).filter(|b| !BYTES.contains(b)).collect();
    let lent = vec![0xA5; OUTPUT];
    let mut tried_texts = 0;
    let mut check = |text: &[u8], expected: [Option<Stopped>; 3]| {
        let found = [32, 2, 1].map(|brackets| text::tree_within(text, brackets, None).err());
        assert_eq!(found, expected, "{:?}", String::from_utf8_lossy(text));
        let said = Reading::new(text).compare_on(&lent, None).unwrap_or_else(|e| panic!("{e}"));
        assert_eq!(said.number, expected[0].map_or(0, |stopped| stopped.number));
        tried_texts += 1;
    };
    check(b"", [Some(Stopped { number: 17, at: 0 }); 3]);
    for begun in grammar.beginnings().filter(|begun| begun.len() < longest) {
        for &byte in bytes {
            let text = [&begun[..], &[byte]].concat();
            check(&text, [32, 2, 1].map(|brackets| by_grammar(&grammar, &text, brackets)));
        }
        // a byte that no allowed text has
        let stopped = |brackets| by_grammar(&grammar, begun, brackets).filter(|found| found.at < begun.len());
        let text = [&begun[..], &[others[begun.len() * 7 % others.len()]]].concat();
        let at = Stopped { number: 17, at: begun.len() };
        check(&text, [32, 2, 1].map(|brackets| stopped(brackets).or(Some(at))));
    }
    tried_texts
}

#[test]
fn every_short_text_of_every_byte() {
    assert!(every_short_text(BYTES, 3) > 8_000);
    let few_digits: Vec<u8> = BYTES.iter().copied().filter(|b| !(b'1'..=b'9').contains(b)).collect();
    assert!(every_short_text(&few_digits, 4) > 10_000);
}

#[test]
fn every_short_text_of_joins_and_brackets() {
    assert!(every_short_text(b"x+-*(), ", 7) > 40_000);
    assert!(every_short_text(b"y/-()", 9) > 25_000);
}

#[test]
fn every_short_text_of_functions() {
    assert!(every_short_text(b"minax(,) ", 9) > 35_000);
    assert!(every_short_text(b"absqrot(x)", 10) > 5_000);
    assert!(every_short_text(b"min(x,)", 13) > 4_500);
}

#[test]
fn every_short_text_of_numbers() {
    assert!(every_short_text(b"3276", 6) > 3_000);
    assert!(every_short_text(b"38.", 7) > 1_000);
    assert!(every_short_text(b"0. 1", 7) > 4_500);
    assert!(every_short_text(b"9.-", 11) > 9_000);
}

/// The grammar tells a reader with a fault from one without.
#[test]
fn the_grammar_catches_faults() {
    let faults: [(Fault, &[u8], usize); 4] = [
        (Fault::WholePart32768, b"32768", 5),
        (Fault::SpaceBeforePoint, b"1. ", 4),
        (Fault::Brackets33, b"x(", 3),
        (Fault::DeepBeforeBroken, b"1(", 3),
    ];
    for (fault, bytes, longest) in faults {
        let grammar = Grammar::new(bytes, longest);
        let begun = grammar.beginnings().filter(|begun| begun.len() < longest);
        let mut texts = begun.flat_map(|begun| bytes.iter().map(move |&byte| [&begun[..], &[byte]].concat()));
        let differs = |text: Vec<u8>| text::tree_within(&text, 1, Some(fault)).err() != by_grammar(&grammar, &text, 1);
        assert!(texts.any(differs), "{fault:?} is not caught");
    }
}

/// A value of a sample, of every size.
fn coordinate(r: &mut Random) -> i128 {
    let bits = r.below(32);
    (r.number() as i32 as i64 >> bits).max(-2_147_483_647) as i128
}

#[test]
fn random_trees_are_read_back() {
    let cases = cases(4_000);
    let mut r = Random::seeded(&format!("random_trees_are_read_back: {cases} cases"), 0x5EED_0052);
    let mut noise = Random::new(0x5EED_0053);
    let mut numbers = [0u64; 20];
    for _ in 0..cases {
        let tree = random_tree(&mut r);
        let reading = Reading::new(spaced(&tree, &mut r));
        let said = reading.compare(&mut noise).unwrap_or_else(|e| panic!("{e}"));
        numbers[said.number as usize] += 1;
        let text = String::from_utf8_lossy(&reading.text).into_owned();
        match said.number {
            18 => continue,
            19 => assert!(compile::tape(&tree, None).is_err()),
            number => assert_eq!(number, 0, "{text}"),
        }
        let read = text::tree(&reading.text).expect("an allowed text");
        assert_eq!(read.ordered(), tree.ordered(), "{text}");
        if said.number == 0 {
            let tape = tape(&text);
            assert_eq!(layers::Tape::from_text(&text).expect("a formula").as_bytes(), tape.to_bytes());
            for _ in 0..3 {
                let sample = [0; 3].map(|_| coordinate(&mut r));
                assert_eq!(tape.value_at(sample), tree.meaning(sample), "{text} at {sample:?}");
            }
        }
    }
    assert!(cases < 1_000 || [0, 18, 19].iter().all(|&n| numbers[n] > 0), "{numbers:?}");
}

#[test]
fn damage_at_every_byte() {
    let texts = cases(150);
    let mut r = Random::seeded(&format!("damage_at_every_byte: {texts} texts"), 0x5EED_0054);
    let mut numbers = [0u64; 20];
    for case in 0..texts {
        let text = if case % 10 == 0 { limit(&mut r) } else { spaced(&random_tree(&mut r), &mut r) };
        let lent = r.bytes(OUTPUT);
        for at in 0..=text.len() {
            let mut damaged = text.clone();
            damage(&mut r, &mut damaged, at);
            let said = Reading::new(damaged).compare_on(&lent, None);
            numbers[said.unwrap_or_else(|e| panic!("{e}")).number as usize] += 1;
        }
    }
    assert!(texts < 100 || [0, 17, 18, 19].iter().all(|&n| numbers[n] > 0), "{numbers:?}");
}

/// Where the slow reader stops: each shorter text ends there or is allowed, and what follows the byte changes nothing.
#[test]
fn stops_are_the_first() {
    let mut r = Random::seeded("stops_are_the_first", 0x5EED_0058);
    let stop = |text: &[u8]| text::tree(text).err();
    for _ in 0..cases(500) {
        let Reading { text, .. } = Reading::random(&mut r);
        let Some(stopped) = stop(&text) else { continue };
        for at in (0..=stopped.at).rev().take(200) {
            let end = stop(&text[..at]);
            assert!(end.is_none() || end == Some(Stopped { number: 17, at }), "{:?}", String::from_utf8_lossy(&text));
        }
        if stopped.at < text.len() {
            let after = [&text[..=stopped.at], &r.bytes(5)].concat();
            assert_eq!([stop(&text[..=stopped.at]), stop(&after)], [Some(stopped); 2]);
        }
    }
}

/// Where the wrapper says that the reader stopped; none for 19, and for a text that is read.
fn shown(text: &str) -> Option<Stopped> {
    let error = layers::Tape::from_text(text).err()?;
    error.at().map(|at| Stopped { number: error.refusal().number(), at })
}

/// The wrapper finds the place by the call alone: it is the slow reader's.
#[test]
fn errors_show_where_the_reader_stopped() {
    let cases = cases(3_000);
    let mut r = Random::seeded(&format!("errors_show_where_the_reader_stopped: {cases} cases"), 0x5EED_0059);
    let mut numbers = [0u64; 20];
    for case in 0..cases {
        let mut text = Reading::random(&mut r).text;
        if case % 4 == 0 {
            let at = r.index(text.len() + 1);
            damage(&mut r, &mut text, at);
        }
        let Ok(text) = String::from_utf8(text) else { continue };
        let stopped = text::tree(text.as_bytes()).err();
        assert_eq!(shown(&text), stopped, "{text:?}");
        numbers[stopped.map_or(0, |stopped| stopped.number) as usize] += 1;
    }
    assert!(cases < 1_000 || [0, 17, 18].iter().all(|&n| numbers[n] > 100), "{numbers:?}");
    for text in
        ["", " ", "x", "x\u{e9}", "\u{1F980}+x", "min(x,\u{e9})", "ma", "r", "roo", "mi n(x,y)", "1.", "x\n", "(("]
    {
        assert_eq!(shown(text), text::tree(text.as_bytes()).err(), "{text:?}");
    }
}

/// Every beginning of an allowed text, and the place found in a long one.
#[test]
fn errors_show_the_end_of_what_is_cut_off() {
    let whole = "max(min(sqr(x - 12.75), root(y*-2) / 3), abs(z)) * (1 - x)";
    for end in 0..=whole.len() {
        assert_eq!(shown(&whole[..end]), text::tree(&whole.as_bytes()[..end]).err(), "{:?}", &whole[..end]);
    }
    let long = vec!["x"; 200_000].join(" + ");
    let stops = |text: String| shown(&text).map(|stopped| (stopped.number, stopped.at));
    assert_eq!(stops(format!("{long} + ?")), Some((17, long.len() + 3)));
    assert_eq!(stops(format!("{long} + {}", "(".repeat(50))), Some((18, long.len() + 3 + 32)));
    let large: TextError = layers::Tape::from_text(&long).unwrap_err();
    assert_eq!((large.refusal().number(), large.at()), (19, None));
}

/// Joins are as deep as a text is long, brackets are not.
#[test]
fn a_million_bytes() {
    let n = 1_000_000;
    let joined = |join: &str| vec!["x"; n / (1 + join.len())].join(join);
    for join in ["+", "-", "*", "/", " - -"] {
        assert_eq!(number(joined(join)), 19);
        assert_eq!(number(joined(join) + join), 17);
        assert_eq!(number(format!("{}{}", "(".repeat(32), joined(join))), 17);
        assert_eq!(number(format!("{}{}{}", "abs(".repeat(32), joined(join), ")".repeat(32))), 19);
    }
    let wide = |text: &str| text.split(' ').collect::<Vec<_>>().join(&" ".repeat(n / 4));
    assert_eq!(number(wide(" - x + y ")), 0);
    assert_eq!(number(wide(" - x + ")), 17);
    let repeated = [("(", 18), (")", 17), ("-", 17), ("1", 17), ("0", 17), (" ", 17), ("abs(", 18), ("min(x,", 18)];
    for (text, expected) in repeated {
        assert_eq!(number(text.repeat(n / text.len())), expected, "{text}");
    }
    assert_eq!(number(vec!["((x))"; n / 6].join("*")), 19);
    assert_eq!(number(vec![0xFF; n]), 17);
}

#[test]
fn random_bytes() {
    let mut r = Random::seeded("random_bytes", 0x5EED_0055);
    let lent = r.bytes(OUTPUT);
    for case in 0..20_000 {
        let len = r.index(12);
        let text = if case % 2 == 0 { r.bytes(len) } else { (0..len).map(|_| r.pick(BYTES)).collect() };
        Reading::new(text).compare_on(&lent, None).unwrap_or_else(|e| panic!("{e}"));
    }
}

/// The program that writes a text's tape: the tape's bytes, or the refusal; and their number as its last word.
#[test]
fn the_program_reads_texts() {
    let mut r = Random::seeded("the_program_reads_texts", 0x5EED_005A);
    let mut texts: Vec<Vec<u8>> = (0..200).map(|_| Reading::random(&mut r).text).collect();
    texts.extend([vec![], b"x".to_vec(), vec![b' '; 65_535], [vec![b' '; 65_534], b"y".to_vec()].concat()]);
    for text in texts {
        let expected = match text::tape(&text, None) {
            Ok(tape) => tape.to_bytes(),
            Err(stopped) => format!("refused {} at 0\n", stopped.number).into_bytes(),
        };
        let (ran, word) = (program::read_text(&text), format!("{}\n", expected.len()));
        assert!(ran.first == expected && ran.second == word.as_bytes(), "{:?}", String::from_utf8_lossy(&text));
    }
    for text in [&[b' '; 65_536][..], &[b'x'; 100_000]] {
        let ran = program::read_text(text);
        assert_eq!((&ran.first[..], &ran.second[..]), (&b"text above 65,535 bytes\n"[..], &b"24\n"[..]));
    }
}

#[test]
fn planted_faults_are_caught() {
    for &fault in Fault::ALL {
        let mut r = Random::seeded(&format!("{fault:?}"), 0x5EED_0056);
        let mut noise = Random::new(0x5EED_0057);
        let differs = |reading: Reading| reading.compare_on(&noise.bytes(OUTPUT), Some(fault)).is_err();
        assert!((0..4_000).map(|_| Reading::random(&mut r)).any(differs), "{fault:?} is not caught");
    }
}
