//! The grammar of formulas as data, and by it alone, without reading from the left: which texts up to a length are
//! allowed, and what allowed texts of any length begin with.

use std::collections::HashSet;

/// Byte strings by their length.
type Strings = Vec<HashSet<Vec<u8>>>;

enum Symbol {
    /// The strings of a rule.
    Rule(&'static str),
    /// These bytes.
    Bytes(Vec<u8>),
}

struct Rule {
    name: &'static str,
    /// Each a sequence of symbols.
    alternatives: Vec<Vec<Symbol>>,
    whole: Strings,
    begun: Strings,
}

/// Bytes stand in quotation marks; `_` is any number of spaces.
const RULES: &[(&str, &str)] = &[
    ("text", "sum _"),
    ("sum", "product | sum _ '+' product | sum _ '-' product"),
    ("product", "signed | product _ '*' signed | product _ '/' signed"),
    ("signed", "_ item | _ '-' _ item"),
    ("item", "number | 'x' | 'y' | 'z' | bracket | one _ bracket | two _ '(' sum _ ',' sum _ ')'"),
    ("bracket", "'(' sum _ ')'"),
    ("one", "'abs' | 'sqr' | 'root'"),
    ("two", "'min' | 'max'"),
    ("number", "whole | whole '.' decimals"),
    ("_", "| ' ' _"),
];

/// Every byte that some allowed text has.
pub const BYTES: &[u8] = b" ()*+,-./0123456789abimnoqrstxyz";

/// The language up to a length, of these bytes alone. Texts of other bytes and lengths may complete what is begun.
pub struct Grammar {
    longest: usize,
    bytes: Vec<u8>,
    rules: Vec<Rule>,
}

impl Grammar {
    pub fn new(bytes: &[u8], longest: usize) -> Self {
        let mut grammar = Grammar { longest, bytes: bytes.to_vec(), rules: Vec::new() };
        for (name, alternatives) in RULES {
            grammar.rule(name, alternatives.split('|').map(sequence).collect());
        }
        let digits = |most: usize| digits(bytes, most.min(longest)).into_iter();
        grammar.rule("whole", digits(5).filter(|digits| at_most_32767(digits)).map(one).collect());
        grammar.rule("decimals", digits(4).map(one).collect());
        while grammar.grows() {}
        grammar
    }

    /// Whether this is an allowed text.
    pub fn allows(&self, text: &[u8]) -> bool {
        self.find("text").whole[text.len()].contains(text)
    }

    /// Whether some allowed text begins with this.
    pub fn begins(&self, text: &[u8]) -> bool {
        self.find("text").begun[text.len()].contains(text)
    }

    /// All that allowed texts begin with.
    pub fn beginnings(&self) -> impl Iterator<Item = &Vec<u8>> {
        self.find("text").begun.iter().flatten()
    }

    fn rule(&mut self, name: &'static str, alternatives: Vec<Vec<Symbol>>) {
        let none = || vec![HashSet::new(); self.longest + 1];
        self.rules.push(Rule { name, alternatives, whole: none(), begun: none() });
    }

    fn find(&self, name: &str) -> &Rule {
        self.rules.iter().find(|rule| rule.name == name).unwrap_or_else(|| panic!("no rule {name:?}"))
    }

    /// Adds what follows from what is known so far; whether anything was new.
    fn grows(&mut self) -> bool {
        let mut new = false;
        for place in 0..self.rules.len() {
            let (whole, begun) = self.follows(&self.rules[place]);
            let rule = &mut self.rules[place];
            for length in 0..=self.longest {
                let before = rule.whole[length].len() + rule.begun[length].len();
                rule.whole[length].extend(whole[length].iter().cloned());
                rule.begun[length].extend(begun[length].iter().cloned());
                new |= before < rule.whole[length].len() + rule.begun[length].len();
            }
        }
        new
    }

    /// A sequence begins with some first symbols in whole and what the next begins with.
    fn follows(&self, rule: &Rule) -> (Strings, Strings) {
        let (mut whole, mut begun) = (self.only(&[]), self.only(&[]));
        for sequence in &rule.alternatives {
            let mut so_far = self.only(&[b""]);
            for symbol in sequence {
                let (all, first) = self.of(symbol);
                self.join(&so_far, &first, &mut begun);
                let mut longer = self.only(&[]);
                self.join(&so_far, &all, &mut longer);
                so_far = longer;
            }
            for length in 0..=self.longest {
                begun[length].extend(so_far[length].iter().cloned());
                whole[length].extend(so_far[length].drain());
            }
        }
        (whole, begun)
    }

    /// A symbol's strings, and what they begin with.
    fn of(&self, symbol: &Symbol) -> (Strings, Strings) {
        match symbol {
            Symbol::Rule(name) => {
                let rule = self.find(name);
                (rule.whole.clone(), rule.begun.clone())
            }
            Symbol::Bytes(bytes) => {
                let begun: Vec<&[u8]> = (0..=bytes.len()).map(|length| &bytes[..length]).collect();
                (self.only(&[bytes]), self.only(&begun))
            }
        }
    }

    /// These strings, but for those that are too long or have other bytes.
    fn only(&self, strings: &[&[u8]]) -> Strings {
        let mut only = vec![HashSet::new(); self.longest + 1];
        for string in strings {
            if string.len() <= self.longest && string.iter().all(|b| self.bytes.contains(b)) {
                only[string.len()].insert(string.to_vec());
            }
        }
        only
    }

    fn join(&self, first: &Strings, second: &Strings, joined: &mut Strings) {
        for (i, a) in first.iter().enumerate() {
            for (j, b) in second.iter().enumerate().take(self.longest + 1 - i) {
                joined[i + j].extend(a.iter().flat_map(|a| b.iter().map(move |b| [&a[..], b].concat())));
            }
        }
    }
}

fn one(bytes: Vec<u8>) -> Vec<Symbol> {
    vec![Symbol::Bytes(bytes)]
}

/// The symbols of one alternative; a quoted space is not cut in two.
fn sequence(alternative: &'static str) -> Vec<Symbol> {
    if alternative.contains("' '") {
        return vec![Symbol::Bytes(b" ".to_vec()), Symbol::Rule("_")];
    }
    let symbol = |word: &'static str| match word.strip_prefix('\'') {
        Some(quoted) => Symbol::Bytes(quoted.trim_end_matches('\'').as_bytes().to_vec()),
        None => Symbol::Rule(word),
    };
    alternative.split_whitespace().map(symbol).collect()
}

/// All strings of 1 to `most` of the digits among these bytes.
fn digits(bytes: &[u8], most: usize) -> Vec<Vec<u8>> {
    let mut all: Vec<Vec<u8>> = Vec::new();
    let mut last = vec![vec![]];
    for _ in 0..most {
        let longer =
            |s: &Vec<u8>| bytes.iter().filter(|b| b.is_ascii_digit()).map(|&b| [&s[..], &[b]].concat()).collect();
        last = last.iter().flat_map(|s| -> Vec<Vec<u8>> { longer(s) }).collect();
        all.extend(last.clone());
    }
    all
}

fn at_most_32767(digits: &[u8]) -> bool {
    String::from_utf8_lossy(digits).parse::<u32>().is_ok_and(|whole| whole <= 32_767)
}
