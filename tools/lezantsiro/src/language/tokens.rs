//! The words of a text: numbers, names and signs, without spaces, line ends and comments.

use super::Wrong;

#[derive(Clone, Debug, PartialEq)]
pub enum Word {
    Number(f64),
    Name(String),
    /// One of the signs below.
    Sign(u8),
    End,
}

const SIGNS: &[u8] = b"+-*/^(),=";

#[derive(Clone, Debug, PartialEq)]
pub struct Token {
    pub at: usize,
    pub word: Word,
    /// Whether it is the first of its line.
    pub first: bool,
}

impl Token {
    pub fn is(&self, sign: u8) -> bool {
        self.word == Word::Sign(sign)
    }
}

/// The greatest whole part of a number, as the proved reader has it.
const GREATEST: f64 = 32_768.0;

/// All words of the text, the last one the end.
pub fn tokens(text: &str) -> Result<Vec<Token>, Wrong> {
    let bytes = text.as_bytes();
    let mut found = Vec::new();
    let (mut at, mut first) = (0, true);
    while at < bytes.len() {
        let end = match bytes[at] {
            b'\n' => {
                first = true;
                at += 1;
                continue;
            }
            b' ' | b'\t' | b'\r' => {
                at += 1;
                continue;
            }
            b'#' => {
                at = line_end(bytes, at);
                continue;
            }
            b'0'..=b'9' | b'.' => run(bytes, at, |byte| byte.is_ascii_digit() || byte == b'.'),
            b'a'..=b'z' | b'A'..=b'Z' | b'_' => run(bytes, at, |byte| byte.is_ascii_alphanumeric() || byte == b'_'),
            byte if SIGNS.contains(&byte) => at + 1,
            _ => return Err(strange(text, at)),
        };
        let word = match bytes[at] {
            b'0'..=b'9' | b'.' => Word::Number(number(&text[at..end], at)?),
            sign if SIGNS.contains(&sign) => Word::Sign(sign),
            _ => Word::Name(text[at..end].to_string()),
        };
        found.push(Token { at, word, first });
        (at, first) = (end, false);
    }
    found.push(Token { at: text.len(), word: Word::End, first });
    Ok(found)
}

fn line_end(bytes: &[u8], from: usize) -> usize {
    run(bytes, from, |byte| byte != b'\n')
}

/// The end of the bytes from here on that are such.
fn run(bytes: &[u8], from: usize, such: impl Fn(u8) -> bool) -> usize {
    from + bytes[from..].iter().take_while(|byte| such(**byte)).count()
}

/// `12`, `12.5` or `.5`.
fn number(digits: &str, at: usize) -> Result<f64, Wrong> {
    let (whole, decimals) = digits.split_once('.').unwrap_or((digits, "0"));
    if decimals.is_empty() || decimals.contains('.') {
        return Err(Wrong::new(at, format_args!("`{digits}` is no number: one is written 12, 12.5 or .5")));
    }
    if decimals.trim_end_matches('0').len() > 4 {
        return Err(Wrong::new(at, format_args!("{digits} has more than 4 decimals, which is finer than any value")));
    }
    let number: f64 = format!("0{whole}.{decimals}").parse().unwrap_or(GREATEST);
    if number >= GREATEST {
        return Err(Wrong::new(at, format_args!("{digits} is too large: numbers go up to 32767.9999")));
    }
    Ok(number)
}

fn strange(text: &str, at: usize) -> Wrong {
    let words = match text[at..].chars().next() {
        Some('\u{feff}') => "the text begins with a byte order mark: save it without one".to_string(),
        Some(';' | ':') => {
            "no formula has this sign; parts of min and max are parted by `,`, names given one a line".into()
        }
        Some('[' | '{' | ']' | '}') => "brackets are written ( )".to_string(),
        Some(c) if c.is_control() => format!("no formula has the character {}", c.escape_unicode()),
        Some(c) => format!("no formula has `{c}`"),
        None => "the text ends too early".to_string(),
    };
    Wrong { at, words }
}

#[cfg(test)]
mod tests {
    use super::*;

    #[test]
    fn words_are_told_apart() {
        let found = tokens("r2 = .5*x # half\n+12.25").expect("words");
        let words: Vec<(usize, Word, bool)> =
            found.into_iter().map(|token| (token.at, token.word, token.first)).collect();
        let sign = |sign: u8| Word::Sign(sign);
        assert_eq!(
            words,
            [
                (0, Word::Name("r2".into()), true),
                (3, sign(b'='), false),
                (5, Word::Number(0.5), false),
                (7, sign(b'*'), false),
                (8, Word::Name("x".into()), false),
                (17, sign(b'+'), true),
                (18, Word::Number(12.25), false),
                (23, Word::End, false),
            ]
        );
    }

    #[test]
    fn what_is_no_word_is_said_with_its_byte() {
        for (text, at, words) in [
            ("x + 1.2.3", 4, "`1.2.3` is no number"),
            ("x + 2.", 4, "`2.` is no number"),
            ("32768", 0, "32768 is too large"),
            ("x/.00004", 2, ".00004 has more than 4 decimals"),
            ("x;", 1, "parted by `,`"),
            ("\u{feff}x", 0, "byte order mark"),
            ("x\0", 1, "\\u{0}"),
            ("x + \u{e9}", 4, "no formula has `\u{e9}`"),
            ("[x]", 0, "brackets are written ( )"),
        ] {
            let wrong = tokens(text).expect_err("no words");
            assert_eq!(wrong.at, at, "{text}");
            assert!(wrong.words.contains(words), "{}", wrong.words);
        }
    }
}
