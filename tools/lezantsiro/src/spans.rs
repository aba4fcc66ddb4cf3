//! Where in a text each clause of its tape comes from. The proved reader has accepted the text before this is asked,
//! and has said which clauses it has; here the same text is gone through once more, in the same order, only to find the
//! bytes. They are used in messages and nowhere else.

use layers::Opcode;
use std::ops::Range;

/// The bytes that a clause stands for, and the clause's opcode.
#[derive(Clone, Debug, PartialEq, Eq)]
pub struct Span {
    pub bytes: Range<usize>,
    pub opcode: Opcode,
}

/// The span of each clause, in the order of the tape: operands before their operator, the left first. `None` for a text
/// that is not a formula.
pub fn spans(text: &str) -> Option<Vec<Span>> {
    let mut walk = Walk { text: text.as_bytes(), at: 0, spans: Vec::new() };
    walk.sum()?;
    walk.skip();
    (walk.at == text.len()).then_some(walk.spans)
}

struct Walk<'a> {
    text: &'a [u8],
    at: usize,
    spans: Vec<Span>,
}

impl Walk<'_> {
    fn skip(&mut self) {
        while self.text.get(self.at) == Some(&b' ') {
            self.at += 1;
        }
    }

    fn next(&mut self) -> Option<u8> {
        self.skip();
        self.text.get(self.at).copied()
    }

    fn take(&mut self, byte: u8) -> Option<()> {
        (self.next()? == byte).then(|| self.at += 1)
    }

    fn put(&mut self, from: usize, opcode: Opcode) {
        self.spans.push(Span { bytes: from..self.at, opcode });
    }

    fn sum(&mut self) -> Option<()> {
        self.joined(Walk::product, [(b'+', Opcode::Add), (b'-', Opcode::Subtract)])
    }

    fn product(&mut self) -> Option<()> {
        self.joined(Walk::signed, [(b'*', Opcode::Multiply), (b'/', Opcode::Divide)])
    }

    /// Parts with one of two signs between them, from the left.
    fn joined(&mut self, part: fn(&mut Self) -> Option<()>, signs: [(u8, Opcode); 2]) -> Option<()> {
        self.skip();
        let from = self.at;
        part(self)?;
        while let Some(opcode) = signs.iter().find(|sign| self.next() == Some(sign.0)).map(|sign| sign.1) {
            self.at += 1;
            part(self)?;
            self.put(from, opcode);
        }
        Some(())
    }

    fn signed(&mut self) -> Option<()> {
        self.skip();
        let from = self.at;
        if self.next()? != b'-' {
            return self.item();
        }
        self.at += 1;
        self.item()?;
        self.put(from, Opcode::Negate);
        Some(())
    }

    fn item(&mut self) -> Option<()> {
        match self.next()? {
            b'(' => {
                self.at += 1;
                self.sum()?;
                self.take(b')')
            }
            b'0'..=b'9' => self.number(),
            _ => self.named(),
        }
    }

    fn number(&mut self) -> Option<()> {
        let from = self.at;
        let len = self.text[from..].iter().take_while(|byte| byte.is_ascii_digit() || **byte == b'.').count();
        self.at += len;
        self.put(from, Opcode::Constant);
        Some(())
    }

    fn named(&mut self) -> Option<()> {
        let from = self.at;
        let len = self.text[from..].iter().take_while(|byte| byte.is_ascii_lowercase()).count();
        self.at += len;
        let (opcode, operands) = match &self.text[from..from + len] {
            b"x" => (Opcode::X, 0),
            b"y" => (Opcode::Y, 0),
            b"z" => (Opcode::Z, 0),
            b"abs" => (Opcode::Absolute, 1),
            b"sqr" => (Opcode::Square, 1),
            b"root" => (Opcode::Root, 1),
            b"min" => (Opcode::Minimum, 2),
            b"max" => (Opcode::Maximum, 2),
            _ => return None,
        };
        for operand in 0..operands {
            self.take(if operand == 0 { b'(' } else { b',' })?;
            self.sum()?;
        }
        if operands > 0 {
            self.take(b')')?;
        }
        self.put(from, opcode);
        Some(())
    }
}

#[cfg(test)]
mod tests {
    use super::*;
    use layers::Tape;

    fn shown(text: &str) -> Vec<(usize, &str)> {
        let found = spans(text).expect("a formula");
        let opcodes: Vec<Opcode> = Tape::from_text(text).expect("a tape").clauses().iter().map(|c| c.opcode).collect();
        assert_eq!(found.iter().map(|span| span.opcode).collect::<Vec<_>>(), opcodes, "{text}");
        found.into_iter().map(|span| (span.bytes.start, &text[span.bytes])).collect()
    }

    #[test]
    fn each_clause_has_its_bytes() {
        assert_eq!(
            shown("root(sqr(x) + sqr( y )) - 200"),
            [
                (9, "x"),
                (5, "sqr(x)"),
                (19, "y"),
                (14, "sqr( y )"),
                (5, "sqr(x) + sqr( y )"),
                (0, "root(sqr(x) + sqr( y ))"),
                (26, "200"),
                (0, "root(sqr(x) + sqr( y )) - 200"),
            ]
        );
    }

    #[test]
    fn the_order_is_the_tapes() {
        for text in ["-x*y + 1.5", "x--y", " max ( min(x,y),-abs(z)/2 ) ", "(((x)))-((y)*(z+1))/2", "x - y - z*2/3*-4"]
        {
            shown(text);
        }
    }

    #[test]
    fn what_is_no_formula_has_no_spans() {
        for text in ["", "x +", "(x", "x)", "foo(x)", "min(x)", "x\n"] {
            assert_eq!(spans(text), None, "{text}");
        }
    }
}
