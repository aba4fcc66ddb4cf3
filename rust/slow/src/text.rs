//! Formulas as text: the reader, and the call that writes the tape.

use crate::call::{Answer, answer};
use crate::compile;
use crate::formula::{Binary, Node, Tree, Unary};
use crate::tape::{Refused, Tape};

listed! {
    /// Faults that can be planted, one at a time.
    Fault {
        /// A right operand is put into the slot where the left one waits.
        RightInLeftSlot,
        /// The minus before the first item of a product negates the product.
        NegateAfterProduct,
        /// A bracket may open inside 32 others.
        Brackets33,
        /// A whole part may be 32,768.
        WholePart32768,
        /// A subtraction becomes opcode 9.
        SubtractIsAdd,
        /// Joining goes from the right.
        JoinsFromTheRight,
        /// At one byte 18 is met before 17.
        DeepBeforeBroken,
        /// 19 is returned where the clause too many is met, before the rest of the text is read.
        LimitMetEarly,
        /// Bytes after the tape are cleared.
        TailCleared,
        /// A number is rounded to the nearest unit.
        RoundsToNearest,
        /// Spaces inside a number are skipped.
        SpaceBeforePoint,
    }
}

/// Where the reader stopped: at a byte, or at the end.
#[derive(Clone, Copy, Debug, PartialEq, Eq)]
pub struct Stopped {
    pub number: u8,
    pub at: usize,
}

/// How many brackets may be open at once.
const BRACKETS: usize = 32;

/// The length of the lent buffer.
pub const OUTPUT: usize = 10_248;

/// The text's tree.
pub fn tree(text: &[u8]) -> Result<Tree, Stopped> {
    tree_within(text, BRACKETS, None)
}

/// The same with fewer or more brackets allowed, and a fault planted.
pub fn tree_within(text: &[u8], brackets: usize, fault: Option<Fault>) -> Result<Tree, Stopped> {
    let brackets = brackets + (fault == Some(Fault::Brackets33)) as usize;
    let mut reader = Reader { text, at: 0, open: 0, brackets, tree: Tree::default(), fault };
    reader.sum()?;
    reader.spaces();
    if reader.at < text.len() {
        return reader.broken();
    }
    Ok(reader.tree)
}

/// The text's tape: 17 and 18 as they are met, 19 last, which has no byte but the end.
pub fn tape(text: &[u8], fault: Option<Fault>) -> Result<Tape, Stopped> {
    let tree = tree_within(text, BRACKETS, fault)?;
    compile::tape(&tree, fault).map_err(|refused| Stopped { number: refused.number, at: text.len() })
}

/// The call: writes the tape into the lent buffer, and leaves the bytes after it.
pub fn read_text(text: &[u8], out: &mut [u8]) -> Answer {
    read(text, out, None)
}

/// The same with a fault planted.
pub fn faulty(fault: Fault, text: &[u8], out: &mut [u8]) -> Answer {
    read(text, out, Some(fault))
}

fn read(text: &[u8], out: &mut [u8], fault: Option<Fault>) -> Answer {
    let refused = |number: u8| answer(Err(Refused { number, place: 0 }));
    if out.len() != OUTPUT {
        return refused(14);
    }
    match tape(text, fault) {
        Err(stopped) => refused(stopped.number),
        Ok(tape) => {
            let bytes = tape.to_bytes();
            if fault == Some(Fault::TailCleared) {
                out.fill(0);
            }
            out[..bytes.len()].copy_from_slice(&bytes);
            answer(Ok(0))
        }
    }
}

/// No name begins another.
const NAMES: [&[u8]; 8] = [b"x", b"y", b"z", b"abs", b"sqr", b"root", b"min", b"max"];

/// Reads from the left. Every part of the grammar leaves `at` at the first byte that is not its own; what it can't take
/// there, no allowed text has there.
struct Reader<'a> {
    text: &'a [u8],
    at: usize,
    /// The brackets that are open.
    open: usize,
    brackets: usize,
    tree: Tree,
    fault: Option<Fault>,
}

/// Reads the next operand.
type Next<R> = fn(&mut R) -> Result<usize, Stopped>;

impl Reader<'_> {
    /// 17 at this byte, or at the end.
    fn broken<T>(&self) -> Result<T, Stopped> {
        let deep_first = self.fault == Some(Fault::DeepBeforeBroken) && self.deep();
        Err(Stopped { number: if deep_first { 18 } else { 17 }, at: self.at })
    }

    /// Whether a bracket opens at this byte inside too many others.
    fn deep(&self) -> bool {
        self.byte() == Some(b'(') && self.open == self.brackets
    }

    fn byte(&self) -> Option<u8> {
        self.text.get(self.at).copied()
    }

    fn digit(&self) -> Option<i128> {
        self.byte().filter(u8::is_ascii_digit).map(|b| (b - b'0') as i128)
    }

    fn spaces(&mut self) {
        while self.byte() == Some(b' ') {
            self.at += 1;
        }
    }

    /// The byte after any spaces, if it is one of these.
    fn one_of(&mut self, bytes: &[u8]) -> Option<u8> {
        self.spaces();
        let found = self.byte().filter(|b| bytes.contains(b))?;
        self.at += 1;
        Some(found)
    }

    fn must(&mut self, byte: u8) -> Result<(), Stopped> {
        match self.one_of(&[byte]) {
            Some(_) => Ok(()),
            None => self.broken(),
        }
    }

    fn put(&mut self, node: Node) -> Result<usize, Stopped> {
        let place = self.tree.put(node);
        if self.fault == Some(Fault::LimitMetEarly) && place == 1_024 {
            return Err(Stopped { number: 19, at: self.at });
        }
        Ok(place)
    }

    /// Products joined by + or −.
    fn sum(&mut self) -> Result<usize, Stopped> {
        let first = self.product()?;
        self.joined(first, [(b'+', Binary::Add), (b'-', Binary::Subtract)], Self::product)
    }

    /// Signed items joined by * or /.
    fn product(&mut self) -> Result<usize, Stopped> {
        let minus_last = self.fault == Some(Fault::NegateAfterProduct) && self.one_of(b"-").is_some();
        let first = if minus_last { self.item()? } else { self.signed()? };
        let product = self.joined(first, [(b'*', Binary::Multiply), (b'/', Binary::Divide)], Self::signed)?;
        if minus_last { self.put(Node::Unary(Unary::Negate, product)) } else { Ok(product) }
    }

    /// Joins from the left, in a loop: a long text has deep joins.
    fn joined(&mut self, first: usize, signs: [(u8, Binary); 2], next: Next<Self>) -> Result<usize, Stopped> {
        let mut left = first;
        let mut kept = Vec::new();
        while let Some(byte) = self.one_of(&signs.map(|(sign, _)| sign)) {
            let op = if byte == signs[0].0 { signs[0].1 } else { signs[1].1 };
            let right = next(self)?;
            if self.fault == Some(Fault::JoinsFromTheRight) {
                kept.push((left, op));
                left = right;
            } else {
                left = self.put(Node::Binary(op, left, right))?;
            }
        }
        // only a fault keeps something
        for (operand, op) in kept.into_iter().rev() {
            left = self.put(Node::Binary(op, operand, left))?;
        }
        Ok(left)
    }

    /// At most one minus, then an item.
    fn signed(&mut self) -> Result<usize, Stopped> {
        let minus = self.one_of(b"-").is_some();
        let item = self.item()?;
        if minus { self.put(Node::Unary(Unary::Negate, item)) } else { Ok(item) }
    }

    /// A number, an axis, a bracketed sum, a function.
    fn item(&mut self) -> Result<usize, Stopped> {
        self.spaces();
        match self.byte() {
            Some(b'0'..=b'9') => {
                let number = self.number()?;
                self.put(Node::Number(number))
            }
            Some(b'(') => self.bracket(),
            _ => match self.name()? {
                b"x" => self.put(Node::Axis(0)),
                b"y" => self.put(Node::Axis(1)),
                b"z" => self.put(Node::Axis(2)),
                b"abs" => self.of_one(Unary::Absolute),
                b"sqr" => self.of_one(Unary::Square),
                b"root" => self.of_one(Unary::Root),
                b"min" => self.of_two(Binary::Minimum),
                _ => self.of_two(Binary::Maximum),
            },
        }
    }

    /// 1 to 5 digits, at most 32,767, then if wished a point and 1 to 4 digits; rounded down to a unit.
    fn number(&mut self) -> Result<i128, Stopped> {
        let most = if self.fault == Some(Fault::WholePart32768) { 32_768 } else { 32_767 };
        let (mut whole, mut digits) = (0, 0);
        while let Some(digit) = self.digit() {
            if digits == 5 || 10 * whole + digit > most {
                return self.broken();
            }
            (whole, digits) = (10 * whole + digit, digits + 1);
            self.at += 1;
        }
        if self.fault == Some(Fault::SpaceBeforePoint) {
            self.spaces();
        }
        if self.byte() != Some(b'.') {
            return Ok(65_536 * whole);
        }
        self.at += 1;
        let (mut decimals, mut scale) = (0, 1);
        while let Some(digit) = self.digit() {
            if scale == 10_000 {
                return self.broken();
            }
            (decimals, scale) = (10 * decimals + digit, 10 * scale);
            self.at += 1;
        }
        if scale == 1 {
            return self.broken();
        }
        let up = if self.fault == Some(Fault::RoundsToNearest) { scale / 2 } else { 0 };
        Ok((65_536 * (whole * scale + decimals) + up).div_euclid(scale))
    }

    /// The name that begins here.
    fn name(&mut self) -> Result<&'static [u8], Stopped> {
        let first = self.at;
        loop {
            if self.at == self.text.len() {
                return self.broken();
            }
            let so_far = &self.text[first..=self.at];
            let Some(name) = NAMES.into_iter().find(|name| name.starts_with(so_far)) else { return self.broken() };
            self.at += 1;
            if name == so_far {
                return Ok(name);
            }
        }
    }

    fn of_one(&mut self, op: Unary) -> Result<usize, Stopped> {
        let operand = self.bracket()?;
        self.put(Node::Unary(op, operand))
    }

    fn of_two(&mut self, op: Binary) -> Result<usize, Stopped> {
        self.opened()?;
        let left = self.sum()?;
        self.must(b',')?;
        let right = self.sum()?;
        self.closed()?;
        self.put(Node::Binary(op, left, right))
    }

    /// A bracketed sum.
    fn bracket(&mut self) -> Result<usize, Stopped> {
        self.opened()?;
        let sum = self.sum()?;
        self.closed()?;
        Ok(sum)
    }

    /// A bracket that opens: 18 inside too many others.
    fn opened(&mut self) -> Result<(), Stopped> {
        self.spaces();
        if self.deep() {
            return Err(Stopped { number: 18, at: self.at });
        }
        self.must(b'(')?;
        self.open += 1;
        Ok(())
    }

    fn closed(&mut self) -> Result<(), Stopped> {
        self.must(b')')?;
        self.open -= 1;
        Ok(())
    }
}

/// Figures of the request.
#[cfg(test)]
mod tests {
    use super::*;

    fn list(text: &str) -> Vec<[i32; 5]> {
        let numbers = tape(text.as_bytes(), None).unwrap_or_else(|e| panic!("{text}: {e:?}")).to_list();
        numbers.chunks(5).map(|c| [c[0], c[1], c[2], c[3], c[4]]).collect()
    }

    /// The number and the byte.
    fn stops(text: &str) -> (u8, usize) {
        let stopped = tape(text.as_bytes(), None).expect_err(text);
        (stopped.number, stopped.at)
    }

    fn opcodes(text: &str) -> Vec<i32> {
        list(text).iter().map(|clause| clause[0]).collect()
    }

    fn constant(text: &str) -> i32 {
        let list = list(text);
        assert!(list.len() == 1 && list[0][0] == 0, "{text}");
        list[0][4]
    }

    #[test]
    fn bytes_of_a_tape() {
        let mut out = [0xA5; OUTPUT];
        let done = Answer { number: 0, place: 0, count: 0 };
        assert_eq!(read_text(b"-x*y+1.5", &mut out), done);
        let expected = [
            [0x54, 0x50, 0x01, 0x02, 0x06, 0x00, 0x00, 0x00].to_vec(),
            [0x43, 0x4C, 0x01, 0x00, 0x00, 0x00, 0x00, 0x00, 0x00, 0x00].to_vec(),
            [0x43, 0x4C, 0x05, 0x00, 0x00, 0x00, 0x00, 0x00, 0x00, 0x00].to_vec(),
            [0x43, 0x4C, 0x02, 0x01, 0x00, 0x00, 0x00, 0x00, 0x00, 0x00].to_vec(),
            [0x43, 0x4C, 0x0B, 0x00, 0x00, 0x01, 0x00, 0x00, 0x00, 0x00].to_vec(),
            [0x43, 0x4C, 0x00, 0x01, 0x00, 0x00, 0x00, 0x80, 0x01, 0x00].to_vec(),
            [0x43, 0x4C, 0x09, 0x00, 0x00, 0x01, 0x00, 0x00, 0x00, 0x00].to_vec(),
            vec![0xA5; OUTPUT - 68],
        ];
        assert_eq!(out[..], expected.concat());
    }

    #[test]
    fn joining_and_signs() {
        assert_eq!(opcodes("x/y*z"), [1, 2, 14, 3, 11]);
        assert_eq!(opcodes("x-y-z"), [1, 2, 10, 3, 10]);
        assert_eq!(opcodes("x-(y-z)"), [1, 2, 3, 10, 10]);
        assert_eq!(opcodes("x--y"), [1, 2, 5, 10]);
        assert_eq!(opcodes(" x - - y * -z "), [1, 2, 5, 3, 5, 11, 10]);
        assert_eq!(opcodes("-(x*y)"), [1, 2, 11, 5]);
        assert_eq!(opcodes("max(abs(x),min(sqr(y),root(z)))"), [1, 6, 2, 7, 3, 8, 12, 13]);
        assert_eq!([stops("x---y"), stops("--x"), stops("- -x"), stops("x*--y")], [(17, 3), (17, 1), (17, 2), (17, 3)]);
    }

    #[test]
    fn slots_are_the_lowest() {
        let outs = |text: &str| list(text).iter().map(|c| c[1]).collect::<Vec<_>>();
        assert_eq!(outs("x+y*z"), [0, 1, 2, 1, 0]);
        assert_eq!(outs("x*y+z*(x-1)"), [0, 1, 0, 1, 2, 3, 2, 1, 0]);
        assert_eq!(list("x-y")[2], [10, 0, 0, 1, 0]);
    }

    #[test]
    fn numbers() {
        let texts = ["0.0001", "0.9999", "32767.9999", "00001", "0", "00000.0000", "1.5", "32767"];
        let values = [6, 65_529, 2_147_483_641, 65_536, 0, 0, 98_304, 2_147_418_112];
        assert_eq!(texts.map(constant), values);
    }

    #[test]
    fn broken_texts() {
        let met = [
            ("", 0),
            ("   ", 3),
            ("32768", 4),
            ("000001", 5),
            ("1.", 2),
            (".5", 0),
            ("1 2", 2),
            ("1 .5", 2),
            ("1. 5", 2),
            ("1.23456", 6),
            ("ab s(x)", 2),
            ("min(x)", 5),
            ("min(x,y,z)", 7),
            ("abs(x,y)", 5),
            ("(x,y)", 2),
            ("(x", 2),
            ("x)", 1),
            ("X", 0),
            ("+x", 0),
            ("x+", 2),
            ("x y", 2),
            ("abs x", 4),
            ("mix(x,y)", 2),
            ("x\n", 1),
            ("\tx", 0),
            ("()", 1),
        ];
        for (text, at) in met {
            assert_eq!(stops(text), (17, at), "{text:?}");
        }
    }

    #[test]
    fn deep_brackets() {
        for open in ["(", "abs(", "abs  (  "] {
            let nested = |n: usize| open.repeat(n);
            let whole = |n: usize| nested(n) + "x" + &")".repeat(n);
            let byte = 32 * open.len() + open.trim_end().len() - 1;
            assert!(tree(whole(32).as_bytes()).is_ok());
            assert_eq!(stops(&whole(33)), (18, byte));
            assert_eq!(stops(&(nested(32) + "1(")), (17, 32 * open.len() + 1));
            assert_eq!(stops(&(nested(33) + "?")), (18, byte));
            assert_eq!(stops(&(nested(32) + "?")), (17, 32 * open.len()));
            assert_eq!(stops(&nested(32)), (17, 32 * open.len()));
        }
        // closed brackets are not open
        assert_eq!(opcodes(&["((x))"; 40].join("+")).len(), 79);
        assert_eq!(stops(&("max(x,".repeat(32) + "x+max")), (17, 32 * 6 + 5));
        assert_eq!(stops(&("max(x,".repeat(32) + "x+max(")), (18, 32 * 6 + 5));
    }

    #[test]
    fn many_clauses() {
        let sum = |n: usize| vec!["x"; n].join("+");
        assert_eq!(opcodes(&sum(512)).len(), 1_023);
        assert_eq!(opcodes(&format!("-{}", sum(512))).len(), 1_024);
        assert_eq!(stops(&sum(513)).0, 19);
        assert_eq!(stops(&format!("{}+", sum(513))), (17, 1_026));
        assert_eq!(stops(&format!("-{}-", sum(512))).0, 17);
    }

    #[test]
    fn many_slots() {
        let nested = |inner: &str| "x+x*max(x,".repeat(21) + inner + &")".repeat(21);
        assert_eq!(tape(nested("x").as_bytes(), None).map(|t| t.slots), Ok(64));
        assert_eq!(stops(&nested("x+x")).0, 19);
    }

    #[test]
    fn the_buffer_comes_first() {
        for len in [0, 68, OUTPUT - 1, OUTPUT + 1] {
            for text in ["x", "", "?", &"(".repeat(33), &vec!["x"; 513].join("+")] {
                let mut out = vec![0xA5; len];
                assert_eq!(read_text(text.as_bytes(), &mut out), Answer { number: 14, place: 0, count: 0 });
                assert_eq!(out, vec![0xA5; len]);
            }
        }
    }

    /// The tape's value is the tree's meaning.
    #[test]
    fn meanings() {
        let text = b"max(root(sqr(x) + sqr(y)) - 12.5, abs(z) - x/y*3.25 - -y)";
        let (tree, tape) = (tree(text).expect("an allowed text"), tape(text, None).expect("an allowed text"));
        for sample in [[0, 0, 0], [65_536, -131_072, 7], [-900_000, 3, 900_000], [2_147_483_647, -2_147_483_647, 1]] {
            assert_eq!(tree.meaning(sample), tape.value_at(sample));
        }
    }
}
