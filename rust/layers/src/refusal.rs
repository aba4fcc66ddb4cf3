//! Why an input is turned down.

use crate::raw::{Answer, PLATE, POSITIONS, TABLE, TEXT_TAPE, WORK};
use crate::{FIRST_EDITION_CLAUSES, FIRST_EDITION_SLOTS, MAX_CLAUSES, MAX_SIZE, MAX_SLOTS, Opcode};
use std::error::Error;
use std::fmt;

/// Makes [`Refusal`] and all that is known of each line from one row a line: the number, the name (with `{ clause }`
/// where the place counts), what the table in docs/FORMATS.md says, and the message, before which `clause N` is put
/// where there is one.
macro_rules! refusals {
    (
        $(#[$about:meta])*
        $($number:literal $name:ident $({ $clause:ident })?, $line:literal, $message:literal;)*
    ) => {
        $(#[$about])*
        #[derive(Clone, Copy, Debug, PartialEq, Eq, Hash)]
        #[non_exhaustive]
        pub enum Refusal {
            $(
                #[doc = concat!(stringify!($number), ": ", $line, ".")]
                $name $({
                    /// The clause at fault.
                    $clause: u32,
                })?,
            )*
        }

        impl Refusal {
            /// The refusal of a number of the table and the place that came with it, which counts for 5 to 9 only.
            ///
            /// `None` for 0, which is no refusal, and for a number that the table does not have.
            pub const fn from_number(number: u8, place: u32) -> Option<Refusal> {
                match number {
                    $($number => Some(Refusal::$name $({ $clause: place })?),)*
                    _ => None,
                }
            }

            /// The number of the line in the table.
            pub const fn number(self) -> u8 {
                match self {
                    $(Refusal::$name { .. } => $number,)*
                }
            }

            /// The clause at fault, counted from 0, for the lines 5 to 9.
            pub const fn place(self) -> Option<u32> {
                match self {
                    $($(Refusal::$name { $clause } => Some($clause),)?)*
                    _ => None,
                }
            }
        }

        /// What is wrong and how it would be right.
        impl fmt::Display for Refusal {
            fn fmt(&self, f: &mut fmt::Formatter) -> fmt::Result {
                if let Some(clause) = self.place() {
                    write!(f, "clause {clause} (counted from 0) ")?;
                }
                match self {
                    $(Refusal::$name { .. } => write!(f, $message),)*
                }
            }
        }

        /// The table, as docs/FORMATS.md has it.
        #[cfg(test)]
        const LINES: &[(u8, &str)] = &[$(($number, $line)),*];
    };
}

const LAST_OPCODE: usize = Opcode::ALL.len() - 1;
const LEAST: i32 = -i32::MAX;
const GREATEST: i32 = i32::MAX;

refusals! {
    /// A line of the core's table of refusals, in the table's order. Clauses are counted from 0.
    ///
    /// A [`Tape`](crate::Tape) meets lines 1 to 9, or as text 17 to 19, a drawing of it 10 and 11, a probe 20, a union
    /// 21, a plate 22, the reason for a pixel 23, a sweep 25. Lines 12 to 14 and 24 are about lent memory, so but for an
    /// order of tiles and for a picture that a table is to draw in, which are 12 too, only the calls of
    /// [`raw`](crate::raw) meet them; 15 and 16 are about the input of the program `drawlayer`.
    ///
    /// ```
    /// use layers::{Refusal, Tape};
    ///
    /// let refusal = Tape::from_list(1, &[1, 0, 0, 0, 0, 12, 0, 0, 1, 0]).unwrap_err();
    /// assert_eq!(refusal, Refusal::SlotOutOfRange { clause: 1 });
    /// assert_eq!((refusal.number(), refusal.place()), (6, Some(1)));
    /// assert!(refusal.to_string().starts_with("clause 1 (counted from 0) uses a slot that the tape does not have"));
    /// ```

    1 ShortTape, "tape below 8 bytes",
        "the tape is shorter than its head of 8 bytes: is the file cut off?";
    2 WrongHead, "head mark, edition or spare bytes wrong",
        "this is no tape of edition 1 or 2: it must begin with the bytes 54 50 01 or 54 50 02, and bytes 6 and 7 must \
         be 00";
    3 CountOutOfRange, "slot or clause count out of range, or edition not that of these counts",
        "a tape has 1 to {MAX_SLOTS} slots and 1 to {MAX_CLAUSES} clauses, and edition 1 exactly if it has at most \
         {FIRST_EDITION_SLOTS} and {FIRST_EDITION_CLAUSES}: use slots again, split the part, or pack the list anew";
    4 WrongLength, "tape length not 8 + 10·clauses; list length not a multiple of 5",
        "the length does not fit: a tape has 8 bytes and 10 for each clause that its head counts, \
         a list five numbers for each clause";
    5 UnknownClause { clause }, "clause mark wrong, or opcode not 0 to 14",
        "is not one: on a tape it begins with the bytes 43 4C, and its opcode is 0 to {LAST_OPCODE}";
    6 SlotOutOfRange { clause }, "a used slot field below 0, or not below the slot count",
        "uses a slot that the tape does not have: slots go from 0 to one below the slot count";
    7 UnusedFieldSet { clause }, "an unused field not 0",
        "sets a field that its opcode does not use: it must be 0";
    8 ConstantOutOfRange { clause }, "a used constant of −2,147,483,648",
        "has the constant -2147483648: the least is {LEAST}";
    9 UnwrittenSlot { clause }, "a slot read that no earlier clause wrote",
        "reads a slot that no earlier clause wrote: write it first";
    10 SizeOutOfRange, "a size not 1 to 512; a rectangle of tiles that is empty or leaves the grid",
        "width, height and, for a heightmap, depth must be 1 to {MAX_SIZE}: draw a larger grid in pieces; a rectangle of \
         64-tiles has at least one, and none beyond the grid's last";
    11 SampleOutOfRange, "a step below 1, or an origin, z or last sample outside −2,147,483,647 to 2,147,483,647",
        "steps must be 1 or more, and the origin and the last sample of each axis, half a step beyond where its cell \
         begins, {LEAST} to {GREATEST}: move the grid, or take smaller steps";
    12 PictureOrOrder, "picture or slope buffer not of the exact length; order list not of every tile one time",
        "the picture or slope buffer has the wrong length: a bitmap has width / 8 bytes, rounded up, for each row, \
         a heightmap one height for each pixel, slopes three numbers for each pixel; or the order does not list every \
         64-tile of the grid just one time";
    13 WorkLength, "work buffer below 32,768 bytes",
        "the work buffer is too short: it needs {WORK} bytes";
    14 OutputLength,
        "packing, unpacking, merging, text or file: output not of the exact length; plate memory not of 524,288 bytes",
        "the output buffer has the wrong length: it must be that of the tape, list or file to be written, for a text's \
         tape {TEXT_TAPE}, for a plate's memory {PLATE}";
    15 NoGridRecord, "program: input below 32 bytes or grid mark wrong",
        "the input must begin with a grid record of 32 bytes, the first two of them 47 52, before the tape";
    16 SolidTooLarge, "program: depth above 0 and width or height above 128",
        "the program draws solids up to 128 wide and 128 high: draw a smaller grid, or set depth to 0 for a bitmap";
    17 BrokenText, "text: the rules of a formula broken",
        "a formula has numbers such as 12.5, x, y, z, + - * /, brackets, abs, sqr and root of one, min and max of two, \
         and spaces, no other bytes";
    18 DeepBracket, "text: a bracket, a function's too, that opens inside 32 others",
        "at most 32 brackets may be open at once: write a long min or max in halves";
    19 LargeFormula, "text: more than 1,024 clauses or 64 slots needed",
        "the formula needs more than {FIRST_EDITION_CLAUSES} clauses, one for each number, axis and operation, or \
         more than {FIRST_EDITION_SLOTS} slots, one for each operand that waits: split the part";
    20 CoordinateOutOfRange, "probe: a coordinate not a number, infinite, or above 32,767 in magnitude",
        "each coordinate of a point must be a number from -32767 to 32767";
    21 LargeUnion, "merging: a result of more than 6,144 clauses, the minimum counted, or of more than 128 slots",
        "one tape of two has the clauses of both and a minimum, at most {MAX_CLAUSES}, and the slots of both, at most \
         {MAX_SLOTS}: use slots again, or draw the parts one by one";
    22 WrongPlace, "plate: a place above 7, taken on adding, or empty on removing",
        "the places of a plate are 0 to 7, a part is added at an empty one and removed from where one is";
    23 PixelOutside, "reason: a pixel outside the grid",
        "columns and rows are counted from 0, so a pixel's are below the grid's width and height";
    24 WrongTable,
        "table: not 163,936 bytes, not of this tape and grid, a verdict above 3, a kept tape refused or with a wrong copy",
        "a table of verdicts has {TABLE} bytes and is begun for the tape and the grid that it is drawn with: begin it anew";
    25 PathOutOfRange,
        "path: empty, above 4,096 pairs, not in whole pairs, or a sample moved outside −2,147,483,647 to 2,147,483,647",
        "a path has 1 to {POSITIONS} positions, each the offsets of x and y, and every sample less its offset must be \
         {LEAST} to {GREATEST}: take fewer positions, or a grid nearer to 0";
}

impl Error for Refusal {}

impl Answer {
    /// The count of a call that is done, or the refusal.
    ///
    /// # Panics
    ///
    /// If the number is neither 0 nor in the table. The core returns no such number, so another library is linked than
    /// the one that this crate is written for.
    pub fn into_result(self) -> Result<u64, Refusal> {
        match (self.number, Refusal::from_number(self.number, self.place)) {
            (0, _) => Ok(self.count),
            (_, Some(refusal)) => Err(refusal),
            (number, None) => panic!("the core returned {number}, which its table of refusals does not have"),
        }
    }
}

#[cfg(test)]
mod tests {
    use super::*;
    use crate::{Grid, raw};
    use std::collections::HashSet;

    /// Every refusal, in table order.
    fn all() -> impl Iterator<Item = Refusal> {
        (0..=u8::MAX).filter_map(|number| Refusal::from_number(number, 731))
    }

    #[test]
    fn numbers_are_in_table_order() {
        let numbers: Vec<u8> = LINES.iter().map(|line| line.0).collect();
        assert!(numbers[0] == 1 && numbers.is_sorted_by(|a, b| a < b));
        assert_eq!(all().map(Refusal::number).collect::<Vec<_>>(), numbers);
    }

    #[test]
    fn the_page_of_formats_has_the_table() {
        let page = include_str!("../../../docs/FORMATS.md");
        let table = page.lines().skip_while(|&line| line != "| number | if |").take_while(|line| line.starts_with('|'));
        let rows: Vec<&str> = table.filter(|line| line.starts_with("| ")).collect();
        let expected = LINES.iter().map(|(number, line)| format!("| {number} | {line} |"));
        assert_eq!(rows, [String::from("| number | if |")].into_iter().chain(expected).collect::<Vec<_>>());
    }

    /// The header has the lines that its calls meet, which are all but the program's, in the letters of C.
    #[test]
    fn the_header_has_the_table_of_the_calls() {
        let header = include_str!("../../../include/layers.h");
        let lines = header.lines().filter_map(|line| line.strip_prefix(" *   ")).filter(|line| !line.starts_with("- "));
        let in_c = |line: &str| line.replace('−', "-").replace('·', "*");
        let calls = LINES.iter().filter(|(_, line)| !line.starts_with("program: "));
        let expected = calls.map(|(number, line)| format!("{number:>2} {}", in_c(line)));
        assert_eq!(lines.collect::<Vec<_>>(), expected.collect::<Vec<_>>());
    }

    #[test]
    fn clauses_at_fault_are_told_for_5_to_9_only() {
        for refusal in all() {
            let told = (5..=9).contains(&refusal.number());
            assert_eq!(refusal.place(), told.then_some(731));
            assert_eq!(refusal.to_string().contains("731"), told, "{refusal}");
        }
    }

    #[test]
    fn messages_are_distinct_sentences() {
        let messages: HashSet<String> = all().map(|r| r.to_string()).collect();
        assert_eq!(messages.len(), LINES.len());
        for message in messages {
            assert!(message.len() > 30 && !message.contains("  ") && !message.contains('\n'), "{message}");
        }
    }

    /// Lines 12 to 14 and 24, met by lending the wrong memory: no call of the wrapper meets them, but for the 12 of an
    /// order list and of a picture that a table is to draw in.
    #[test]
    fn lent_memory() {
        let tape = crate::Tape::from_list(1, &[1, 0, 0, 0, 0]).unwrap();
        let grid = Grid::flat(3, 2);
        let tile = |picture: usize, work: usize| {
            raw::tile_flat(tape.as_bytes(), grid, &mut vec![0; picture], &mut vec![0; work]).into_result()
        };
        // x is nowhere below 0, so the walk ends after the one clause of its one tile
        assert_eq!(tile(2, WORK), Ok(1));
        assert_eq!(tile(3, WORK), Err(Refusal::PictureOrOrder));
        assert_eq!(tile(2, WORK - 1), Err(Refusal::WorkLength));
        let sloped = |picture: usize, slopes: usize, work: usize| {
            let (grid, mut lent) = (Grid::solid(3, 2, 1), (vec![0; picture], vec![0; slopes], vec![0; work]));
            raw::tile_slopes(tape.as_bytes(), grid, &mut lent.0, &mut lent.1, &mut lent.2).into_result()
        };
        assert_eq!(sloped(6, 18, WORK), Ok(1));
        assert_eq!([(5, 18), (6, 17), (6, 6)].map(|(p, s)| sloped(p, s, 0)), [Err(Refusal::PictureOrOrder); 3]);
        assert_eq!(sloped(6, 18, WORK - 1), Err(Refusal::WorkLength));
        assert_eq!(raw::unpack_tape(tape.as_bytes(), &mut [0; 4]).answer.into_result(), Err(Refusal::OutputLength));
        let merge = |len: usize| raw::merge_tapes(tape.as_bytes(), tape.as_bytes(), &mut vec![0; len]).into_result();
        assert_eq!([37, 38, 39].map(merge), [Err(Refusal::OutputLength), Ok(0), Err(Refusal::OutputLength)]);
        let begin = |len: usize| raw::table_begin(tape.as_bytes(), grid, &mut vec![0; len]).into_result();
        assert_eq!(
            [TABLE - 1, TABLE, TABLE + 1].map(begin),
            [Err(Refusal::WrongTable), Ok(0), Err(Refusal::WrongTable)]
        );
    }

    #[test]
    #[should_panic(expected = "the core returned 255")]
    fn an_unknown_number_is_no_result() {
        let _ = Answer { number: 255, place: 0, count: 0 }.into_result();
    }
}
