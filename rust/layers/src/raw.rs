//! The calls as the core has them: lent slices in, an answer by number out. The C interface is include/layers.h's. All
//! unsafe code is here.
//!
//! Done, a call has written the whole output, picture or slopes and cleared the whole work buffer. Bytes stay behind a
//! text's tape, in the tiles that a plate's part cannot touch, and outside a shared table's rectangle. Refused, it has
//! changed nothing.

/// What comes back of every call. [`into_result`](Answer::into_result) makes Rust's own form of it.
#[repr(C)]
#[derive(Clone, Copy, Debug, PartialEq, Eq)]
pub struct Answer {
    /// A number of the table of refusals, or 0: done.
    pub number: u8,
    /// The clause at fault for the numbers 5 to 9, otherwise 0.
    pub place: u32,
    /// The clauses counted by a drawing, otherwise 0.
    pub count: u64,
}

/// What comes back of unpacking.
#[repr(C)]
#[derive(Clone, Copy, Debug, PartialEq, Eq)]
pub struct Listed {
    /// The answer.
    pub answer: Answer,
    /// The tape's slot count, or 0 if it is refused.
    pub slots: u8,
}

/// A point, for a probe: three coordinates, in whole ones and not in units.
#[repr(C)]
#[derive(Clone, Copy, Debug, PartialEq)]
pub struct Point {
    /// Along the columns of a picture.
    pub x: f64,
    /// Along its rows.
    pub y: f64,
    /// Along its layers.
    pub z: f64,
}

/// What comes back of a probe.
#[repr(C)]
#[derive(Clone, Copy, Debug, PartialEq)]
pub struct Probed {
    /// The answer; its count is 0.
    pub answer: Answer,
    /// 0 refused, 1 inside, 2 outside, 3 surface.
    pub side: u8,
    /// The formula's value inside and outside, otherwise 0.
    pub value: f64,
}

/// What comes back for a pixel. All but the answer's own figures are 0 where it is refused.
#[repr(C)]
#[derive(Clone, Copy, Debug, PartialEq, Eq)]
pub struct Reason {
    /// The answer; its count is 0.
    pub answer: Answer,
    /// The side of the region where the walk stopped: 64, 8 or 1.
    pub side: u32,
    /// The low end of the formula's range there, or at side 1 the value.
    pub low: i32,
    /// The high end, or at side 1 the value.
    pub high: i32,
    /// How many clauses the region's tape had.
    pub clauses: u32,
}

/// Where the samples of a picture are: sample i on an axis is origin + i · step + step / 2, rounded down, in units of
/// 1/65,536. So each pixel stands for the middle of its cell.
///
/// A flat drawing reads neither `depth` nor `zstep`; its one z is `zorigin` as it is given.
///
/// ```
/// use layers::{fixed, Grid};
///
/// // 100 by 80 cells of a quarter, from (−12.5, −10) to (12.5, 10), at the height 3
/// let grid = Grid::flat(100, 80).step(fixed(0.25), fixed(0.25), 1).origin(fixed(-12.5), fixed(-10.0), fixed(3.0));
/// assert_eq!((grid.width, grid.xorigin, grid.xstep, grid.zorigin), (100, -819_200, 16_384, 196_608));
///
/// let next = Grid { zorigin: fixed(3.25), ..grid };
/// assert_eq!(next.xorigin, grid.xorigin);
/// ```
#[repr(C)]
#[derive(Clone, Copy, Debug, PartialEq, Eq, Hash)]
pub struct Grid {
    /// The number of columns.
    pub width: u32,
    /// The number of rows.
    pub height: u32,
    /// The number of samples along z.
    pub depth: u32,
    /// x where the first column begins.
    pub xorigin: i32,
    /// y where the first row begins.
    pub yorigin: i32,
    /// z where the lowest layer begins, or z of all samples of a flat drawing.
    pub zorigin: i32,
    /// The width of a column.
    pub xstep: i32,
    /// The height of a row.
    pub ystep: i32,
    /// The thickness of a layer.
    pub zstep: i32,
}

/// A rectangle of the 64-tiles of a flat grid, for a [`VerdictTable`](crate::VerdictTable).
///
/// ```
/// use layers::{Grid, Rectangle};
///
/// // 100 by 70 pixels are two tiles by two
/// let all = Rectangle::whole(Grid::flat(100, 70));
/// assert_eq!(all, Rectangle { column: 0, row: 0, columns: 2, rows: 2 });
/// assert_eq!(all.tiles().nth(2), Some(Rectangle::tile(0, 1)));
/// ```
#[repr(C)]
#[derive(Clone, Copy, Debug, PartialEq, Eq, Hash)]
pub struct Rectangle {
    /// The first column of tiles, counted from 0.
    pub column: u32,
    /// The first row of tiles, counted from 0.
    pub row: u32,
    /// How many columns of tiles.
    pub columns: u32,
    /// How many rows of tiles.
    pub rows: u32,
}

/// The least length of a work buffer, in bytes, whatever the tape: a short tape is kept there as two bits a clause
/// beside the tape as given.
pub const WORK: usize = 32_768;

/// The length of the buffer that a text's tape is written to: that of the longest, 1,024 clauses.
pub const TEXT_TAPE: usize = 10_248;

/// The most positions of a path.
pub const POSITIONS: usize = 4_096;

/// The bytes of a place of a plate's memory.
pub const PLACE: usize = 65_536;

/// The length of a plate's memory: eight places.
pub const PLATE: usize = 8 * PLACE;

/// The length of a table of verdicts.
pub const TABLE: usize = 163_936;

/// Declares the core's calls and wraps each: `name` is `layers_name` of include/layers.h, and a slice goes there as a
/// pointer and a length. For the tests that compare the header, it also lists them.
macro_rules! calls {
    ($(
        $(#[$about:meta])*
        fn $name:ident(
            $($lent:ident: $($given:ident)? $(&[$read:ident])? $(&mut [$written:ident])?),* $(,)?
        ) -> $answer:ident;
    )*) => {
        $(
            $(#[$about])*
            pub fn $name($($lent: $($given)? $(&[$read])? $(&mut [$written])?),*) -> $answer {
                unsafe extern "C" {
                    #[link_name = concat!("layers_", stringify!($name))]
                    fn call($($lent: $($given)? $(*const $read, _: usize)? $(*mut $written, _: usize)?),*) -> $answer;
                }
                // SAFETY: the call takes any input, reads and writes within the lengths lent, and keeps no pointer, so
                // a slice's pointer and length are all that it asks for; borrows keep what is written apart from the
                // rest.
                unsafe {
                    call($(
                        $(std::convert::identity::<$given>($lent))?
                        $(<[$read]>::as_ptr($lent), $lent.len())?
                        $(<[$written]>::as_mut_ptr($lent), $lent.len())?
                    ),*)
                }
            }
        )*

        /// What is returned, the name, and what is lent, with the words of C about Rust's types.
        #[cfg(test)]
        const CALLS: &[(&str, &str, &[&str])] = &[$((
            stringify!($answer),
            concat!("layers_", stringify!($name)),
            &[$(
                $(concat!(stringify!($given), " ", stringify!($lent)))?
                $(concat!("const ", stringify!($read), " *", stringify!($lent), ", usize ", stringify!($lent), "_len"))?
                $(concat!(stringify!($written), " *", stringify!($lent), ", usize ", stringify!($lent), "_len"))?
            ),*],
        )),*];
    };
}

calls! {
    /// Packs a list, five numbers to a clause, into a tape of 8 + 10 bytes a clause.
    fn pack_tape(slots: u32, list: &[i32], out: &mut [u8]) -> Answer;

    /// Unpacks a tape into a list, five numbers to a clause.
    fn unpack_tape(tape: &[u8], out: &mut [i32]) -> Listed;

    /// Two tapes into one of 8 + 10 bytes for each clause of both and for a minimum, the smaller of the two values at
    /// every sample. The place is the clause in whichever tape failed.
    fn merge_tapes(first: &[u8], second: &[u8], out: &mut [u8]) -> Answer;

    /// The tape of a formula that is written as text, to the front of [`TEXT_TAPE`] bytes; its head tells its length,
    /// and the bytes behind it stay.
    fn read_text(text: &[u8], out: &mut [u8]) -> Answer;

    /// The flat drawing in full: `width` / 8 bytes, rounded up, a row.
    fn draw_flat(tape: &[u8], grid: Grid, picture: &mut [u8]) -> Answer;

    /// The solid drawing in full: one height a pixel.
    fn draw_solid(tape: &[u8], grid: Grid, picture: &mut [u16]) -> Answer;

    /// The same picture as [`draw_flat`]'s, drawn by tiles, with at least [`WORK`] bytes to work in.
    fn tile_flat(tape: &[u8], grid: Grid, picture: &mut [u8], work: &mut [u8]) -> Answer;

    /// The same picture as [`draw_solid`]'s, drawn by tiles, with at least [`WORK`] bytes to work in.
    fn tile_solid(tape: &[u8], grid: Grid, picture: &mut [u16], work: &mut [u8]) -> Answer;

    /// The picture of [`tile_solid`] with its 64-tiles drawn in an order of the caller's own: the numbers of all, each one
    /// time. The tiles are numbered from 0, those with the greatest z first, in each layer of tiles row by row.
    fn tile_solid_in_order(
        tape: &[u8],
        grid: Grid,
        order: &[u16],
        picture: &mut [u16],
        work: &mut [u8],
    ) -> Answer;

    /// The picture and the count of [`tile_solid`], and three slopes a pixel: how much the formula grows along x, y and
    /// z at the visible sample, in units of 1/65,536 for each 1; three zeros where the height is 0.
    fn tile_slopes(tape: &[u8], grid: Grid, picture: &mut [u16], slopes: &mut [i32], work: &mut [u8]) -> Answer;

    /// Why the pixel in column x and row y of [`tile_flat`]'s picture has material or has none. No picture is lent.
    fn explain_pixel(tape: &[u8], grid: Grid, x: u32, y: u32, work: &mut [u8]) -> Reason;

    /// What a part sweeps along a path, pairs of offsets of x and y at up to [`POSITIONS`] positions: for each pixel of a
    /// flat grid 1 + the number of the first position at which the formula, taken at the sample less the offsets, is
    /// below 0, or 0.
    fn tile_swept(tape: &[u8], grid: Grid, path: &[i32], picture: &mut [u16], work: &mut [u8]) -> Answer;

    /// Stores a tape at an empty place of a plate's memory, [`PLATE`] bytes, and draws its flat picture afresh where the
    /// part may have material.
    fn plate_add(
        memory: &mut [u8],
        place: u32,
        tape: &[u8],
        grid: Grid,
        picture: &mut [u8],
        work: &mut [u8],
    ) -> Answer;

    /// Zeros a place of a plate's memory, and draws its flat picture afresh where the part may have had material.
    fn plate_remove(memory: &mut [u8], place: u32, grid: Grid, picture: &mut [u8], work: &mut [u8]) -> Answer;

    /// Writes a table of verdicts, [`TABLE`] bytes, in which each 64-tile of the flat grid is unknown.
    fn table_begin(tape: &[u8], grid: Grid, table: &mut [u8]) -> Answer;

    /// Draws a rectangle of the 64-tiles of [`tile_flat`]'s picture, with a table of verdicts, which gets those of the
    /// tiles that were unknown. The picture's bytes outside the rectangle stay.
    fn table_draw(
        tape: &[u8],
        grid: Grid,
        rectangle: Rectangle,
        table: &mut [u8],
        picture: &mut [u8],
        work: &mut [u8],
    ) -> Answer;

    /// The Netpbm bitmap file of a flat picture.
    fn write_bitmap(width: u32, height: u32, picture: &[u8], out: &mut [u8]) -> Answer;

    /// The Netpbm grey file of a solid's heights.
    fn write_heights(width: u32, height: u32, picture: &[u16], out: &mut [u8]) -> Answer;

    /// The formula at a point, each coordinate rounded down to a unit.
    fn probe(tape: &[u8], point: Point) -> Probed;
}

/// The header says the same, in the same order.
#[cfg(test)]
mod tests {
    use super::*;

    const HEADER: &str = include_str!("../../../include/layers.h");

    /// The header without comments and without lines for the preprocessor, its words one space apart.
    fn code() -> String {
        let parts = HEADER.split("/*").map(|part| part.split_once("*/").map_or(part, |(_, code)| code));
        let lines = parts.flat_map(str::lines).filter(|line| !line.starts_with('#'));
        lines.flat_map(str::split_whitespace).collect::<Vec<_>>().join(" ")
    }

    /// Words with Rust's types as C has them.
    fn in_c(words: &str) -> String {
        let word = |word: &str| match word {
            "usize" => String::from("size_t"),
            "f64" => String::from("double"),
            "u8" | "u16" | "u32" | "u64" => format!("uint{}_t", &word[1..]),
            "i32" => String::from("int32_t"),
            record if record.starts_with(char::is_uppercase) => format!("Layers{record}"),
            other => String::from(other),
        };
        words.split(' ').map(word).collect::<Vec<_>>().join(" ")
    }

    #[test]
    fn calls() {
        let code = code();
        let listed = code.split_inclusive(';').map(str::trim).filter(|statement| statement.contains('('));
        let calls =
            CALLS.iter().map(|(answer, name, lent)| format!("{} {name}({});", in_c(answer), in_c(&lent.join(", "))));
        assert_eq!(listed.collect::<Vec<_>>(), calls.collect::<Vec<_>>());
    }

    #[test]
    fn records() {
        let code = code();
        let listed = code.split("typedef struct { ").skip(1).map(|rest| {
            let (fields, behind) = rest.split_once(" }").expect("an end");
            format!("{fields}{}", behind.split(';').next().unwrap_or_default())
        });
        let structs = include_str!("raw.rs").split("\npub struct ").skip(1).map(|rest| {
            let (name, rest) = rest.split_once(" {").expect("a name and fields");
            let fields =
                rest.lines().take_while(|line| *line != "}").filter_map(|line| line.trim().strip_prefix("pub "));
            let fields = fields.map(|field| field.trim_end_matches(',').split_once(": ").expect("a field and a type"));
            fields.map(|(field, kind)| in_c(&format!("{kind} {field}; "))).collect::<String>() + &in_c(name)
        });
        assert_eq!(listed.collect::<Vec<_>>(), structs.collect::<Vec<_>>());
    }

    #[test]
    fn lengths() {
        let defined = HEADER.lines().filter_map(|line| line.strip_prefix("#define LAYERS_")?.split_once(' '));
        let of_calls = defined.filter(|(_, value)| value.len() > 1);
        let lengths: Vec<(&str, String)> = of_calls.map(|(name, value)| (name, value.into())).collect();
        let ours = [
            ("WORK", WORK),
            ("TEXT_TAPE", TEXT_TAPE),
            ("POSITIONS", POSITIONS),
            ("PLACE", PLACE),
            ("PLATE", PLATE),
            ("TABLE", TABLE),
        ];
        assert_eq!(lengths, ours.map(|(name, value)| (name, value.to_string())));
    }
}
