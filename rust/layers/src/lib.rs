//! The proved layer core for Rust: pictures of implicit parts, drawn exactly.
//!
//! A part is a formula, flattened into a [`Tape`] of small steps, each a [`Clause`]. [`Tape::from_text`] does this for
//! one that is typed, such as `max(root(sqr(x) + sqr(y)) - 12, 4 - z)`. A sample has material exactly if
//! the formula is below 0 there. A [`Grid`] says where the samples are. A [`Bitmap`] is one layer of the part, a
//! [`Heightmap`] the part seen from above, if asked for with the [`Slopes`] that a viewer shades by, or, with
//! [`Heightmap::draw_in_order`], the tiles first that a preview wants; [`Tape::probe`] gives the formula at one point,
//! [`Bitmap::reason`] why a pixel is as it is, and [`Tape::union`] makes one part of two. A [`Sweep`] is what the part
//! covers along a path, a [`Plate`] has parts that come and go, and with a [`VerdictTable`] those who draw parts of one
//! bitmap by turns share the work. Values are whole numbers that count units of 1/65,536: [`fixed`] makes them.
//!
//! The part x − 2 on three columns and two rows, with samples in the middle of each cell, at x = 0.5, 1.5 and 2.5:
//!
//! ```
//! use layers::{fixed, Bitmap, Clause, Grid, Tape};
//!
//! let tape = Tape::from_clauses(2, &[Clause::x(0), Clause::constant(1, fixed(2.0)), Clause::subtract(0, 0, 1)])?;
//! let drawn = Bitmap::draw(&tape, Grid::flat(3, 2))?;
//!
//! assert_eq!(drawn.picture.to_netpbm(), [0x50, 0x34, 0x0A, 0x33, 0x20, 0x32, 0x0A, 0xC0, 0xC0]);
//! assert_eq!(drawn.count, 24);
//! # Ok::<(), layers::Refusal>(())
//! ```
//!
//! What is wrong with an input comes back as a [`Refusal`], one variant for each line of the core's table. Every byte
//! of a picture and a file comes from the proved core, and so does every verdict on a tape; this crate makes the memory
//! that the core is lent, and turns its numbers into Rust's types. [`raw`] has the core's own calls, for those who lend
//! memory themselves.

#![warn(missing_docs)]

#[allow(unsafe_code)]
pub mod raw;

mod bitmap;
mod clause;
mod drawing;
mod fixed;
mod grid;
mod heightmap;
mod lend;
mod netpbm;
mod plate;
mod probe;
mod reason;
mod refusal;
mod slopes;
mod sweep;
mod table;
mod tape;
mod text;
mod union;

pub use bitmap::Bitmap;
pub use clause::{Clause, Opcode};
pub use drawing::{Drawn, Work};
pub use fixed::{ONE, fixed};
pub use grid::MAX_SIZE;
pub use heightmap::Heightmap;
pub use plate::{PLACES, Plate};
pub use probe::Probe;
pub use raw::{Grid, Rectangle};
pub use reason::{Reason, Stops};
pub use refusal::Refusal;
pub use slopes::Slopes;
pub use sweep::{MAX_POSITIONS, Sweep};
pub use table::{Verdict, VerdictTable};
pub use tape::{FIRST_EDITION_CLAUSES, FIRST_EDITION_SLOTS, MAX_CLAUSES, MAX_SLOTS, Tape};
pub use text::TextError;
pub use union::UnionError;

/// The pages' examples run with the other examples.
#[cfg(doctest)]
#[doc = include_str!("../../../README.md")]
#[doc = include_str!("../../../docs/RUST.md")]
struct Pages;
