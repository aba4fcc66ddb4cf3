//! The parts: shapes, formulas, tapes and files. One program with a file for each subject.

mod common;
mod compiling;
mod files;
mod shapes;
mod texts;
