//! The program's pictures as PNG files to look at: many viewers open no Netpbm file, and show heights of some hundred out
//! of 65,535 as black. Nothing here needs the proved library.

pub mod fault;
pub mod grid;
pub mod netpbm;
pub mod png;
pub mod shade;
pub mod view;

pub use fault::Fault;
pub use grid::Grid;
pub use netpbm::{Bitmap, Heights, Picture};
