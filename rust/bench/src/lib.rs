//! A plain Rust version of the walk, and the measuring of it and of the core.

pub mod drawing;
pub mod measure;
pub mod plain;
