//! What the tests share: random input from fixed seeds, comparisons of the core and the program with the slow drawing.

pub mod compare;
pub mod damage;
pub mod drawing;
pub mod files;
pub mod grammar;
pub mod grids;
pub mod lists;
pub mod merging;
pub mod order;
pub mod packing;
pub mod plate;
pub mod probe;
pub mod program;
pub mod random;
pub mod reason;
pub mod shapes;
pub mod slopes;
pub mod swept;
pub mod table;
pub mod text;
pub mod trees;
