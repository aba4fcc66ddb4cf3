//! The core and the program against the scope paper. One program with a file for each subject, since linking takes longer
//! than most of the tests.

mod differential;
mod draw;
mod examples;
mod faults;
mod figures;
mod lanes;
mod merging;
mod order;
mod plate;
mod probe;
mod program;
mod reason;
mod refusals;
mod slopes;
mod stack;
mod swept;
mod table;
mod text;
