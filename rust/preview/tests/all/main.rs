//! Reading, shading, files and the command; the PNG files are read back by a decoder of the tests' own.

mod command;
mod decoder;
mod png;
mod reading;
mod views;
