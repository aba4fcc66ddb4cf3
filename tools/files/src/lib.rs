//! The files that the tool writes and reads again: masks, manifests, archives. Nothing here knows a tape or a grid.

pub mod base64;
pub mod colour;
pub mod json;
pub mod mask;
pub mod sha256;
pub mod sl1;
pub mod whole;
pub mod zip;

#[cfg(test)]
mod tests;
