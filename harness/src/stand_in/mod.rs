//! The names that the original leans on and that are missing, written from what its files ask of them.

mod streams;
mod text;

pub use streams::*;
pub use text::*;
