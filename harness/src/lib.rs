//! The original Rust made runnable, with what the documents add around it.
//!
//! The modules of the original stand at this root. `build.rs` reads and changes them; none of their text is here. This
//! one crate takes the names of the two crates of the original and of the two that it leans on and that are missing.

extern crate self as basic_text_internals;
extern crate self as layered_io;
extern crate self as utf8_io;

include!(concat!(env!("OUT_DIR"), "/modules.rs"));

mod pre_normalization;
mod stand_in;

pub mod check_run;
pub mod generator;
pub mod leaves;
pub mod page;
pub mod properties;
pub mod random;
pub mod replay;
pub mod scripts;
pub mod tables;
pub mod utf16;
pub mod words;

// What the original's two roots hand on.
pub use categorize::Categorize;
pub use check::{check_basic_text_char, BasicTextError};
pub use isolate_unassigned::IsolateUnassigned;
pub use pre_normalization::PreNormalization;
pub use replace::replace;
pub use stand_in::*;
pub use text_utils::{is_basic_text_end, is_basic_text_start};
pub use unicode_normalization;
