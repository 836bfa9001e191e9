//! Stands in for the original's `pre_normalization.rs`, which is missing: the two adapters as methods of an iterator.

use crate::{BasicTextError, Categorize, IsolateUnassigned};
use std::cell::RefCell;
use std::rc::Rc;

/// The steps before normalisation.
pub trait PreNormalization: Iterator<Item = char> + Sized {
    /// Refused characters become SUB, and the last reason stands in `error`.
    fn categorize(self, error: Rc<RefCell<Option<BasicTextError>>>) -> Categorize<Self> {
        Categorize::new(self, error)
    }

    /// Unassigned characters get CGJ around them.
    fn isolate_unassigned(self) -> IsolateUnassigned<Self> {
        IsolateUnassigned::new(self)
    }
}

impl<I: Iterator<Item = char>> PreNormalization for I {}
