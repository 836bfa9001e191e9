//! The two property functions that the original takes from another crate, switchable while the oracle runs: that
//! crate's own answers, or those of a page.

use crate::page::Page;
use std::cell::RefCell;
use unicode_normalization::char as debian;

thread_local! {
    /// The page that answers; none: Debian's crate.
    static PAGE: RefCell<Option<Page>> = const { RefCell::new(None) };
}

/// From here on the page answers, or Debian's crate if there is none. The page is an accepted one.
pub fn answer_from(page: Option<Page>) {
    PAGE.set(page);
}

/// The class is asked for being 0 alone: a nonstarter of a page has class 1.
pub fn canonical_combining_class(c: char) -> u8 {
    PAGE.with_borrow(|page| match page {
        Some(page) => u8::from(page.is_nonstarter(u32::from(c))),
        None => debian::canonical_combining_class(c),
    })
}

/// Whether the character is assigned.
pub fn is_public_assigned(c: char) -> bool {
    PAGE.with_borrow(|page| match page {
        Some(page) => page.is_assigned(u32::from(c)),
        None => debian::is_public_assigned(c),
    })
}
