//! The generated tables of the crate `text_utils`: the lists of the original's `text_utils.rs`, and the same properties
//! as Unicode's data files have them.

pub mod check;
pub mod data;
pub mod decompositions;
pub mod files;
pub mod original;
pub mod packed;
pub mod page;
pub mod runs;
pub mod unicode;

use crate::page::Range;
use std::collections::BTreeSet;

/// The original's file, below the folder of the sources.
pub const ORIGINAL: &str = "internals/src/text_utils.rs";

/// One list, in both sources.
pub struct Property {
    /// The array in `src/tables.rt`, and how it has the ranges.
    pub array: &'static str,
    pub form: Form,
    /// The function of the original in whose `matches!` the list stands.
    pub function: &'static str,
    /// The definition in `specs/Tables.antt`, and the comment above it.
    pub definition: &'static str,
    pub comment: &'static str,
    pub source: Source,
    /// The characters that have the property in Unicode and not in the original. None is only in the original.
    pub lacking: &'static [u32],
}

/// How `src/tables.rt` has a list.
pub enum Form {
    /// A number for each range, in one array.
    Packed,
    /// The firsts and the lasts, in two arrays whose names end in `_FIRST` and `_LAST`.
    Ends,
}

/// Where Unicode's data has a list.
pub enum Source {
    /// The ranges of a file with this value.
    File(&'static str, &'static str),
    /// The spacing marks that UAX #29 excepts.
    SpacingMarkExceptions,
}

use Form::{Ends, Packed};
use Source::{File, SpacingMarkExceptions};

const CORE: &str = "DerivedCoreProperties.txt";
const CATEGORY: &str = "extracted/DerivedGeneralCategory.txt";
const COMBINING: &str = "extracted/DerivedCombiningClass.txt";
const EMOJI: &str = "emoji/emoji-data.txt";
const INDIC: &str = "IndicSyllabicCategory.txt";
const PROPERTIES_LIST: &str = "PropList.txt";
const BREAK: &str = "auxiliary/GraphemeBreakProperty.txt";

/// The lists, in the order of `specs/Tables.antt`.
pub const PROPERTIES: [Property; 8] = [
    Property {
        array: "GRAPHEME_EXTEND_NOT_CGJ",
        form: Packed,
        function: "is_grapheme_extend_not_cgj",
        definition: "grapheme_extend",
        comment: "Grapheme_Extend = Yes: DerivedCoreProperties.txt",
        source: File(CORE, "Grapheme_Extend"),
        // The original leaves CGJ out by name.
        lacking: &[0x34F],
    },
    Property {
        array: "EMOJI_MODIFIER",
        form: Packed,
        function: "is_emoji_modifier",
        definition: "emoji_modifier",
        comment: "Emoji_Modifier = Yes: emoji-data.txt",
        source: File(EMOJI, "Emoji_Modifier"),
        lacking: &[],
    },
    Property {
        array: "SPACING_MARK",
        form: Packed,
        function: "is_general_category_spacing_mark",
        definition: "spacing_mark",
        comment: "General_Category = Spacing_Mark: DerivedGeneralCategory.txt, Mc",
        source: File(CATEGORY, "Mc"),
        lacking: &[],
    },
    Property {
        array: "SPACING_MARK_EXCEPTION",
        form: Packed,
        function: "is_grapheme_cluster_break_spacing_mark_plus",
        definition: "spacing_mark_exceptions",
        comment: "the characters of General_Category = Spacing_Mark that UAX #29 excepts from SpacingMark: those that \
                  GraphemeBreakProperty.txt\ngives neither SpacingMark nor Extend; two that adjoin stand one by one, \
                  as in UAX #29",
        source: SpacingMarkExceptions,
        lacking: &[],
    },
    Property {
        array: "CONSONANT_PRECEDING_REPHA",
        form: Ends,
        function: "indic_syllabic_category_consonant_preceding_repha",
        definition: "consonant_preceding_repha",
        comment: "Indic_Syllabic_Category = Consonant_Preceding_Repha: IndicSyllabicCategory.txt",
        source: File(INDIC, "Consonant_Preceding_Repha"),
        lacking: &[],
    },
    Property {
        array: "CONSONANT_PREFIXED",
        form: Ends,
        function: "indic_syllabic_category_consonant_prefixed",
        definition: "consonant_prefixed",
        comment: "Indic_Syllabic_Category = Consonant_Prefixed: IndicSyllabicCategory.txt",
        source: File(INDIC, "Consonant_Prefixed"),
        lacking: &[],
    },
    Property {
        array: "PREPENDED_CONCATENATION_MARK",
        form: Ends,
        function: "prepended_concatenation_mark",
        definition: "prepended_concatenation_mark",
        comment: "Prepended_Concatenation_Mark = Yes: PropList.txt",
        source: File(PROPERTIES_LIST, "Prepended_Concatenation_Mark"),
        // The original has no line for these two.
        lacking: &[0x890, 0x891],
    },
    Property {
        array: "PRIVATE_USE_AREA",
        form: Ends,
        function: "is_private_use_area",
        definition: "private_use",
        comment: "General_Category = Private_Use: DerivedGeneralCategory.txt, Co",
        source: File(CATEGORY, "Co"),
        lacking: &[],
    },
];

/// The values of Grapheme_Cluster_Break that `specs/Breaks.antt` has, and the names of their definitions.
pub const BREAKS: [(&str, &str); 4] = [
    ("Extend", "break_extend"),
    ("ZWJ", "break_zwj"),
    ("SpacingMark", "break_spacing_mark"),
    ("Prepend", "break_prepend"),
];

/// A set of characters.
pub type Set = BTreeSet<u32>;

/// The characters in the ranges.
pub fn set(ranges: &[Range]) -> Set {
    ranges.iter().flat_map(|(first, last)| *first..=*last).collect()
}
