//! The changes that are made to the original before it is compiled. Each names its module and its reason. The build fails
//! if a text that it looks for does not stand in the module's file exactly once.

/// One change of one module.
pub struct Change {
    /// The module.
    pub module: &'static str,
    /// A name for messages.
    pub name: &'static str,
    /// What is done.
    pub edit: Edit,
}

/// What a change does.
pub enum Edit {
    /// Puts the second text in the place of the first.
    Swap(&'static str, &'static str),
    /// Puts the third text in the place of all from the first text up to the second, which stays.
    Cut(&'static str, &'static str, &'static str),
}

use Edit::{Cut, Swap};

const UNICODE: &str = "unicode";
const ISOLATE: &str = "isolate_unassigned";
const REPLACE_UNITS: &str = "replace_units";
const CHECK_UNITS: &str = "check_units";
const INPUT: &str = "text_input";
const OUTPUT: &str = "text_output";

/// All changes, in the order in which they are made.
pub const CHANGES: [Change; 19] = [
    // The property page stands in for the functions of another crate: both must be switchable.
    Change {
        module: UNICODE,
        name: "combining class from the switch",
        edit: Swap(
            "unicode_normalization::char::canonical_combining_class;",
            "crate::properties::canonical_combining_class;",
        ),
    },
    Change {
        module: ISOLATE,
        name: "assigned from the switch",
        edit: Swap("unicode_normalization::char::is_public_assigned;", "crate::properties::is_public_assigned;"),
    },
    // Added, by document 02, A.5: the three signs for units, in a copy of `replace`, and their letters in a copy of the check, which
    // has the errors of the check itself. A writer goes by the check as it is.
    Change {
        module: REPLACE_UNITS,
        name: "ohm, kelvin and angstrom",
        edit: Swap(
            "c => queue.push_back(c),",
            "'\\u{2126}' => queue.push_back('\\u{3a9}'),
        '\\u{212a}' => queue.push_back('\\u{4b}'),
        '\\u{212b}' => queue.push_back('\\u{c5}'),
        c => queue.push_back(c),",
        ),
    },
    Change {
        module: CHECK_UNITS,
        name: "the check names their letters",
        edit: Swap("use crate::replace;", "use crate::replace_units::replace;"),
    },
    Change {
        module: CHECK_UNITS,
        name: "the errors of the check",
        edit: Cut(
            "/// An invalid Unicode scalar value sequence.",
            "#[cold]\nfn control(c: char)",
            "use crate::check::BasicTextError;\n\n",
        ),
    },
    // The scanner's option: a field beside the other two, and a choice between the two functions.
    Change {
        module: INPUT,
        name: "a field for the option",
        edit: Swap("lsps_compatibility: bool,", "lsps_compatibility: bool,\n    units_compatibility: bool,"),
    },
    Change {
        module: INPUT,
        name: "the option is off at first",
        edit: Swap("lsps_compatibility: false,", "lsps_compatibility: false,\n            units_compatibility: false,"),
    },
    Change {
        module: INPUT,
        name: "replacement by the option",
        edit: Swap(
            "replace(c, &mut self.queue);",
            "if self.units_compatibility {
                                crate::replace_units::replace(c, &mut self.queue);
                            } else {
                                replace(c, &mut self.queue);
                            }",
        ),
    },
    // Left out: the boundary search, the quick check and the isolation inside `queue_next`. It hands out the number of
    // characters that `quick` says, as they stand: none in a scan or a finish, which keep the queue, all in a filling.
    Change {
        module: INPUT,
        name: "queue_next hands out the queue as it stands",
        edit: Cut(
            "fn queue_next(&mut self)",
            "fn process_raw_string(&mut self)",
            "fn queue_next(&mut self) -> Option<char> {
        self.quick = self.quick.checked_sub(1)?;
        self.queue.pop_front()
    }

    ",
        ),
    },
    // Left out: normalisation. This iterator is made and not used.
    Change {
        module: INPUT,
        name: "type of the chain without normalisation",
        edit: Swap(
            "Recompositions<StreamSafe<Replacements<IsolateUnassigned<vec_deque::IntoIter<char>>>>>",
            "IsolateUnassigned<vec_deque::IntoIter<char>>",
        ),
    },
    Change { module: INPUT, name: "input without cjk_compat_variants", edit: Swap(".cjk_compat_variants()", "") },
    Change { module: INPUT, name: "input without stream_safe", edit: Swap(".stream_safe()", "") },
    Change { module: INPUT, name: "input without nfc", edit: Swap(".nfc()", "") },
    Change { module: OUTPUT, name: "output without cjk_compat_variants", edit: Swap(".cjk_compat_variants()", "") },
    Change { module: OUTPUT, name: "output without stream_safe", edit: Swap(".stream_safe()", "") },
    Change { module: OUTPUT, name: "output without nfc", edit: Swap(".nfc()", "") },
    // Left out: quick checks. This one answers No, so that every write is isolated.
    Change {
        module: OUTPUT,
        name: "the quick check answers No",
        edit: Swap("is_nfc_stream_safe_quick(s.chars()) ==", "IsNormalized::No =="),
    },
    // Added: the 64-character limit, tested before each step.
    Change {
        module: OUTPUT,
        name: "the limit of an escape",
        edit: Swap(
            "Self::state_machine_char(internals, c, error)?;",
            "writer::limit(internals, c)?;
            Self::state_machine_char(internals, c, error)?;",
        ),
    },
    // Left out: `Drop`, which panics. Its function stays, and nothing calls it.
    Change { module: OUTPUT, name: "no Drop", edit: Swap("impl Drop for TextOutput", "impl TextOutput") },
];

/// The modules, each with its file below the folder of the sources, and the file of the harness that becomes its child and so
/// sees its private parts. Two are changed copies of files that are also modules as they stand.
pub const MODULES: [(&str, &str, Option<&str>); 10] = [
    (UNICODE, "internals/src/unicode.rs", None),
    ("text_utils", "internals/src/text_utils.rs", None),
    ("replace", "internals/src/replace.rs", None),
    (REPLACE_UNITS, "internals/src/replace.rs", None),
    ("check", "internals/src/check.rs", None),
    (CHECK_UNITS, "internals/src/check.rs", None),
    ("categorize", "internals/src/categorize.rs", None),
    (ISOLATE, "internals/src/isolate_unassigned.rs", None),
    (INPUT, "src/text_input.rs", Some("scanner")),
    (OUTPUT, "src/text_output.rs", Some("writer")),
];
