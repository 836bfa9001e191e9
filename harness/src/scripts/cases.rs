//! The cases that document 01 names for the leaves, the scanner and filling, its corners, those of asking and committing, of the signs
//! for units and of the generator (document 02, A.4, A.5 and A.6), and the original's own tests, as one fixed script. Each stands under
//! its name.

use super::operation;

/// A case: its name, and its operations.
pub type Case = (&'static str, &'static [&'static str]);

pub fn script() -> Vec<String> {
    let mut lines = under_names(&[&CHECKED[..], &RUN, &WRONG, &LEAVES, &SCANS, &UNITS, &TESTS, &GENERATOR].concat());
    lines.extend(long_queues());
    lines
}

/// The cases after the page of the start.
pub fn under_names(cases: &[Case]) -> Vec<String> {
    let mut lines = vec![FIRST_PAGE.to_owned()];
    for (name, operations) in cases {
        lines.push(format!("# {name}"));
        lines.extend(operations.iter().map(|line| line.to_string()));
    }
    lines
}

pub const FIRST_PAGE: &str = "P 0 1 0 377";

/// "Checked by hand", 1 to 12.
const CHECKED: [Case; 12] = [
    ("1", &["S new", "S fin e 2"]),
    ("2", &["S new", "S scan 0 4 61", "S fin e 2"]),
    ("3", &["S new", "S scan 0 4 d", "S scan 0 4 a", "S fin e 2"]),
    ("4", &["S new", "S scan 0 7 d d", "S fin e 2"]),
    ("5", &["S new", "S scan 0 a c c 61", "S fin e 2"]),
    ("6", &["S new", "S scan 0 7 c d", "S fin e 2"]),
    ("7", &["S new", "S scan 0 d 1b 5b 5b e9", "S fin e 2"]),
    ("8", &["S new", "S scan 0 7 1b 63", "S fin e 2"]),
    ("9", &["S new", "S scan 0 13 1b 5d 61 a 7 62", "S fin e 2"]),
    ("10", &["S new", "S scan 0 4 200d", "S fin e 2"]),
    ("11", &["S new", "S scan 0 4 d", "S scan 0 3 fb03", "S scan 0 4 fb03", "S fin e 2"]),
    ("12", &["L isolate 5 378 61", "L isolate 4 378 61"]),
];

/// "Run:" of the same section; the color escapes are the writer's.
const RUN: [Case; 3] = [
    ("135 and 136 bytes", &["F 87 80 61", "F 88 80 61", "F 87 80 d800", "F 88 80 d800", "F 88 80", "F 88 8061 e9"]),
    ("FEFF 61", &["S new", "S scan 0 7 feff 61", "S fin e 2"]),
    ("FEFF 61 after an empty chunk", &["S new", "S scan 0 0", "S scan 0 7 feff 61", "S fin e 2"]),
];

/// "Plausible and wrong".
const WRONG: [Case; 4] = [
    ("a leading FEFF of a later chunk", &["S new", "S scan 0 4 61", "S scan 0 4 feff", "S fin e 2"]),
    ("a newline in an OSC string", &["S new", "S scan 0 10 1b 5d a 61 18", "S scan 0 4 62", "S fin e 2"]),
    ("a page run before 0D", &["S new", "S scan 0 4 c", "S scan 0 4 d", "S scan 0 4 a", "S fin e 2"]),
    (
        "34F after each unassigned character",
        &["L isolate 7 34f 378 61", "L isolate 5 378 378", "L isolate 7 34f 378 378"],
    ),
];

const LEAVES: [Case; 4] = [
    (
        "isolation: a 34F that follows, private use, room",
        &[
            "L isolate 5 378 34f",
            "L isolate 7 378 34f 378",
            "L isolate 3 e000",
            "L isolate 0",
            "L isolate 2 61",
            "L isolate 3 d800",
        ],
    ),
    (
        "a wrong page comes before 1, and 1 before 8",
        &[
            "P 0 0",
            "L isolate 0 d800",
            "L start d800",
            "L end d800",
            "S scan 0 0 d800",
            FIRST_PAGE,
            "L isolate 0 d800",
            "L start d800",
        ],
    ),
    (
        "the check: reasons that carry, 1B, 2126",
        &[
            "L check 1b",
            "L check 1a",
            "L check 206a",
            "L check 17b4",
            "L check 2126",
            "L check fb03",
            "L check 149",
            "L check f900",
            "L check a",
            "L check 110000",
        ],
    ),
    (
        "ASCII is a start whatever the page says",
        &["P 1 1 61 0 61 377", "L start 61", "S new", "S scan 0 4 61", "S fin e 2", FIRST_PAGE],
    ),
];

const SCANS: [Case; 13] = [
    (
        "options",
        &["S new", "S scan 0 7 85 2028", "S scan 1 7 85 2028", "S scan 2 7 85 2029", "S scan 3 7 85 2029", "S fin e 2"],
    ),
    ("a page run before line ends of the options", &["S new", "S scan 3 7 c 85", "S scan 3 7 c 2028", "S fin e 2"]),
    (
        "the count at its limit",
        &[
            "S new",
            "S count fffffffe",
            "S scan 0 7 61 61",
            "S scan 0 3 61",
            "S scan 0 4 61",
            "S scan 0 4 61",
            "S scan 0 0",
            "S fin e 2",
        ],
    ),
    (
        "a refused first call does not pass for the first",
        &["S new", "S scan 0 3 feff", "S scan 0 4 d800", "S scan 0 4 feff", "S fin e 2"],
    ),
    ("a push keeps the chance to drop FEFF", &["S new", "S fin p 2", "S scan 0 4 feff", "S fin e 2"]),
    (
        "a push ends what is pending and expects a start",
        &[
            "S new",
            "S scan 0 4 d",
            "S fin p 2",
            "S scan 0 4 a",
            "S scan 0 4 c",
            "S fin p 1",
            "S fin p 2",
            "S scan 0 4 301",
            "S scan 0 7 1b 5d",
            "S fin p 2",
            "S scan 0 4 62",
            "S fin e 2",
            "S fin e 2",
        ],
    ),
    ("34F after a non-end, once", &["S new", "S scan 0 4 600", "S fin p 2", "S fin p 2", "S fin e 2"]),
    (
        "escapes cut by chunks",
        &[
            "S new",
            "S scan 0 4 1b",
            "S scan 0 4 5b",
            "S scan 0 4 31",
            "S scan 0 4 6d",
            "S scan 0 4 1b",
            "S scan 0 4 5b",
            "S scan 0 4 5b",
            "S scan 0 4 41",
            "S scan 0 4 1b",
            "S scan 0 4 1b",
            "S scan 0 4 a",
            "S fin e 2",
        ],
    ),
    (
        "asking spends no chance to drop FEFF, and a dropped FEFF fills no place",
        &[
            "S new",
            "S ask 0",
            "S ask 0 feff 61",
            "S commit 0 0 feff 61",
            "S commit 0 1 feff 61",
            "S ask 0 feff",
            "S fin e 2",
        ],
    ),
    (
        "an empty commit needs no place and spends the chance",
        &["S new", "S commit 0 0", "S ask 0 feff 61", "S commit 0 1 feff 61", "S commit 0 2 feff 61", "S fin e 2"],
    ),
    (
        "after 0D, FB03 fills four places",
        &[
            "S new",
            "S commit 0 0 d",
            "S ask 0 fb03",
            "S commit 0 3 fb03",
            "S scan 0 3 fb03",
            "S commit 0 4 fb03",
            "S fin e 2",
        ],
    ),
    (
        "a commit into more places leaves the rest, and an escape fills none",
        &[
            "S new",
            "S ask 0 200d",
            "S commit 0 9 200d",
            "S ask 0 1b 5b 31",
            "S commit 0 0 1b 5b 31",
            "S commit 0 1 6d 61",
            "S fin e 2",
        ],
    ),
    (
        "the refusals of asking and committing, in their order",
        &[
            "S new",
            "S count ffffffff",
            "P 0 0",
            "S ask 0 d800",
            "S commit 0 0 d800",
            "P 0 1 0 377",
            "S ask 0 d800",
            "S commit 0 0 d800",
            "S ask 0 61",
            "S commit 0 0 61",
            "S ask 0",
            "S commit 0 0",
            "S fin e 2",
        ],
    ),
];

/// The option of document 02, A.5.
const UNITS: [Case; 11] = [
    (
        "ohm, kelvin and angstrom, the option off and on",
        &[
            "L replace 2126",
            "L replace 2126 1",
            "L replace 212a",
            "L replace 212a 1",
            "L replace 212b",
            "L replace 212b 1",
            "L check 2126",
            "L check 2126 1",
            "L check 212a",
            "L check 212a 1",
            "L check 212b",
            "L check 212b 1",
        ],
    ),
    (
        "their neighbours, their letters and what else is replaced or refused",
        &[
            "L replace 2125 1",
            "L replace 2127 1",
            "L replace 2129 1",
            "L replace 212c 1",
            "L replace 3a9 1",
            "L replace fb03 1",
            "L replace f900 1",
            "L replace 1 1",
            "L replace d800 1",
            "L check 2125 1",
            "L check 212c 1",
            "L check 3a9 1",
            "L check 4b 1",
            "L check c5 1",
            "L check fb03 1",
            "L check f900 1",
            "L check 206a 1",
            "L check 110000 1",
        ],
    ),
    (
        "scanned, the option off, on, and with the other two",
        &[
            "S new",
            "S scan 0 a 2126 212a 212b",
            "S scan 4 a 2126 212a 212b",
            "S scan 3 10 85 2126 2028 212a 2029",
            "S scan 7 10 85 2126 2028 212a 2029",
            "S scan 5 a 85 212b 2028",
            "S scan 6 a 85 212b 2028",
            "S fin e 2",
        ],
    ),
    (
        "asked about and committed",
        &[
            "S new",
            "S ask 0 2126 212a 212b",
            "S ask 4 2126 212a 212b",
            "S commit 4 2 2126 212a 212b",
            "S commit 4 3 2126 212a 212b",
            "S commit 0 3 2126 212a 212b",
            "S fin e 2",
        ],
    ),
    (
        "a letter that the page has as a nonstarter",
        &[
            "P 3 1 4b c5 3a9 0 4b c5 3a9 377",
            "S new",
            "S ask 0 2126",
            "S ask 4 2126",
            "S commit 4 1 2126",
            "S commit 4 2 2126",
            "S new",
            "S commit 0 1 2126",
            "S new",
            "S ask 4 212b",
            "S scan 4 4 212b",
            "S fin p 2",
            "S scan 4 4 212b",
            "S fin p 2",
            "S ask 4 212a",
            "S commit 4 1 212a",
            "S fin e 2",
            FIRST_PAGE,
        ],
    ),
    (
        "a sign that the page has as a nonstarter",
        &[
            "P 1 1 2126 0 212b 377",
            "S new",
            "S ask 0 2126",
            "S ask 4 2126",
            "S commit 0 1 2126",
            "S commit 0 2 2126",
            "S fin p 2",
            "S commit 4 1 2126",
            "S fin p 2",
            "S scan 0 4 212a",
            "S fin p 2",
            "S scan 4 4 212a",
            "S fin e 2",
            FIRST_PAGE,
        ],
    ),
    (
        "after a refused call, FEFF, 0D and a page run",
        &[
            "S new",
            "S scan 4 3 2126",
            "S scan 4 4 d800",
            "S scan 4 7 feff 2126",
            "S scan 4 4 d",
            "S commit 4 1 212a",
            "S commit 4 2 212a",
            "S scan 4 4 c",
            "S ask 4 212b",
            "S scan 4 4 212b",
            "S fin e 2",
        ],
    ),
    (
        "in escapes",
        &[
            "S new",
            "S scan 4 16 1b 5d 2126 212a 212b 7 2126",
            "S scan 4 7 1b 5d",
            "S scan 4 4 2126",
            "S ask 4 212a 18 212b",
            "S scan 4 a 212a 18 212b",
            "S scan 4 7 1b 2126",
            "S scan 4 a 1b 5b 2126",
            "S scan 4 d 1b 5b 31 212a",
            "S scan 4 d 1b 5b 5b 212b",
            "S fin e 2",
        ],
    ),
    (
        "a compatibility ideograph stays",
        &["S new", "S scan 4 7 2126 f900", "S fin e 2", "A check 3a9 f900 a", "A check 3a9 a", "A check 2126 a"],
    ),
    (
        "a write refuses the signs by the same 4, whatever went before",
        &[
            "W new plain",
            "W chars 3 2126",
            "S new",
            "S scan 4 4 2126",
            "W chars 3 2126",
            "L check 212a 1",
            "W chars 3 212a",
            "L replace 212b 1",
            "W chars 6 61 212b",
            "W bytes 6 e2 84 a6",
            "W abandon",
            "W chars c 3a9 4b c5 a",
            "W close",
        ],
    ),
    (
        "the refusals of calls with the option",
        &[
            "S new",
            "P 0 0",
            "S scan 4 4 d800",
            "S ask 4 d800",
            "S commit 4 0 d800",
            "L replace 2126 1",
            "L check 2126 1",
            FIRST_PAGE,
            "S ask 4 d800",
            "S count ffffffff",
            "S ask 4 2126",
            "S commit 4 0 2126",
            "S scan 4 4 2126",
            "S fin e 2",
        ],
    ),
];

/// The tests of text_input.rs. In the first the queue stands where the test has 7 7. In the second the buffer begins with
/// the byte that is asked: unless it is a boundary, the 80 after it is zeroed too.
const TESTS: [Case; 2] = [
    ("test_clear_to_char_boundary", &["F 88 0707808007 7 7"]),
    (
        "test_is_char_boundary",
        &["F 88 0080", "F 88 4180", "F 88 7f80", "F 88 8080", "F 88 bf80", "F 88 c080", "F 88 cf80", "F 88 ff80"],
    ),
];

/// The generator of document 02, A.6.
const GENERATOR: [Case; 5] = [
    (
        "from 0 step by step: the states of Numerical Recipes in C, section 7.1",
        &[
            "G fill 0 1",
            "G fill 3c6ef35f 1",
            "G fill 47502932 1",
            "G fill d1ccf6e9 1",
            "G fill aaf95334 1",
            "G fill 6252e503 1",
            "G fill 9f2ec686 1",
            "G fill 57fe6c2d 1",
            "G fill a3d95fa8 1",
            "G fill 81fdbee7 1",
            "G fill 94f0af1a 1",
        ],
    ),
    ("no place, one, and many", &["G fill 0 0", "G fill ffffffff 0", "G fill ffffffff 1", "G fill 0 b", "G fill 0 40"]),
    (
        "two adjoining parts, and the whole",
        &["G fill 1 5", "G fill cf06d60 7", "G fill 1 c", "G fill 1 0", "G fill 1 1", "G fill 3c88596c b"],
    ),
    (
        "the states of the same book, back to 0 and to the one before it",
        &["G back cbf633b1", "G back 94f0af1a", "G back 47502932", "G back 3c6ef35f", "G back 0"],
    ),
    (
        "back from the greatest state, the least, and beside the number that is added",
        &["G back ffffffff", "G back 1", "G back 80000000", "G back 3c6ef35e", "G back 3c6ef360"],
    ),
];

/// Queues of more characters than the buffer has bytes, of characters of each length, at the least buffer and beside it.
fn long_queues() -> Vec<String> {
    let mut lines = vec!["# queues longer than the buffer".to_owned()];
    for length in [135, 136, 137, 140] {
        for c in [0x61, 0xE9, 0x20AC, 0x1F600] {
            lines.push(operation(&format!("F {length:x} 80bf61"), (0..=length).map(|_| c)));
        }
    }
    lines
}
