//! The cases that document 01 names for the writer, and its corners, as one fixed script. Each stands under its name.

use super::cases::{under_names, Case, FIRST_PAGE};

pub fn script() -> Vec<String> {
    let mut lines = under_names(&WRITES);
    for held in [63, 64, 65] {
        lines.extend(color(held));
    }
    lines
}

const WRITES: [Case; 16] = [
    (
        "modes",
        &[
            "W new plain",
            "W new bom",
            "W chars 3 a",
            "W new crlf",
            "W chars 6 61 a",
            "W close",
            "W new color",
            "W chars c 1b 5b 31 6d",
            "W flush",
            "W close",
            "W close",
        ],
    ),
    (
        "an empty write spends the expectation of a start",
        &[
            "W new plain",
            "W chars 3 301",
            "W new plain",
            FIRST_PAGE,
            "W chars 0",
            "W chars 3 301",
            "W flush",
            "W abandon",
        ],
    ),
    (
        "5 keeps all and spends the expectation",
        &[
            "P 1 1 300 0 34e 377",
            "W new plain",
            "W chars 6 301 61",
            "W chars 4 a",
            "W chars 5 a",
            "W close",
            FIRST_PAGE,
        ],
    ),
    ("kept after 4", &["W new plain", "W chars 9 61 62 7f", "W places 4", "W chars 4 a", "W chars 5 a", "W places 4"]),
    ("a put 34F stays kept", &["W new plain", "W chars 6 378 7f", "W chars 6 a"]),
    ("1A unassigned", &["P 0 2 0 1b 19 377", "W new plain", "W chars 3 7f", "W chars 4 a", FIRST_PAGE]),
    ("0D 0A stay kept", &["W new crlf", "W chars 9 61 a 7f", "W chars 6 a"]),
    (
        "an escape in progress is not kept",
        &[
            "W new color",
            "W chars c 61 1b 5b 41",
            "W chars 9 1b 5b",
            "W chars 5 7f",
            "W chars 3 1b",
            "W flush",
            "W close",
        ],
    ),
    (
        "bytes",
        &[
            "W new plain",
            "W bytes 0 ff",
            "W bytes 3 61 ff",
            "W bytes 3 e9",
            "W bytes 2 c3 a9",
            "W bytes 3 c3 a9 a",
            "W bytes 0",
            "W bytes 3 a ff",
        ],
    ),
    (
        "bytes that are cut off",
        &["W new plain", "W bytes 3 e2 82", "W bytes 3 61 e2 82", "W bytes 3 a f0 9f 8f", "W bytes 3 f0 9f 8f bb"],
    ),
    (
        "bytes with an escape in progress",
        &[
            "W new color",
            "W bytes 6 1b 5b",
            "W bytes 1 ff",
            "W bytes 6 1b 5b",
            "W bytes 4 31",
            "W bytes 5 31 e2 82",
            "W bytes 9 6d c3",
            "W bytes 3 a ff",
        ],
    ),
    (
        "bytes behind a kept 34F",
        &["W new plain", "W bytes 6 cd b8 7f", "W bytes 5 61 ff", "W bytes 6 ff", "W bytes 6 61 ff", "W places 5"],
    ),
    (
        "each reason",
        &[
            "W new plain",
            "W chars 3 7f",
            "W chars 3 206a",
            "W chars 3 1b",
            "W chars 3 202a",
            "W chars 3 fff9",
            "W chars 3 e0001",
            "W chars 3 2028",
            "W chars 3 fffe",
            "W chars 3 2029",
            "W chars 3 feff",
            "W chars 3 fffc",
            "W chars 3 17b4",
            "W chars 3 17d8",
            "W chars 3 fb03",
            "W chars 3 2126",
            "W chars 3 212a",
            "W chars 3 212b",
            "W chars 3 a",
            "W new color",
            "W chars 9 1b 5b 1b",
            "W chars 9 1b 5c",
        ],
    ),
    (
        "flush and close after a non-end",
        &[
            "P 0 1 0 10ffff",
            "W new plain",
            "W chars 3 600",
            "W flush",
            "W chars 3 600",
            "W close",
            "W close",
            "W chars 3 61",
            "W flush",
            "W close",
            FIRST_PAGE,
        ],
    ),
    (
        "false claims",
        &[
            "W new plain",
            "W held 1",
            "W chars 0",
            "W flush",
            "W close",
            "W held ffffffff",
            "W bytes 0 ff",
            "W held -",
            "W chars 3 a",
            "W held 41",
            "W abandon",
            "W close",
        ],
    ),
    (
        "9 before 2, 2 before 1, 1 before 8, 3 before 8",
        &[
            "W new plain",
            "P 0 0",
            "W held 1",
            "W chars 0 d800",
            "W held -",
            "W chars 0 d800",
            "W bytes 0 ff",
            FIRST_PAGE,
            "W chars 0 d800",
            "W chars 0 61",
            "W bytes 0 ff",
        ],
    ),
];

/// A color escape of so many characters, `m` the last: "color escapes of 64 and 65".
fn color(length: usize) -> [String; 4] {
    let inside = " 30".repeat(length - 3);
    [
        format!("# a color escape of {length}"),
        "W new color".to_owned(),
        format!("W chars {:x} 1b 5b{inside} 6d", 3 * length),
        "W chars 3 a".to_owned(),
    ]
}
