//! Scripts of the replay protocol, made from a seed: one kind of script to a module.

pub mod alphabet;
pub mod cases;
pub mod check;
pub mod demand;
pub mod every;
pub mod fill;
pub mod generator;
pub mod isolate;
pub mod leaves;
pub mod lent;
pub mod pages;
pub mod price;
pub mod sample;
pub mod scan;
pub mod signs;
pub mod stretches;
pub mod talk;
pub mod utf16;
pub mod utf8;
pub mod write;
pub mod write_cases;

use crate::page::real_numbers;
use crate::random::Random;

/// The kinds of script, each with what its answers must have, or nothing of that kind was compared: the operations and the
/// refusals. `P wrong` is a page that is not accepted. `A check` has its answer behind it: `yes`, or the fault's kind. `units` after
/// an operation: A.5's option is on, and a scanner's call has one of its signs. `long`: on `LONG` characters at least it succeeds with
/// exactly the places that it needs, or checks or fills them. `long short`: with one place less it is refused by 8. `32 picks`: the
/// generator filled places with so many different characters. `1000000 seeds`: from so many different seeds at least.
pub const KINDS: [(&str, &str, &[u32]); 19] = [
    ("pages", "P, P wrong", &[]),
    ("utf8", "L utf8", &[]),
    (
        "every",
        "P, L check, L check units, L end, L replace, L replace units, L start, A check yes, A check char, A check start, A check end",
        &[1, 4],
    ),
    ("leaves", "P, P wrong, L check, L check units, L end, L replace, L replace units, L start", &[1, 2, 4]),
    ("isolate", "P, P wrong, L isolate, L isolate long, L isolate long short", &[1, 2, 8]),
    ("scan", "P, P wrong, S count, S fin, S new, S scan, S scan units, S scan long, S scan long short", &[1, 2, 8, 10]),
    (
        "price",
        "P, P wrong, S ask, S ask units, S commit, S commit units, S commit long, S commit long short, S count, S fin, S new, S scan, \
         S scan units",
        &[1, 2, 8, 10],
    ),
    ("fill", "F", &[1, 7]),
    ("generator", "G fill, G fill long, G back, 32 picks, 1000000 seeds", &[]),
    (
        "check",
        "P, P wrong, A check yes, A check char, A check start, A check end, A check newline, A check yes long, \
         A check char long, A check newline long",
        &[1, 2],
    ),
    (
        "utf16",
        "U16 dec, U16 dec long, U16 dec long short, U16 enc, U16 enc long, U16 enc long short",
        &[1, 8, 14, 15],
    ),
    ("units", "U16 dec, U16 enc", &[15]),
    (
        "cases",
        "P, P wrong, L check, L check units, L end, L isolate, L replace, L replace units, L start, S ask, S ask units, S commit, \
         S commit units, S count, S fin, S new, S scan, S scan units, F, A check yes, A check char, W bytes, W chars, W new, \
         G fill, G back",
        &[1, 2, 4, 7, 8, 10],
    ),
    (
        "write",
        "P, P wrong, W abandon, W bytes, W bytes long, W bytes long short, W chars, W chars long, W chars long short, W close, \
         W flush, W held, W new, W places",
        &[1, 2, 3, 4, 5, 6, 8, 9, 11, 12, 13],
    ),
    (
        "write-cases",
        "P, P wrong, W abandon, W bytes, W chars, W close, W flush, W held, W new, W places",
        &[1, 2, 3, 4, 5, 6, 8, 9, 11, 12, 13],
    ),
    (
        "demand",
        "P, P wrong, S commit, S commit units, S commit long, S fin, S new, S scan, S scan units, S scan long, W chars, W chars long, \
         W close, W new, L isolate, L isolate long, A check yes, A check char",
        &[1, 2, 4, 8],
    ),
    (
        "stretches",
        "P, P wrong, L isolate, L utf8, S ask, S ask units, S commit, S commit units, S new, S scan, S scan units, W abandon, W bytes, \
         W chars, W close, W flush, W new",
        &[1, 2, 3, 4, 5, 8, 12],
    ),
    (
        "real",
        "P, L isolate, S ask, S ask units, S commit, S commit units, S count, S fin, S new, S scan, S scan units, A check yes, \
         A check start, W abandon, W bytes, W chars, W close, W flush, W held, W new, W places",
        &[1, 3, 4, 5, 6, 8, 9, 10, 11, 12, 13],
    ),
    ("sample", "P, P wrong, L utf8", &[]),
];

/// A call on so many characters is a long one.
pub const LONG: usize = 1_000;

/// The lines of a script.
pub type Lines = Box<dyn Iterator<Item = String>>;

/// `count` operations of a kind; none if there is no such kind. `cases` and `write-cases` are whole whatever the count, in
/// `every` and `units` the count is a step, one character in so many, in `sample` it is that of the random ones, in `generator`
/// that of the seeds, and `real` has so many of each of its five kinds. `demand` ends with a whole text, past the count.
pub fn script(kind: &str, seed: u64, count: usize) -> Option<Lines> {
    match kind {
        "every" => Some(Box::new(every::script(seed, count))),
        "units" => Some(Box::new(utf16::units(count.max(1)))),
        "generator" => Some(Box::new(generator::script(seed, count))),
        "stretches" => Some(Box::new(stretches::script(seed, count))),
        "real" => Some(Box::new(with_real_page(seed, count))),
        _ => drawn(kind, seed, count).map(|lines| Box::new(lines.into_iter()) as Lines),
    }
}

/// The kinds that are made as a whole.
fn drawn(kind: &str, seed: u64, count: usize) -> Option<Vec<String>> {
    let mut random = Random::new(seed);
    let random = &mut random;
    let lines = match kind {
        "cases" => cases::script(),
        "pages" => pages::script(random, count),
        "utf8" => utf8::script(random, count),
        "leaves" => leaves::script(random, count),
        "isolate" => isolate::script(random, count),
        "scan" => scan::script(random, count),
        "price" => price::script(random, count),
        "fill" => fill::script(random, count),
        "check" => check::script(random, count),
        "utf16" => utf16::script(random, count),
        "write-cases" => write_cases::script(),
        "write" => write::script(random, count),
        "demand" => demand::script(random, count),
        "sample" => sample::script(random, count),
        _ => return None,
    };
    Some(lines)
}

/// The operations of five kinds, with the real page in the place of every other.
fn with_real_page(seed: u64, count: usize) -> impl Iterator<Item = String> {
    let lines = ["isolate", "scan", "price", "check", "write"]
        .into_iter()
        .filter_map(move |kind| drawn(kind, seed, count))
        .flatten();
    std::iter::once(real_page_line()).chain(lines.filter(|line| !line.starts_with('P')))
}

/// The operation of a page.
pub fn page_line(numbers: &[u32]) -> String {
    operation("P", numbers.iter().copied())
}

/// The operation of the real page.
pub fn real_page_line() -> String {
    page_line(&real_numbers())
}

/// The operation that decodes bytes.
pub fn utf8_line(bytes: &[u8]) -> String {
    operation("L utf8", bytes.iter().copied().map(u32::from))
}

/// Words, then numbers.
pub fn operation(words: &str, numbers: impl IntoIterator<Item = u32>) -> String {
    let mut line = words.to_owned();
    for number in numbers {
        line.push_str(&format!(" {number:x}"));
    }
    line
}
