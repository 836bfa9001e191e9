//! The characters that are timed, equal in every run.

use crate::ours;
use harness::check_basic_text_char;
use harness::random::Random;

const ASCII: &str = "The quick brown fox jumps over the lazy dog, and then (at 10:45) it sleeps; let x = 42; \
    https://example.org/a?b=c A text of plain letters, digits 0123456789 and signs.";

const LATIN: &str = "Portez ce vieux whisky au juge blond qui fume sur son île intérieure, à côté de l'alcôve ovoïde. \
    Zwölf Boxkämpfer jagen Viktor quer über den großen Sylter Deich. Pchnąć w tę łódź jeża lub ośm skrzyń fig. \
    Příliš žluťoučký kůň úpěl ďábelské ódy. El pingüino añoraba a su querido cachorro. Árvíztűrő tükörfúrógép.";

const DEVANAGARI: &str = "सभी मनुष्यों को गौरव और अधिकारों के मामले में जन्मजात स्वतन्त्रता और समानता प्राप्त है। उन्हें बुद्धि और \
    अन्तरात्मा की देन प्राप्त है और परस्पर उन्हें भाईचारे के भाव से बर्ताव करना चाहिए।";

/// An input: its name, and so many characters of it.
pub struct Input {
    pub name: &'static str,
    pub text: fn(usize) -> Vec<char>,
}

/// One set for all rows.
pub const INPUTS: [Input; 6] = [
    Input { name: "ASCII", text: |count| words(ASCII, "\n", count) },
    Input { name: "Latin CRLF", text: |count| words(LATIN, "\r\n", count) },
    Input { name: "CJK", text: |count| characters(cjk, count) },
    Input { name: "Devanagari", text: |count| words(DEVANAGARI, "\n", count) },
    Input { name: "awkward", text: awkward },
    Input { name: "random", text: |count| characters(|random| between(random, 0, 0x10FFFF), count) },
];

/// The two on which the time of one call is followed as it grows: long stretches of plain characters, and none.
pub const GROWING: [&Input; 2] = [&INPUTS[0], &INPUTS[4]];

/// A text without the characters that a plain writer refuses. Of CRLF it leaves LF.
pub fn writable(mut text: Vec<char>) -> Vec<char> {
    text.retain(|c| *c != '\u{1B}' && check_basic_text_char(*c).is_ok());
    text
}

/// Such a text cut into runs of a size, each of which gets yes from the check of a run: its first character is a letter, its last
/// a newline.
pub fn keeping(text: Vec<char>, size: usize) -> Vec<char> {
    let mut text = writable(text);
    for run in text.chunks_mut(size) {
        run[0] = 'a';
        run[run.len() - 1] = '\n';
    }
    text
}

/// Words of a text in random order, with a line end now and then.
fn words(text: &str, line_end: &str, count: usize) -> Vec<char> {
    let random = &mut Random::new(5);
    let list: Vec<&str> = text.split_whitespace().collect();
    let mut chars = Vec::with_capacity(count + 100);
    while chars.len() < count {
        chars.extend(random.pick(&list).chars());
        chars.extend(if random.once_in(60) { line_end } else { " " }.chars());
    }
    chars.truncate(count);
    chars
}

fn characters(next: fn(&mut Random) -> char, count: usize) -> Vec<char> {
    let random = &mut Random::new(6);
    (0..count).map(|_| next(random)).collect()
}

/// What the port's generator fills from the seed 7 (document 02, A.6): nearly each character takes another way through the scanner.
fn awkward(count: usize) -> Vec<char> {
    let mut places = vec![0; count];
    ours::fill(7, &mut places);
    places.into_iter().map(|c| char::from_u32(c).expect("a character of the list")).collect()
}

/// Most are ideographs; some are kana, Hangul and signs.
fn cjk(random: &mut Random) -> char {
    match random.below(20) {
        0 => '。',
        1 => '、',
        2..=6 => between(random, 0x3041, 0x3093),
        7 => between(random, 0xAC00, 0xD7A3),
        _ => between(random, 0x4E00, 0x9FA5),
    }
}

/// A character from `low` to `high`.
fn between(random: &mut Random, low: u32, high: u32) -> char {
    loop {
        if let Some(c) = char::from_u32(random.between(low, high)) {
            return c;
        }
    }
}
