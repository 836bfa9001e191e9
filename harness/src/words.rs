//! The words of the replay protocol: numbers read and lists written.

/// What is wrong with an operation: the word after `?`.
pub type Fault = &'static str;

/// "A line has at most 98,304 bytes and 9,000 numbers".
pub const MOST_BYTES: usize = 98_304;
pub const MOST_NUMBERS: usize = 9_000;

/// "Empty lines and lines that begin with `#` get no answer."
pub fn is_operation(line: &str) -> bool {
    !line.is_empty() && !line.starts_with('#')
}

/// A number: hexadecimal, lower case, without a prefix, at most ffffffff.
pub fn number(word: &str) -> Result<u32, Fault> {
    let is_digit = |b: u8| matches!(b, b'0'..=b'9' | b'a'..=b'f');
    if word.is_empty() || !word.bytes().all(is_digit) {
        return Err("word");
    }
    u32::from_str_radix(word, 16).map_err(|_| "number")
}

/// The numbers of all words.
pub fn numbers(words: &[&str]) -> Result<Vec<u32>, Fault> {
    if words.len() > MOST_NUMBERS {
        return Err("numbers");
    }
    words.iter().map(|word| number(word)).collect()
}

/// The bytes of all words.
pub fn bytes(words: &[&str]) -> Result<Vec<u8>, Fault> {
    let values = numbers(words)?;
    values.into_iter().map(|value| u8::try_from(value).map_err(|_| "byte")).collect()
}

/// Bytes written as pairs of hexadecimal digits without blanks.
pub fn pairs(word: &str) -> Result<Vec<u8>, Fault> {
    if word.len() & 1 == 1 || !word.is_ascii() {
        return Err("pattern");
    }
    let pair = |at: usize| number(&word[at..at + 2]).map(|value| value as u8);
    (0..word.len()).step_by(2).map(pair).collect()
}

/// The characters that the values are; none if one of them is no character.
pub fn characters(values: &[u32]) -> Option<Vec<char>> {
    values.iter().map(|value| char::from_u32(*value)).collect()
}

/// A list of numbers: joined by commas, `-` for an empty one.
pub fn list(values: impl IntoIterator<Item = u32>) -> String {
    let words: Vec<String> = values.into_iter().map(|value| format!("{value:x}")).collect();
    or_dash(words.join(","))
}

/// The numbers of the list after `out=` in an answer; none if it has no such list.
pub fn listed(answer: &str) -> Vec<u32> {
    let list = answer.split(' ').find_map(|word| word.strip_prefix("out="));
    list.into_iter().flat_map(|list| list.split(',')).filter_map(|word| number(word).ok()).collect()
}

/// The number after `n=` in an answer: of asking the places that a chunk fills, of a call the characters that it wrote.
pub fn numbered(answer: &str) -> Option<usize> {
    let number = answer.split(' ').find_map(|word| word.strip_prefix("n="))?;
    usize::from_str_radix(number, 16).ok()
}

/// A list of characters.
pub fn characters_list(characters: &[char]) -> String {
    list(characters.iter().copied().map(u32::from))
}

/// Bytes as pairs of digits, `-` for none.
pub fn bytes_list(bytes: &[u8]) -> String {
    or_dash(bytes.iter().map(|byte| format!("{byte:02x}")).collect())
}

fn or_dash(text: String) -> String {
    if text.is_empty() {
        "-".to_owned()
    } else {
        text
    }
}
