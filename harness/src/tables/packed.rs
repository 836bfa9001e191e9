//! Ranges as single numbers of 32 bits (document 02, A.2), both ways: what `src/tables.rt` stores, and what it stands for.

use crate::page::{Range, LAST_CHARACTER};

/// The bits of the first character.
const BITS: u32 = 21;

/// The most characters that a number has room for.
const MOST: u32 = 1 << (u32::BITS - BITS);

/// Each range as one number, or as several where it is longer than 2,048.
pub fn pack(ranges: &[Range]) -> Vec<u32> {
    let mut numbers = Vec::new();
    for &(mut first, last) in ranges {
        while last - first >= MOST {
            numbers.push(number(first, MOST));
            first += MOST;
        }
        numbers.push(number(first, last - first + 1));
    }
    numbers
}

fn number(first: u32, length: u32) -> u32 {
    ((length - 1) << BITS) | first
}

/// The range of each number: from what the low 21 bits say, as far as what stands above them says. It shares nothing with `pack`, so that
/// a wrong constant there shows.
pub fn unpack(numbers: &[u32]) -> Vec<Range> {
    let first = |number: u32| number & 0x1F_FFFF;
    numbers.iter().map(|&number| (first(number), first(number) + (number >> 21))).collect()
}

/// The rows of `proofs/Bounds.antt` of the crate `ranges`: tables, and their numbers.
const ROWS: [(&[Range], &[u32]); 10] = [
    (&[], &[]),
    (&[(0, 0)], &[0]),
    (&[(0x5BF, 0x5BF)], &[0x5BF]),
    (&[(0x10FFFF, 0x10FFFF)], &[0x10FFFF]),
    (&[(0x300, 0x34E)], &[0x9C0_0300]),
    (&[(0x350, 0x36F)], &[0x3E0_0350]),
    (&[(0x300, 0x34E), (0x350, 0x36F)], &[0x9C0_0300, 0x3E0_0350]),
    (&[(0, 0x7FF)], &[0xFFE0_0000]),
    (&[(0, 0x800)], &[0xFFE0_0000, 0x800]),
    (
        &[(0x300, 0x34E), (0xE000, 0xF8FF), (0x10FFFF, 0x10FFFF)],
        &[0x9C0_0300, 0xFFE0_E000, 0xFFE0_E800, 0xFFE0_F000, 0x1FE0_F800, 0x10FFFF],
    ),
];

/// Ranges that no list has: so many characters, up to the last one, and how many numbers they take.
const COUNTS: [(u32, usize); 5] = [(2_048, 1), (2_049, 2), (4_096, 2), (4_097, 3), (1_114_112, 544)];

/// Packs the rows, and the long ranges, which must be read back as ranges that adjoin.
pub fn tried() -> Result<String, String> {
    for (table, numbers) in ROWS {
        let packed = pack(table);
        if packed != numbers {
            return Err(format!("{table:x?} is packed into {packed:x?}, not {numbers:x?}"));
        }
    }
    for (length, count) in COUNTS {
        let first = LAST_CHARACTER + 1 - length;
        let numbers = pack(&[(first, LAST_CHARACTER)]);
        if numbers.len() != count {
            return Err(format!("{length} characters are packed into {} numbers, not {count}", numbers.len()));
        }
        let mut next = first;
        for (from, to) in unpack(&numbers) {
            if from != next || to < from {
                return Err(format!(
                    "{length} characters: {from:x} to {to:x} does not follow what was read back before"
                ));
            }
            next = to + 1;
        }
        if next != LAST_CHARACTER + 1 {
            return Err(format!("{length} characters are read back up to {next:x}"));
        }
    }
    let shown: Vec<String> = COUNTS.iter().map(|(length, count)| format!("{length} as {count}")).collect();
    Ok(format!("packing: {} rows; characters as numbers: {}", ROWS.len(), shown.join(", ")))
}
