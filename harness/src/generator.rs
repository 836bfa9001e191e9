//! The generator of awkward text, document 02, A.6, in plain arithmetic.

const FACTOR: u32 = 1_664_525;
const ADDEND: u32 = 1_013_904_223;

/// "this list of 32", "in hexadecimal"
const LIST: [u32; 32] = [
    0x61, 0x0A, 0x0D, 0x0C, 0x1B, 0x5B, 0x5D, 0x07, 0x18, 0x31, 0x6D, 0x48, 0x20, 0xE9, 0x301, 0x200D, 0xFB03, 0x2028,
    0x85, 0xFEFF, 0x2126, 0x378, 0x34F, 0x600, 0x903, 0x1F3FB, 0x10FFFF, 0x7F, 0x40, 0x3F, 0x7E, 0x9,
];

/// "A 32-bit state is multiplied and added modulo 2^32: the next is 1,664,525 × state + 1,013,904,223."
pub fn next(state: u32) -> u32 {
    FACTOR.wrapping_mul(state).wrapping_add(ADDEND)
}

/// "Each step picks from this list of 32 by the top five bits of the new state". "The generator fills a lent slice and hands back its
/// state."
pub fn fill(mut state: u32, places: &mut [u32]) -> u32 {
    for place in places {
        state = next(state);
        *place = LIST[(state >> 27) as usize];
    }
    state
}

/// "It also steps a state back to the one before."
pub fn back(state: u32) -> u32 {
    inverse(FACTOR).wrapping_mul(state.wrapping_sub(ADDEND))
}

/// What an odd number is to be multiplied by to give 1 modulo 2^32, by Newton's iteration: the number is its own inverse in the
/// lowest 3 bits, and each step doubles how many are right, to 6, 12, 24 and all.
fn inverse(odd: u32) -> u32 {
    (0..4).fold(odd, |found, _| found.wrapping_mul(2u32.wrapping_sub(odd.wrapping_mul(found))))
}
