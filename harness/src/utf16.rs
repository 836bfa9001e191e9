//! UTF-16, document 02, A.3, by `char::decode_utf16` and `char::encode_utf16`: what the request adds to them is the bytes of a unit,
//! the refusals and the places.

use crate::words::characters;

/// "with the order given by the caller"
#[derive(Clone, Copy)]
pub enum Order {
    Little,
    Big,
}

impl Order {
    pub fn named(word: &str) -> Option<Self> {
        match word {
            "le" => Some(Self::Little),
            "be" => Some(Self::Big),
            _ => None,
        }
    }

    fn unit(self, bytes: [u8; 2]) -> u16 {
        match self {
            Self::Little => u16::from_le_bytes(bytes),
            Self::Big => u16::from_be_bytes(bytes),
        }
    }

    pub fn bytes(self, unit: u16) -> [u8; 2] {
        match self {
            Self::Little => unit.to_le_bytes(),
            Self::Big => unit.to_be_bytes(),
        }
    }
}

/// Why bytes are not read: an unpaired surrogate with its place, or another number.
pub enum Refusal {
    Number(u32),
    Unpaired(usize),
}

/// "14 for an odd number of bytes, then 15 for an unpaired surrogate, with the first such unit's place counted from 0, then 8 for lack of
/// room". "Reading needs one place for each character decoded."
pub fn decode(order: Order, room: usize, bytes: &[u8]) -> Result<Vec<char>, Refusal> {
    if bytes.len() % 2 == 1 {
        return Err(Refusal::Number(14));
    }
    let units = bytes.chunks_exact(2).map(|pair| order.unit([pair[0], pair[1]]));
    let mut place = 0;
    let mut read = Vec::new();
    for decoded in char::decode_utf16(units) {
        let c = decoded.map_err(|_| Refusal::Unpaired(place))?;
        place += c.len_utf16();
        read.push(c);
    }
    if room < read.len() {
        return Err(Refusal::Number(8));
    }
    Ok(read)
}

/// "Writing needs 4 bytes of room for each character and gives 1 and 8 as elsewhere."
pub fn encode(order: Order, room: usize, values: &[u32]) -> Result<Vec<u8>, u32> {
    let text = characters(values).ok_or(1u32)?;
    if room < 4 * text.len() {
        return Err(8);
    }
    Ok(text.into_iter().flat_map(|c| bytes_of(order, c)).collect())
}

/// The bytes of a character's units.
pub fn bytes_of(order: Order, c: char) -> Vec<u8> {
    c.encode_utf16(&mut [0; 2]).iter().flat_map(|unit| order.bytes(*unit)).collect()
}
