//! Little-endian numbers, and GUIDs as they are stored and as text.
use std::fmt;

pub fn u16_at(bytes: &[u8], at: usize) -> u16 {
    u16::from_le_bytes(bytes[at..at + 2].try_into().unwrap())
}

pub fn u24_at(bytes: &[u8], at: usize) -> usize {
    bytes[at] as usize | (bytes[at + 1] as usize) << 8 | (bytes[at + 2] as usize) << 16
}

pub fn u32_at(bytes: &[u8], at: usize) -> u32 {
    u32::from_le_bytes(bytes[at..at + 4].try_into().unwrap())
}

pub fn u64_at(bytes: &[u8], at: usize) -> u64 {
    u64::from_le_bytes(bytes[at..at + 8].try_into().unwrap())
}

pub fn put_u64(bytes: &mut [u8], at: usize, number: u64) {
    bytes[at..at + 8].copy_from_slice(&number.to_le_bytes());
}

/// The least multiple of the unit that is not below the place.
pub fn round_up(place: usize, unit: usize) -> usize {
    place.div_ceil(unit) * unit
}

/// A GUID in the order of its stored bytes.
#[derive(Clone, Copy, PartialEq, Eq, Hash, PartialOrd, Ord, Debug)]
pub struct Guid(pub [u8; 16]);

impl Guid {
    pub fn at(bytes: &[u8], at: usize) -> Guid {
        Guid(bytes[at..at + 16].try_into().unwrap())
    }

    /// The GUID of a text in lower case; none where it is no such text.
    pub fn parse(text: &[u8]) -> Option<Guid> {
        const DASHES: [usize; 4] = [8, 13, 18, 23];
        // The stored byte that each pair of digits spells.
        const ORDER: [usize; 16] = [3, 2, 1, 0, 5, 4, 7, 6, 8, 9, 10, 11, 12, 13, 14, 15];
        if text.len() != 36 || DASHES.iter().any(|&at| text[at] != b'-') {
            return None;
        }
        let digits: Vec<u8> = (0..36).filter(|at| !DASHES.contains(at)).map(|at| text[at]).collect();
        let mut stored = [0; 16];
        for (pair, &to) in digits.chunks(2).zip(&ORDER) {
            stored[to] = lower_hex(pair[0])? << 4 | lower_hex(pair[1])?;
        }
        Some(Guid(stored))
    }
}

/// What a digit of lower-case hexadecimal stands for.
pub fn lower_hex(digit: u8) -> Option<u8> {
    match digit {
        b'0'..=b'9' => Some(digit - b'0'),
        b'a'..=b'f' => Some(digit - b'a' + 10),
        _ => None,
    }
}

impl fmt::Display for Guid {
    fn fmt(&self, out: &mut fmt::Formatter) -> fmt::Result {
        const ORDER: [usize; 16] = [3, 2, 1, 0, 5, 4, 7, 6, 8, 9, 10, 11, 12, 13, 14, 15];
        let mut text = [b'-'; 36];
        let mut at = 0;
        for (number, &from) in ORDER.iter().enumerate() {
            if [4, 6, 8, 10].contains(&number) {
                at += 1;
            }
            text[at] = HEX[(self.0[from] >> 4) as usize];
            text[at + 1] = HEX[(self.0[from] & 15) as usize];
            at += 2;
        }
        out.write_str(std::str::from_utf8(&text).unwrap())
    }
}

pub const HEX: &[u8; 16] = b"0123456789abcdef";

/// Bytes as lower-case hexadecimal digits.
pub struct Hex<'a>(pub &'a [u8]);

impl fmt::Display for Hex<'_> {
    fn fmt(&self, out: &mut fmt::Formatter) -> fmt::Result {
        let mut text = String::with_capacity(2 * self.0.len());
        for byte in self.0 {
            text.push(HEX[(byte >> 4) as usize] as char);
            text.push(HEX[(byte & 15) as usize] as char);
        }
        out.write_str(&text)
    }
}
