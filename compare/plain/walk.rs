//! The files of a volume as EDK2's two cores find them, for the rule `file-walk`: PEI's search ends at a fault, DXE refuses the volume.
use crate::bytes::*;
use crate::volume::{sum8, File};

/// What the two cores find.
pub struct Walks {
    pub files: Vec<File>,
    /// A wrong sum ended PEI's search, which EDK2 asserts.
    pub pei_asserts: bool,
    pub dxe_refuses: bool,
}

/// Where the two cores find files; a file that one of them alone finds is told so.
pub fn walk(bytes: &[u8], at: usize, erased: u8) -> Walks {
    let (in_pei, pei_asserts) = found_in_pei(bytes, at, erased);
    let in_dxe = found_in_dxe(bytes, at, erased);
    let mut places: Vec<usize> = in_pei.iter().chain(in_dxe.iter().flatten()).copied().collect();
    places.sort_unstable();
    places.dedup();
    let file = |&at: &usize| File {
        at,
        name: Guid::at(bytes, at),
        kind: bytes[at + 18],
        begin: at + 24,
        end: at + u24_at(bytes, at + 20),
        found: [in_pei.contains(&at), in_dxe.as_ref().is_some_and(|found| found.contains(&at))],
    };
    Walks { files: places.iter().map(file).collect(), pei_asserts, dxe_refuses: in_dxe.is_none() }
}

fn found_in_pei(bytes: &[u8], mut at: usize, erased: u8) -> (Vec<usize>, bool) {
    let mut found = Vec::new();
    while at + 24 < bytes.len() {
        match highest_bit(bytes[at + 23] ^ erased) {
            0x01 | 0x20 => at += header_length(bytes, at),
            0x04 | 0x08 => {
                if !header_holds(bytes, at) || !body_holds(bytes, at) {
                    return (found, true);
                }
                found.push(at);
                at = behind(bytes, at);
            }
            0x10 if behind(bytes, at) > at => at = behind(bytes, at),
            _ => break,
        }
    }
    (found, false)
}

/// None where the volume is refused.
fn found_in_dxe(bytes: &[u8], mut at: usize, erased: u8) -> Option<Vec<usize>> {
    let mut found = Vec::new();
    while at + 24 <= bytes.len() && bytes[at..at + 24].iter().any(|byte| *byte != erased) {
        let state = highest_bit(bytes[at + 23] ^ erased);
        match state {
            0x01 | 0x20 => at += header_length(bytes, at),
            0x04 | 0x08 | 0x10 if behind(bytes, at) > at && header_holds(bytes, at) && body_holds(bytes, at) => {
                if state != 0x10 {
                    found.push(at);
                }
                at = behind(bytes, at);
            }
            _ => return None,
        }
    }
    Some(found)
}

fn highest_bit(state: u8) -> u8 {
    state.checked_ilog2().map_or(0, |bit| 1 << bit)
}

fn header_length(bytes: &[u8], at: usize) -> usize {
    if bytes[at + 19] & 0x01 != 0 {
        32
    } else {
        24
    }
}

/// Where the next file begins. Of a deleted file of size 0 EDK2's cores come to no end.
fn behind(bytes: &[u8], at: usize) -> usize {
    round_up(at + u24_at(bytes, at + 20), 8)
}

fn header_holds(bytes: &[u8], at: usize) -> bool {
    let end = at + header_length(bytes, at);
    end <= bytes.len() && sum8(&bytes[at..end]).wrapping_sub(bytes[at + 17]).wrapping_sub(bytes[at + 23]) == 0
}

fn body_holds(bytes: &[u8], at: usize) -> bool {
    let (begin, end) = (at + 24, at + u24_at(bytes, at + 20));
    if bytes[at + 19] & 0x40 == 0 {
        return bytes[at + 17] == 0xAA;
    }
    begin <= end && end <= bytes.len() && sum8(&bytes[begin..end]).wrapping_add(bytes[at + 17]) == 0
}
