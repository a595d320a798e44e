//! GUIDs that meet in the hash table in which the handles of a protocol are found, a line each.
//!
//! The hasher's seed is fixed, so whoever writes a volume can search for such GUIDs. Their hashes agree in the low bits, which say where a look-up
//! begins in a table of up to 2^PLACE_BITS groups, and in the tag, by which a look-up tells the entries of a group: so each look-up goes through
//! all of them.
//!
//!     meeting_guids COUNT

const SEED: u64 = 0x243F_6A88_85A3_08D3;
const MULTIPLIER: u64 = 0x9E37_79B9_7F4A_7C15;
const PLACE_BITS: u32 = 10;
const TAG: u32 = 0x5A;

/// The hasher's state after `length` bytes, of which `number` is the short reading.
fn step(state: u64, number: u64, length: u64) -> u64 {
    let product = u128::from(state ^ number) * u128::from(MULTIPLIER ^ 2 * length);
    product as u64 ^ (product >> 64) as u64
}

fn after_byte(state: u64, byte: u8) -> u64 {
    step(state, u64::from(byte) * 0x01_0101, 1)
}

fn meets(state: u64) -> bool {
    let hash = (state ^ state >> 32) as u32;
    hash & ((1 << PLACE_BITS) - 1) == 0 && hash >> 24 == TAG
}

fn print_guid(bytes: [u8; 16]) {
    let [a, b, c, d, e, f, g, h, tail @ ..] = bytes;
    let hex = |bytes: &[u8]| bytes.iter().map(|byte| format!("{byte:02x}")).collect::<String>();
    println!("{}-{}-{}-{}-{}", hex(&[d, c, b, a]), hex(&[f, e]), hex(&[h, g]), hex(&tail[..2]), hex(&tail[2..]));
}

fn main() {
    let mut left: usize = std::env::args().nth(1).and_then(|word| word.parse().ok()).expect("a number of GUIDs");
    for number in 0u64.. {
        let mut bytes = [0; 16];
        bytes[..8].copy_from_slice(&number.to_le_bytes());
        let front = bytes[..14].iter().fold(step(SEED, 16, 8), |state, byte| after_byte(state, *byte));
        for last in 0..=u16::MAX {
            let [low, high] = last.to_le_bytes();
            if meets(after_byte(after_byte(front, low), high)) {
                bytes[14..].copy_from_slice(&last.to_le_bytes());
                print_guid(bytes);
                left -= 1;
                if left == 0 {
                    return;
                }
            }
        }
    }
}
