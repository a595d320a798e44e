//! The generated volume of n modules (docs/FORMATS.md, "A built volume").
use crate::bytes::{round_up, Guid};
use crate::guids::{DXE_IPL, FFS2};

const LENGTH: usize = 2 << 20;
const HEADER: usize = 72;
pub const PLAN: &[u8] = b"temp 0x80000000 0x10000\nram 0x40000000 0x4000000\nvolume 0xff000000 generated\nfuel 100000\n";

fn named(kind: u32, number: usize) -> Guid {
    let mut guid = [0; 16];
    guid[..4].copy_from_slice(&kind.to_le_bytes());
    guid[8..].copy_from_slice(&(number as u64).to_be_bytes());
    Guid(guid)
}

pub fn number_of(name: &Guid) -> u64 {
    u64::from_be_bytes(name.0[8..].try_into().unwrap())
}

fn section(file: &mut Vec<u8>, kind: u8, body: &[u8]) {
    file.resize(round_up(file.len(), 4), 0);
    file.extend_from_slice(&(4 + body.len() as u32).to_le_bytes()[..3]);
    file.push(kind);
    file.extend_from_slice(body);
}

fn script(number: usize, count: usize) -> Vec<u8> {
    let mut actions: Vec<Vec<u8>> = Vec::new();
    let set = |register: u8, value: u64| [&[0x01, register][..], &value.to_le_bytes()].concat();
    let desc = |register: u8, guid: Guid, value: u8| [&[0x08, register, 0, 0][..], &guid.0, &[value]].concat();
    let install = |register: u8| vec![0x09, 1, register];
    actions.extend([set(0, number as u64), desc(1, named(2, number), 0), install(1)]);
    if number == 0 {
        actions.extend([set(2, 0x4000_0000), set(3, 0x40_0000), vec![0x0E, 2, 3]]);
    }
    if number == count - 1 {
        actions.extend([set(4, 0), desc(5, DXE_IPL, 4), install(5)]);
    }
    actions.push(vec![0x13, 0]);
    [b"PIAS\x01\x01\x01\x00", &(actions.len() as u16).to_le_bytes()[..], &actions.concat()].concat()
}

/// The volume of so many modules.
pub fn volume(count: usize) -> Vec<u8> {
    let mut volume = vec![0; 16];
    volume.extend_from_slice(&FFS2.0);
    volume.extend_from_slice(&(LENGTH as u64).to_le_bytes());
    volume.extend_from_slice(b"_FVH\x00\x08\x00\x00");
    volume.extend_from_slice(&[HEADER as u8, 0, 0, 0, 0, 0, 0, 2]);
    volume.extend_from_slice(&1u32.to_le_bytes());
    volume.extend_from_slice(&(LENGTH as u32).to_le_bytes());
    volume.extend_from_slice(&[0; 8]);
    let sum = volume.chunks(2).fold(0u16, |sum, word| sum.wrapping_add(u16::from_le_bytes([word[0], word[1]])));
    volume[50..52].copy_from_slice(&sum.wrapping_neg().to_le_bytes());
    for number in (0..count).rev() {
        let mut body = Vec::new();
        if number != 0 {
            section(&mut body, 0x1B, &[&[2][..], &named(2, (number - 1) / 2).0, &[8]].concat());
        }
        section(&mut body, 0x19, &script(number, count));
        volume.resize(round_up(volume.len(), 8), 0xFF);
        let mut header = [0u8; 24];
        header[..16].copy_from_slice(&named(1, number).0);
        header[18] = 6;
        header[20..23].copy_from_slice(&(24 + body.len() as u32).to_le_bytes()[..3]);
        header[16] = header.iter().fold(0u8, |sum, byte| sum.wrapping_add(*byte)).wrapping_neg();
        (header[17], header[23]) = (0xAA, 0xF8);
        volume.extend_from_slice(&header);
        volume.extend_from_slice(&body);
    }
    volume.resize(LENGTH, 0xFF);
    volume
}
