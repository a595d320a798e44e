//! Firmware volumes, their files, and the sections of a file (docs/FORMATS.md, "Firmware volume", "Files", "Sections").
use crate::bytes::*;
use crate::guids::{FFS2, FFS3};
use crate::rules::rules;
use crate::walk::{walk, Walks};

/// A fault's cause, and its offset in the bytes that were read.
#[derive(Debug)]
pub struct Fault(pub &'static str, pub usize);

pub struct File {
    pub at: usize,
    pub name: Guid,
    pub kind: u8,
    pub begin: usize,
    pub end: usize,
    /// Whether PEI and DXE find it.
    pub found: [bool; 2],
}

pub struct Volume {
    pub length: u64,
    pub name: Option<Guid>,
    pub files: Vec<File>,
    /// By EDK2's rule: PEI asserts where its search ends, and DXE refuses the volume.
    pub pei_asserts: bool,
    pub dxe_refuses: bool,
}

const MOST_FILES: usize = 16_384;
const PAD: u8 = 0xF0;

pub fn sum8(bytes: &[u8]) -> u8 {
    bytes.iter().fold(0, |sum, byte| sum.wrapping_add(*byte))
}

pub fn read_volume(bytes: &[u8]) -> Result<Volume, Fault> {
    if bytes.len() < 64 {
        return Err(Fault("Short", 0));
    }
    if &bytes[40..44] != b"_FVH" {
        return Err(Fault("Signature", 40));
    }
    if bytes[55] != 2 {
        return Err(Fault("Revision", 55));
    }
    let system = Guid::at(bytes, 16);
    if system != FFS2 && system != FFS3 {
        return Err(Fault("FileSystem", 16));
    }
    let length = u64_at(bytes, 32);
    if length > bytes.len() as u64 {
        return Err(Fault("Length", 32));
    }
    let bytes = &bytes[..length as usize];
    let header = u16_at(bytes_or_header(bytes, 64)?, 48) as usize;
    if header % 2 == 1 || header < 64 || header > bytes.len() {
        return Err(Fault("HeaderLength", 48));
    }
    if bytes[..header].chunks(2).fold(0u16, |sum, word| sum.wrapping_add(u16_at(word, 0))) != 0 {
        return Err(Fault("HeaderSum", 50));
    }
    let extended = u16_at(bytes, 52) as usize;
    let (name, first) = if extended == 0 { (None, header) } else { extended_header(bytes, header, extended)? };
    let erased = if u32_at(bytes, 44) & 0x800 != 0 { 0xFF } else { 0 };
    let first = round_up(first, 8);
    let Walks { files, pei_asserts, dxe_refuses } = if rules().file_walk {
        walk(bytes, first, erased)
    } else {
        Walks { files: read_files(bytes, first, erased, system == FFS3)?, pei_asserts: false, dxe_refuses: false }
    };
    Ok(Volume { length, name, files, pei_asserts, dxe_refuses })
}

/// A volume whose FvLength is below a header's has a HeaderLength above it.
fn bytes_or_header(bytes: &[u8], least: usize) -> Result<&[u8], Fault> {
    if bytes.len() < least {
        Err(Fault("HeaderLength", 48))
    } else {
        Ok(bytes)
    }
}

/// The volume's name, and where the extended header ends.
fn extended_header(bytes: &[u8], header: usize, at: usize) -> Result<(Option<Guid>, usize), Fault> {
    if at < header || at + 20 > bytes.len() {
        return Err(Fault("ExtHeader", 52));
    }
    let size = u32_at(bytes, at + 16) as usize;
    if size < 20 || at + size > bytes.len() {
        return Err(Fault("ExtHeader", 52));
    }
    Ok((Some(Guid::at(bytes, at)), at + size))
}

fn read_files(bytes: &[u8], mut at: usize, erased: u8, ffs3: bool) -> Result<Vec<File>, Fault> {
    let mut files = Vec::new();
    while at + 24 <= bytes.len() && bytes[at..at + 24].iter().any(|byte| *byte != erased) {
        let state = (bytes[at + 23] ^ erased) & 0x3F;
        let highest = if state == 0 { 0 } else { 1 << state.ilog2() };
        if [0, 0x01, 0x20].contains(&highest) {
            at += 24;
            continue;
        }
        let (begin, end) = file_span(bytes, at, ffs3)?;
        if highest == 0x04 || highest == 0x08 {
            let file_sum = bytes[at + 17];
            let sound = if bytes[at + 19] & 0x40 != 0 { sum8(&bytes[begin..end]).wrapping_add(file_sum) == 0 } else { file_sum == 0xAA };
            if !sound {
                return Err(Fault("DataSum", at));
            }
            if bytes[at + 18] != PAD {
                if files.len() == MOST_FILES {
                    return Err(Fault("TooManyFiles", at));
                }
                files.push(File { at, name: Guid::at(bytes, at), kind: bytes[at + 18], begin, end, found: [true; 2] });
            }
        }
        at = round_up(end, 8);
    }
    Ok(files)
}

/// Where the body of the file begins and ends whose header stands at an offset.
fn file_span(bytes: &[u8], at: usize, ffs3: bool) -> Result<(usize, usize), Fault> {
    let large = bytes[at + 19] & 0x01 != 0;
    let header = if large && ffs3 { 32 } else { 24 };
    if at + header > bytes.len() {
        return Err(Fault("FileSize", at));
    }
    let sum = sum8(&bytes[at..at + header]).wrapping_sub(bytes[at + 17]).wrapping_sub(bytes[at + 23]);
    if sum != 0 {
        return Err(Fault("FileSum", at));
    }
    let size = if header == 32 { u64_at(bytes, at + 24) } else { u24_at(bytes, at + 20) as u64 };
    if (large && !ffs3) || size < header as u64 || size > (bytes.len() - at) as u64 {
        return Err(Fault("FileSize", at));
    }
    Ok((at + header, at + size as usize))
}

pub struct Section {
    pub kind: u8,
    pub begin: usize,
    pub end: usize,
}

const MOST_SECTIONS: usize = 256;

/// The sections of a stream; offsets count from its start.
pub fn read_sections(bytes: &[u8]) -> Result<Vec<Section>, Fault> {
    let (mut sections, mut at) = (Vec::new(), 0);
    while at + 4 <= bytes.len() {
        if sections.len() == MOST_SECTIONS {
            return Err(Fault("TooMany", at));
        }
        let short = u24_at(bytes, at);
        let header = if short == 0xFF_FFFF { 8 } else { 4 };
        if at + header > bytes.len() {
            return Err(Fault("Size", at));
        }
        let size = if header == 8 { u32_at(bytes, at + 4) as usize } else { short };
        if size < header || size > bytes.len() - at {
            return Err(Fault("Size", at));
        }
        let kind = bytes[at + 3];
        match kind {
            0x01 => return Err(Fault("Compressed", at)),
            0x02 => return Err(Fault("GuidDefined", at)),
            _ => sections.push(Section { kind, begin: at + header, end: at + size }),
        }
        at = round_up(at + size, 4);
    }
    Ok(sections)
}
