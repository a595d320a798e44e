//! The memory space map of a HOB list, and commands on it (docs/FORMATS.md and docs/TOOLS.md, "gcd").
use crate::bytes::*;
use crate::out::{Halt, Out};
use crate::plan::{lines_of, number};
use crate::put;
use crate::volume::Fault;
use std::collections::BTreeMap;

#[derive(Clone, Copy, PartialEq)]
pub enum Kind {
    Nonexistent,
    Reserved,
    System,
    Mmio,
}

impl Kind {
    fn parse(word: &[u8]) -> Option<Kind> {
        match word {
            b"nonexistent" => Some(Kind::Nonexistent),
            b"reserved" => Some(Kind::Reserved),
            b"system" => Some(Kind::System),
            b"mmio" => Some(Kind::Mmio),
            _ => None,
        }
    }

    fn name(self) -> &'static str {
        match self {
            Kind::Nonexistent => "nonexistent",
            Kind::Reserved => "reserved",
            Kind::System => "system",
            Kind::Mmio => "mmio",
        }
    }
}

/// What is at each address: from the first address of a range to its kind and whether it is allocated; neighbours differ.
pub struct Map {
    ranges: BTreeMap<u64, (Kind, bool)>,
    space: u64,
}

impl Map {
    fn new(bits: u8) -> Map {
        Map { ranges: BTreeMap::from([(0, (Kind::Nonexistent, false))]), space: 1 << bits }
    }

    /// The ranges that meet some addresses.
    fn over(&self, base: u64, end: u64) -> impl Iterator<Item = (Kind, bool)> + '_ {
        let (&first, _) = self.ranges.range(..=base).next_back().unwrap();
        self.ranges.range(first..end).map(|(_, what)| *what)
    }

    fn all(&self, base: u64, end: u64, test: impl Fn((Kind, bool)) -> bool) -> bool {
        self.over(base, end).all(test)
    }

    fn set(&mut self, base: u64, end: u64, what: (Kind, bool)) {
        let (_, &behind) = self.ranges.range(..=end - 1).next_back().unwrap();
        let inside: Vec<u64> = self.ranges.range(base..end).map(|(at, _)| *at).collect();
        for at in inside {
            self.ranges.remove(&at);
        }
        if end < self.space {
            self.ranges.entry(end).or_insert(behind);
            if self.ranges[&end] == what {
                self.ranges.remove(&end);
            }
        }
        if base == 0 || self.ranges.range(..base).next_back().map(|(_, before)| *before) != Some(what) {
            self.ranges.insert(base, what);
        }
    }

    fn end_of(&self, base: u64, len: u64) -> Option<u64> {
        base.checked_add(len).filter(|end| *end <= self.space)
    }

    fn add(&mut self, kind: Kind, base: u64, len: u64) -> &'static str {
        if len == 0 || kind == Kind::Nonexistent {
            return "InvalidParameter";
        }
        let Some(end) = self.end_of(base, len) else { return "Unsupported" };
        if !self.all(base, end, |(kind, _)| kind == Kind::Nonexistent) {
            return "AccessDenied";
        }
        self.set(base, end, (kind, false));
        "Success"
    }

    fn allocate(&mut self, kind: Kind, base: u64, len: u64) -> &'static str {
        if len == 0 || kind == Kind::Nonexistent {
            return "InvalidParameter";
        }
        match self.end_of(base, len) {
            Some(end) if self.all(base, end, |what| what == (kind, false)) => {
                self.set(base, end, (kind, true));
                "Success"
            }
            _ => "NotFound",
        }
    }

    fn top(&mut self, kind: Kind, align: u64, len: u64) -> Result<u64, &'static str> {
        if len == 0 || kind == Kind::Nonexistent || align > 52 {
            return Err("InvalidParameter");
        }
        let base = self.greatest(kind, align, len).ok_or("NotFound")?;
        self.set(base, base + len, (kind, true));
        Ok(base)
    }

    /// The greatest multiple of 2^align at which so many free addresses of the kind begin.
    fn greatest(&self, kind: Kind, align: u64, len: u64) -> Option<u64> {
        let mut end = self.space;
        for (&begin, &what) in self.ranges.iter().rev() {
            if what == (kind, false) && end - begin >= len {
                let base = (end - len) >> align << align;
                if base >= begin {
                    return Some(base);
                }
            }
            end = begin;
        }
        None
    }

    fn free(&mut self, base: u64, len: u64) -> &'static str {
        if len == 0 {
            return "InvalidParameter";
        }
        let Some(end) = self.end_of(base, len) else { return "Unsupported" };
        if !self.all(base, end, |(_, allocated)| allocated) {
            return "NotFound";
        }
        self.each(base, end, |(kind, _)| (kind, false));
        "Success"
    }

    fn remove(&mut self, base: u64, len: u64) -> &'static str {
        if len == 0 {
            return "InvalidParameter";
        }
        let Some(end) = self.end_of(base, len) else { return "Unsupported" };
        if !self.all(base, end, |(kind, _)| kind != Kind::Nonexistent) {
            return "NotFound";
        }
        if !self.all(base, end, |(_, allocated)| !allocated) {
            return "AccessDenied";
        }
        self.set(base, end, (Kind::Nonexistent, false));
        "Success"
    }

    /// Changes what is at each of some addresses, range by range.
    fn each(&mut self, base: u64, end: u64, change: impl Fn((Kind, bool)) -> (Kind, bool)) {
        let (_, &first) = self.ranges.range(..=base).next_back().unwrap();
        let mut parts = vec![(base, first)];
        parts.extend(self.ranges.range(base + 1..end).map(|(at, what)| (*at, *what)));
        for number in 0..parts.len() {
            let to = parts.get(number + 1).map_or(end, |part| part.0);
            self.set(parts[number].0, to, change(parts[number].1));
        }
    }
}

/// The HOBs before the end HOB: their offsets, types and bodies.
fn read_hobs(bytes: &[u8]) -> Result<Vec<(usize, u16, &[u8])>, Fault> {
    let (mut hobs, mut at) = (Vec::new(), 0);
    loop {
        if at == bytes.len() {
            return Err(Fault("NoEnd", at));
        }
        if bytes.len() - at < 8 {
            return Err(Fault("Short", at));
        }
        let (kind, len) = (u16_at(bytes, at), u16_at(bytes, at + 2) as usize);
        if len < 8 || len % 8 != 0 || len > bytes.len() - at {
            return Err(Fault("Length", at));
        }
        let formed = match kind {
            1 => len == 56 && u32_at(bytes, at + 8) == 9,
            2 | 3 => len == 48,
            4 => len >= 24,
            5 => len == 24,
            6 => len == 16,
            9 => len == 56,
            0xFFFF => len == 8,
            _ => true,
        };
        if !formed || hobs.is_empty() && kind != 1 {
            return Err(Fault("Form", at));
        }
        if kind == 0xFFFF {
            return Ok(hobs);
        }
        hobs.push((at, kind, &bytes[at + 8..at + len]));
        at += len;
    }
}

pub fn map_of(bytes: &[u8]) -> Result<Map, Fault> {
    let hobs = read_hobs(bytes)?;
    let (at, _, cpu) = hobs.iter().find(|(_, kind, _)| *kind == 6).ok_or(Fault("NoCpu", 0))?;
    if !(12..=52).contains(&cpu[0]) {
        return Err(Fault("Bits", *at));
    }
    let mut map = Map::new(cpu[0]);
    for (at, _, body) in hobs.iter().filter(|(_, kind, _)| *kind == 3) {
        let kind = match u32_at(body, 16) {
            0 => Kind::System,
            1 | 3 => Kind::Mmio,
            4 | 5 => Kind::Reserved,
            _ => continue,
        };
        match map.add(kind, u64_at(body, 24), u64_at(body, 32)) {
            "Success" => {}
            "AccessDenied" => return Err(Fault("Overlap", *at)),
            _ => return Err(Fault("Range", *at)),
        }
    }
    for (at, _, body) in hobs.iter().filter(|(_, kind, _)| *kind == 2) {
        if map.allocate(Kind::System, u64_at(body, 16), u64_at(body, 24)) != "Success" {
            return Err(Fault("Outside", *at));
        }
    }
    Ok(map)
}

pub enum Command {
    Add(Kind, u64, u64),
    Allocate(Kind, u64, u64),
    Top(Kind, u64, u64),
    Free(u64, u64),
    Remove(u64, u64),
}

/// The commands of a text, or the first line that is none.
pub fn read_commands(text: &[u8]) -> Result<Vec<Command>, usize> {
    lines_of(text).into_iter().map(|(line, words)| words.and_then(|words| command(&words)).ok_or(line)).collect()
}

fn command(words: &[&[u8]]) -> Option<Command> {
    match words {
        [b"add", kind, base, len] => Some(Command::Add(Kind::parse(kind)?, number(base)?, number(len)?)),
        [b"allocate", kind, base, len] => Some(Command::Allocate(Kind::parse(kind)?, number(base)?, number(len)?)),
        [b"top", kind, align, len] => Some(Command::Top(Kind::parse(kind)?, number(align).filter(|align| *align < 256)?, number(len)?)),
        [b"free", base, len] => Some(Command::Free(number(base)?, number(len)?)),
        [b"remove", base, len] => Some(Command::Remove(number(base)?, number(len)?)),
        _ => None,
    }
}

pub fn run(map: &mut Map, commands: &[Command], out: &mut Out) -> Result<(), Halt> {
    for command in commands {
        match *command {
            Command::Add(kind, base, len) => put!(out, "add {}", map.add(kind, base, len))?,
            Command::Allocate(kind, base, len) => put!(out, "allocate {}", map.allocate(kind, base, len))?,
            Command::Free(base, len) => put!(out, "free {}", map.free(base, len))?,
            Command::Remove(base, len) => put!(out, "remove {}", map.remove(base, len))?,
            Command::Top(kind, align, len) => match map.top(kind, align, len) {
                Ok(base) => put!(out, "top Success {base:#x}")?,
                Err(answer) => put!(out, "top {answer}")?,
            },
        }
    }
    let mut ranges = map.ranges.iter().peekable();
    while let Some((base, (kind, allocated))) = ranges.next() {
        let end = ranges.peek().map_or(map.space, |(end, _)| **end);
        put!(out, "range {base:#x} {:#x} {} {}", end - base, kind.name(), if *allocated { "allocated" } else { "free" })?;
    }
    Ok(())
}
