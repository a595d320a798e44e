//! What the MP services answer and leave (docs/TOOLS.md, "mp").
use crate::out::{Halt, Out};
use crate::plan::lines_of;
use crate::put;
use std::collections::VecDeque;

#[derive(Clone, Copy)]
enum Op {
    Add(usize, u64),
    Put(u64),
}

enum Event {
    All(usize, Vec<Op>),
    This(usize, usize, Vec<Op>),
    Enable(usize, usize, bool),
    Switch(usize, usize, bool),
    Who(usize),
    Turn(usize),
}

pub struct Events {
    processors: usize,
    cells: usize,
    events: Vec<Event>,
}

/// The events of a text, or the first line that has no form.
pub fn read(text: &[u8]) -> Result<Events, usize> {
    let lines = lines_of(text);
    let none = || crate::plan::split_lines(text).len() + 1;
    let (line, words) = lines.first().ok_or_else(none)?;
    let first = words.as_ref().and_then(|words| match words[..] {
        [b"mp", processors, cells] => Some((number(processors)?, number(cells)?)),
        _ => None,
    });
    let (processors, cells) = first.filter(|(n, c)| (1..=64).contains(n) && (1..=64).contains(c)).ok_or(*line)?;
    let mut events = Events { processors: processors as usize, cells: cells as usize, events: Vec::new() };
    for (line, words) in &lines[1..] {
        let event = words.as_ref().and_then(|words| events.event(words)).ok_or(*line)?;
        events.events.push(event);
    }
    Ok(events)
}

/// A decimal number below 2^64.
fn number(word: &[u8]) -> Option<u64> {
    if word.iter().all(u8::is_ascii_digit) {
        crate::plan::number(word)
    } else {
        None
    }
}

impl Events {
    fn event(&self, words: &[&[u8]]) -> Option<Event> {
        let by = |word: &[u8]| number(word).filter(|by| *by < self.processors as u64).map(|by| by as usize);
        let other = |word: &[u8]| number(word).map(|other| usize::try_from(other).unwrap_or(usize::MAX));
        match words {
            [b"all", who, ops @ ..] => Some(Event::All(by(who)?, self.ops(ops)?)),
            [b"this", who, which, ops @ ..] => Some(Event::This(by(who)?, other(which)?, self.ops(ops)?)),
            [b"enable", who, which] => Some(Event::Enable(by(who)?, other(which)?, true)),
            [b"disable", who, which] => Some(Event::Enable(by(who)?, other(which)?, false)),
            [b"switch", who, which, b"on"] => Some(Event::Switch(by(who)?, other(which)?, true)),
            [b"switch", who, which, b"off"] => Some(Event::Switch(by(who)?, other(which)?, false)),
            [b"who", who] => Some(Event::Who(by(who)?)),
            [b"turn", which] => Some(Event::Turn(other(which)?)),
            _ => None,
        }
    }

    fn ops(&self, words: &[&[u8]]) -> Option<Vec<Op>> {
        if words.is_empty() || words.len() > 64 {
            return None;
        }
        words.iter().map(|word| self.op(word)).collect()
    }

    fn op(&self, word: &[u8]) -> Option<Op> {
        if let Some(value) = word.strip_prefix(b"put=") {
            return Some(Op::Put(number(value)?));
        }
        let rest = word.strip_prefix(b"add=")?;
        let colon = rest.iter().position(|byte| *byte == b':')?;
        let cell = number(&rest[..colon]).filter(|cell| *cell < self.cells as u64)?;
        Some(Op::Add(cell as usize, number(&rest[colon + 1..])?))
    }

    pub fn run(&self, out: &mut Out) -> Result<(), Halt> {
        let mut board = Board {
            boot: 0,
            enabled: vec![true; self.processors],
            jobs: vec![VecDeque::new(); self.processors],
            cells: vec![0; self.cells],
            records: vec![Vec::new(); self.processors],
        };
        for event in &self.events {
            match event {
                Event::All(by, ops) => put!(out, "all {}", board.all(*by, ops))?,
                Event::This(by, which, ops) => put!(out, "this {}", board.this(*by, *which, ops))?,
                Event::Enable(by, which, on) => put!(out, "{} {}", if *on { "enable" } else { "disable" }, board.enable(*by, *which, *on))?,
                Event::Switch(by, which, on) => put!(out, "switch {}", board.switch(*by, *which, *on))?,
                Event::Who(by) => put!(out, "who {by}")?,
                Event::Turn(which) => board.turn(*which),
            }
        }
        for (number, cell) in board.cells.iter().enumerate() {
            put!(out, "cell {number} {cell:#x}")?;
        }
        for (number, record) in board.records.iter().enumerate() {
            out.add(format_args!("record {number}"));
            for value in record {
                out.add(format_args!(" {value}"));
            }
            put!(out, "{}", if record.is_empty() { " -" } else { "" })?;
        }
        Ok(())
    }
}

struct Board {
    boot: usize,
    enabled: Vec<bool>,
    jobs: Vec<VecDeque<Op>>,
    cells: Vec<u64>,
    records: Vec<Vec<u64>>,
}

impl Board {
    fn is_busy(&self, which: usize) -> bool {
        !self.jobs[which].is_empty()
    }

    fn all(&mut self, by: usize, ops: &[Op]) -> &'static str {
        if by != self.boot {
            return "DeviceError";
        }
        let others: Vec<usize> = (0..self.jobs.len()).filter(|other| *other != self.boot && self.enabled[*other]).collect();
        if others.is_empty() {
            return "NotStarted";
        }
        if others.iter().any(|other| self.is_busy(*other)) {
            return "NotReady";
        }
        for other in others {
            self.jobs[other] = ops.iter().copied().collect();
        }
        "Success"
    }

    fn this(&mut self, by: usize, which: usize, ops: &[Op]) -> &'static str {
        if by != self.boot {
            return "DeviceError";
        }
        if which >= self.jobs.len() {
            return "NotFound";
        }
        if which == self.boot || !self.enabled[which] {
            return "InvalidParameter";
        }
        if self.is_busy(which) {
            return "NotReady";
        }
        self.jobs[which] = ops.iter().copied().collect();
        "Success"
    }

    fn enable(&mut self, by: usize, which: usize, on: bool) -> &'static str {
        if by != self.boot {
            return "DeviceError";
        }
        if which >= self.jobs.len() {
            return "NotFound";
        }
        if which == self.boot {
            return "InvalidParameter";
        }
        if self.is_busy(which) {
            return "Unsupported";
        }
        self.enabled[which] = on;
        "Success"
    }

    fn switch(&mut self, by: usize, which: usize, on: bool) -> &'static str {
        if by != self.boot {
            return "DeviceError";
        }
        if which >= self.jobs.len() {
            return "NotFound";
        }
        if which == self.boot || !self.enabled[which] {
            return "InvalidParameter";
        }
        if self.is_busy(which) {
            return "NotReady";
        }
        self.enabled[self.boot] = on;
        self.boot = which;
        "Success"
    }

    fn turn(&mut self, which: usize) {
        match self.jobs.get_mut(which).and_then(VecDeque::pop_front) {
            Some(Op::Add(cell, number)) => self.cells[cell] = self.cells[cell].wrapping_add(number),
            Some(Op::Put(number)) => self.records[which].push(number),
            None => {}
        }
    }
}
