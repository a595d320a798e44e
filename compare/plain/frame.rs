//! A script that runs: registers, the last status, and the actions of both phases (docs/SERVICES.md).
use crate::bytes::Hex;
use crate::out::{Halt, Out};
use crate::put;
use crate::script::{Action, Script, Status, STATUSES};
use crate::store::Store;
use std::rc::Rc;

#[derive(Clone, Copy, PartialEq)]
pub enum Reg {
    Empty,
    Number(u64),
    Pool { place: usize, size: u32 },
    Desc(usize),
    Handle(u32),
}

pub const DEEPEST: usize = 64;

/// `W` is what the frame's last call has still to visit.
pub struct Frame<'a, W> {
    pub module: usize,
    pub script: Rc<Script<'a>>,
    pub block: usize,
    pub at: usize,
    pub regs: [Reg; 16],
    pub last: Status,
    pub sweep: Option<W>,
}

impl<'a, W> Frame<'a, W> {
    pub fn new(module: usize, script: Rc<Script<'a>>, block: usize) -> Self {
        Frame { module, script, block, at: 0, regs: [Reg::Empty; 16], last: Status::Success, sweep: None }
    }

    pub fn number(&self, register: u8) -> Result<u64, Status> {
        match self.regs[register as usize] {
            Reg::Number(number) => Ok(number),
            _ => Err(Status::InvalidParameter),
        }
    }

    pub fn set(&mut self, register: u8, value: Reg) {
        self.regs[register as usize] = value;
    }

    /// Takes an action of both phases; says whether it was one, and whether the frame has ended.
    pub fn take_common(&mut self, action: &Action, store: &Store, images: &[Vec<u8>], out: &mut Out) -> Result<Option<bool>, Halt> {
        match action {
            Action::Set(register, number) => {
                self.set(*register, Reg::Number(*number));
                self.last = Status::Success;
            }
            Action::Add(register, number) => {
                self.last = match self.number(*register) {
                    Ok(old) => {
                        self.set(*register, Reg::Number(old.wrapping_add(*number)));
                        Status::Success
                    }
                    Err(status) => status,
                };
            }
            Action::Peek(register, len) => {
                let read = self.number(*register).and_then(|at| store.read(images, at, *len as usize).ok_or(Status::NotFound));
                match read {
                    Ok(bytes) => {
                        self.last = Status::Success;
                        put!(out, "call peek Success {}", Hex(&bytes))?;
                    }
                    Err(status) => {
                        self.last = status;
                        put!(out, "call peek {status:?}")?;
                    }
                }
            }
            Action::Log(text) => {
                out.line.push_str("log ");
                out.line.push_str(std::str::from_utf8(text).unwrap());
                out.end_line()?;
            }
            Action::SkipIf(condition, count) => {
                if (self.last == Status::Success) == (*condition == 0) {
                    self.at += *count as usize;
                }
            }
            Action::Ret(status) => {
                put!(out, "end {:?}", STATUSES[*status as usize])?;
                return Ok(Some(true));
            }
            _ => return Ok(None),
        }
        Ok(Some(false))
    }
}

/// What a service shows on success.
pub enum Shown {
    Nothing,
    Hex(u64),
}

/// Puts the line of a service's answer, and says its status.
pub fn put_call(out: &mut Out, name: &str, answer: Result<Shown, Status>) -> Result<Status, Halt> {
    match answer {
        Ok(Shown::Nothing) => put!(out, "call {name} Success").map(|_| Status::Success),
        Ok(Shown::Hex(value)) => put!(out, "call {name} Success {value:#x}").map(|_| Status::Success),
        Err(status) => put!(out, "call {name} {status:?}").map(|_| status),
    }
}
