//! Action scripts (docs/FORMATS.md, "Action scripts").
use crate::bytes::*;
use crate::volume::Fault;
use std::borrow::Cow;

#[derive(Clone, Copy, PartialEq, Debug)]
pub enum Phase {
    Pei,
    Dxe,
}

#[derive(Clone, Copy, PartialEq, Debug)]
pub enum Status {
    Success,
    InvalidParameter,
    NotFound,
    OutOfResources,
    NotAvailableYet,
    AlreadyStarted,
    AccessDenied,
    /// EDK2's alone.
    VolumeCorrupted,
}

pub const STATUSES: [Status; 7] = [
    Status::Success,
    Status::InvalidParameter,
    Status::NotFound,
    Status::OutOfResources,
    Status::NotAvailableYet,
    Status::AlreadyStarted,
    Status::AccessDenied,
];

#[derive(Clone, Copy, PartialEq, Debug)]
pub enum Where {
    Here(Guid),
    At(u8),
}

/// An action; registers are numbers from 0 to 15. Bytes stay where they were read.
#[derive(Clone, PartialEq, Debug)]
pub enum Action<'a> {
    Set(u8, u64),
    Add(u8, u64),
    Pool(u8, u32),
    Store(u8, u32, Cow<'a, [u8]>),
    Addr(u8, u8, u32),
    Peek(u8, u8),
    /// Register, kind (0 PPI, 1 callback, 2 dispatch), GUID, register or block.
    Desc(u8, u8, Where, u8),
    Install(Cow<'a, [u8]>),
    Reinstall(u8, u8),
    Notify(Cow<'a, [u8]>),
    Locate(u8, u8, Guid, u16),
    Hob(u8, Cow<'a, [u8]>),
    Memory(u8, u8),
    Pages(u8, u8, u32),
    BootMode(u8, u8),
    Log(Cow<'a, [u8]>),
    SkipIf(u8, u8),
    Ret(u8),
    Shadow,
    InstallInterface(u8, u8, Guid, u8),
    ReinstallInterface(u8, Guid, u8, u8),
    Uninstall(u8, Guid, u8),
    LocateProtocol(u8, u8, Guid),
    NotifyProtocol(Guid, u8),
    Schedule(Guid),
    Process(u8),
    Dispatch,
}

pub struct Script<'a> {
    pub phase: Phase,
    pub blocks: Vec<Vec<Action<'a>>>,
}

pub const MOST_BYTES: usize = 65_536;
pub const MOST_BLOCKS: usize = 64;
pub const MOST_ACTIONS: usize = 1_024;

pub fn read(bytes: &[u8]) -> Result<Script<'_>, Fault> {
    if bytes.len() < 8 || &bytes[..4] != b"PIAS" {
        return Err(Fault("Magic", 0));
    }
    if bytes[4] != 1 {
        return Err(Fault("Version", 4));
    }
    let phase = match bytes[5] {
        1 => Phase::Pei,
        2 => Phase::Dxe,
        _ => return Err(Fault("Phase", 5)),
    };
    let count = bytes[6] as usize;
    if count == 0 || count > MOST_BLOCKS || bytes.len() > MOST_BYTES {
        return Err(Fault("Count", 6));
    }
    if bytes[7] != 0 {
        return Err(Fault("Count", 7));
    }
    let (mut at, mut blocks) = (8, Vec::with_capacity(count));
    for _ in 0..count {
        let (block, end) = read_block(bytes, at, phase, count)?;
        blocks.push(block);
        at = end;
    }
    if at < bytes.len() {
        Err(Fault("Count", at))
    } else {
        Ok(Script { phase, blocks })
    }
}

fn read_block(bytes: &[u8], start: usize, phase: Phase, blocks: usize) -> Result<(Vec<Action<'_>>, usize), Fault> {
    if start + 2 > bytes.len() {
        return Err(Fault("Block", start));
    }
    let count = u16_at(bytes, start) as usize;
    if count == 0 || count > MOST_ACTIONS {
        return Err(Fault("Block", start));
    }
    let (mut at, mut actions) = (start + 2, Vec::with_capacity(count));
    for number in 0..count {
        let mut operands = Operands { bytes, at, sound: true, blocks };
        let action = operands.action(phase).ok_or(Fault("Action", at))?;
        if !operands.sound {
            return Err(Fault("Index", at));
        }
        if matches!(action, Action::SkipIf(_, skipped) if count - number - 1 < skipped as usize + 1) {
            return Err(Fault("Jump", at));
        }
        actions.push(action);
        at = operands.at;
    }
    if matches!(actions.last(), Some(Action::Ret(_))) {
        Ok((actions, at))
    } else {
        Err(Fault("Block", start))
    }
}

/// The operands of one action, taken one after another; none where a byte is missing or out of its range.
struct Operands<'a> {
    bytes: &'a [u8],
    at: usize,
    /// Whether each register and each block was one.
    sound: bool,
    blocks: usize,
}

impl<'a> Operands<'a> {
    fn take(&mut self, count: usize) -> Option<&'a [u8]> {
        let taken = self.bytes.get(self.at..self.at + count)?;
        self.at += count;
        Some(taken)
    }

    fn byte(&mut self) -> Option<u8> {
        self.take(1).map(|bytes| bytes[0])
    }

    fn within(&mut self, least: u8, most: u8) -> Option<u8> {
        self.byte().filter(|byte| (least..=most).contains(byte))
    }

    fn register(&mut self) -> Option<u8> {
        let byte = self.byte()?;
        self.sound &= byte < 16;
        Some(byte)
    }

    fn block(&mut self) -> Option<u8> {
        let byte = self.byte()?;
        self.sound &= (byte as usize) < self.blocks;
        Some(byte)
    }

    fn word(&mut self) -> Option<u16> {
        self.take(2).map(|bytes| u16_at(bytes, 0))
    }

    fn number(&mut self) -> Option<u32> {
        self.take(4).map(|bytes| u32_at(bytes, 0))
    }

    fn long(&mut self) -> Option<u64> {
        self.take(8).map(|bytes| u64_at(bytes, 0))
    }

    fn guid(&mut self) -> Option<Guid> {
        self.take(16).map(|bytes| Guid::at(bytes, 0))
    }

    fn bytes(&mut self) -> Option<Cow<'a, [u8]>> {
        let count = self.within(1, 64)? as usize;
        self.take(count).map(Cow::Borrowed)
    }

    fn registers(&mut self) -> Option<Cow<'a, [u8]>> {
        let count = self.within(1, 8)? as usize;
        let registers = self.take(count)?;
        self.sound &= registers.iter().all(|register| *register < 16);
        Some(Cow::Borrowed(registers))
    }

    fn action(&mut self, phase: Phase) -> Option<Action<'a>> {
        let code = self.byte()?;
        match (code, phase) {
            (0x01, _) => Some(Action::Set(self.register()?, self.long()?)),
            (0x02, _) => Some(Action::Add(self.register()?, self.long()?)),
            (0x07, _) => Some(Action::Peek(self.register()?, self.within(1, 64)?)),
            (0x11, _) => self.bytes().filter(|text| text.iter().all(|byte| (0x20..=0x7e).contains(byte))).map(Action::Log),
            (0x12, _) => Some(Action::SkipIf(self.within(0, 1)?, self.within(1, 255)?)),
            (0x13, _) => Some(Action::Ret(self.within(0, 6)?)),
            (_, Phase::Pei) => self.pei_action(code),
            (_, Phase::Dxe) => self.dxe_action(code),
        }
    }

    fn pei_action(&mut self, code: u8) -> Option<Action<'a>> {
        Some(match code {
            0x03 => Action::Pool(self.register()?, self.number()?),
            0x04 => Action::Store(self.register()?, self.number()?, self.bytes()?),
            0x06 => Action::Addr(self.register()?, self.register()?, self.number()?),
            0x08 => {
                let (register, kind, form) = (self.register()?, self.within(0, 2)?, self.within(0, 1)?);
                let place = if form == 0 { Where::Here(self.guid()?) } else { Where::At(self.register()?) };
                Action::Desc(register, kind, place, if kind == 0 { self.register()? } else { self.block()? })
            }
            0x09 => Action::Install(self.registers()?),
            0x0A => Action::Reinstall(self.register()?, self.register()?),
            0x0B => Action::Notify(self.registers()?),
            0x0C => Action::Locate(self.register()?, self.register()?, self.guid()?, self.word()?),
            0x0D => {
                let (kind, length) = (self.byte()?, self.word()? as usize);
                if !is_hob_body(kind, length) {
                    return None;
                }
                Action::Hob(kind, Cow::Borrowed(self.take(length)?))
            }
            0x0E => Action::Memory(self.register()?, self.register()?),
            0x0F => Action::Pages(self.register()?, self.byte()?, self.number()?),
            0x10 => Action::BootMode(self.within(0, 1)?, self.register()?),
            0x14 => Action::Shadow,
            _ => return None,
        })
    }

    fn dxe_action(&mut self, code: u8) -> Option<Action<'a>> {
        Some(match code {
            0x20 => Action::InstallInterface(self.within(0, 1)?, self.register()?, self.guid()?, self.register()?),
            0x21 => Action::ReinstallInterface(self.register()?, self.guid()?, self.register()?, self.register()?),
            0x22 => Action::Uninstall(self.register()?, self.guid()?, self.register()?),
            0x23 => Action::LocateProtocol(self.register()?, self.register()?, self.guid()?),
            0x24 => Action::NotifyProtocol(self.guid()?, self.block()?),
            0x25 => Action::Schedule(self.guid()?),
            0x26 => Action::Process(self.register()?),
            0x27 => Action::Dispatch,
            _ => return None,
        })
    }
}

/// Whether `hob` makes HOBs of this type with bodies of this length.
pub fn is_hob_body(kind: u8, length: usize) -> bool {
    match kind {
        3 => length == 40,
        4 => (16..=1_024).contains(&length),
        5 => length == 16,
        6 => length == 8,
        9 => length == 48,
        _ => false,
    }
}
