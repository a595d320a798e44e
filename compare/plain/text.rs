//! Expressions and scripts as text, and back (docs/TOOLS.md, "asm and dis").
use crate::bytes::{lower_hex, Guid, Hex};
use crate::depex::{Expr, Op, MOST_OPCODES};
use crate::script::*;
use std::fmt::Write as _;

/// What a text is refused for.
pub enum Refused {
    Line(usize),
    Long,
}

/// The lines of a text that end with a line feed, and whether something stands behind the last of them.
fn whole_lines(text: &[u8]) -> (Vec<&[u8]>, bool) {
    let mut lines: Vec<&[u8]> = text.split(|byte| *byte == b'\n').collect();
    let rest = lines.pop().unwrap();
    (lines, !rest.is_empty())
}

/// The bytes of the expression that a text is.
pub fn asm_depex(text: &[u8]) -> Result<Vec<u8>, Refused> {
    let (lines, more) = whole_lines(text);
    let Some(line) = lines.first() else { return Err(Refused::Line(1)) };
    let bytes = depex_line(line).ok_or(Refused::Line(1))?;
    if lines.len() > 1 || more {
        return Err(Refused::Line(2));
    }
    bytes.ok_or(Refused::Long)
}

/// The bytes of an expression, or none where there are too many opcodes.
fn depex_line(line: &[u8]) -> Option<Option<Vec<u8>>> {
    let alone = |opcode: u8, guid: &[u8]| Some(Some([&[opcode][..], &Guid::parse(guid)?.0, &[8]].concat()));
    if let Some(guid) = line.strip_prefix(b"before ") {
        return alone(0, guid);
    }
    if let Some(guid) = line.strip_prefix(b"after ") {
        return alone(1, guid);
    }
    let (mut bytes, tree) = match line.strip_prefix(b"sor ") {
        Some(tree) => (vec![9], tree),
        None => (Vec::new(), line),
    };
    let mut count = bytes.len() + 1;
    let mut rest = tree;
    tree_of(&mut rest, &mut bytes, &mut count)?;
    if !rest.is_empty() {
        return None;
    }
    bytes.push(8);
    Some((count <= MOST_OPCODES).then_some(bytes))
}

fn tree_of(rest: &mut &[u8], bytes: &mut Vec<u8>, count: &mut usize) -> Option<()> {
    let take = |rest: &mut &[u8], word: &[u8]| rest.strip_prefix(word).map(|left| *rest = left);
    *count += 1;
    if take(rest, b"not ").is_some() {
        tree_of(rest, bytes, count)?;
        bytes.push(5);
    } else if take(rest, b"(").is_some() {
        tree_of(rest, bytes, count)?;
        let opcode = if take(rest, b" and ").is_some() { 3 } else { take(rest, b" or ").map(|()| 4)? };
        tree_of(rest, bytes, count)?;
        take(rest, b")")?;
        bytes.push(opcode);
    } else if take(rest, b"true").is_some() {
        bytes.push(6);
    } else if take(rest, b"false").is_some() {
        bytes.push(7);
    } else {
        let guid = Guid::parse(rest.get(..36)?)?;
        *rest = &rest[36..];
        bytes.push(2);
        bytes.extend_from_slice(&guid.0);
    }
    Some(())
}

/// The text of an expression that was read.
pub fn dis_depex(expr: &Expr) -> String {
    match expr {
        Expr::Before(guid) => format!("before {guid}"),
        Expr::After(guid) => format!("after {guid}"),
        Expr::Tree { sor, ops } => {
            // From the end: each tree's text stands in front of what follows it.
            let mut text = String::from(if *sor { "sor " } else { "" });
            put_tree(ops, ops.len() - 1, &starts_of(ops), &mut text);
            text
        }
        _ => unreachable!(),
    }
}

/// Where the tree begins that ends with each opcode.
fn starts_of(ops: &[Op]) -> Vec<usize> {
    let (mut starts, mut stack): (Vec<usize>, Vec<usize>) = (Vec::new(), Vec::new());
    for (at, op) in ops.iter().enumerate() {
        let start = match op {
            Op::And | Op::Or => {
                stack.pop();
                stack.pop().unwrap()
            }
            Op::Not => stack.pop().unwrap(),
            _ => at,
        };
        stack.push(start);
        starts.push(start);
    }
    starts
}

fn put_tree(ops: &[Op], end: usize, starts: &[usize], text: &mut String) {
    match ops[end] {
        Op::Push(guid) => write!(text, "{guid}").unwrap(),
        Op::True => text.push_str("true"),
        Op::False => text.push_str("false"),
        Op::Not => {
            text.push_str("not ");
            put_tree(ops, end - 1, starts, text);
        }
        Op::And | Op::Or => {
            text.push('(');
            put_tree(ops, starts[end - 1] - 1, starts, text);
            text.push_str(if ops[end] == Op::And { " and " } else { " or " });
            put_tree(ops, end - 1, starts, text);
            text.push(')');
        }
    }
}

/// The text of a script.
pub fn dis_script(script: &Script) -> String {
    let mut text = String::from(if script.phase == Phase::Pei { "phase pei\n" } else { "phase dxe\n" });
    for block in &script.blocks {
        text.push_str("block\n");
        for action in block {
            put_action(action, &mut text);
            text.push('\n');
        }
    }
    text
}

fn put_action(action: &Action, text: &mut String) {
    let place = |place: &Where| match place {
        Where::Here(guid) => guid.to_string(),
        Where::At(register) => format!("at r{register}"),
    };
    let list = |registers: &[u8]| registers.iter().map(|register| format!(" r{register}")).collect::<String>();
    match action {
        Action::Set(r, n) => write!(text, "set r{r} {n:#x}"),
        Action::Add(r, n) => write!(text, "add r{r} {n:#x}"),
        Action::Pool(r, n) => write!(text, "pool r{r} {n:#x}"),
        Action::Store(r, offset, bytes) => write!(text, "store r{r} {offset:#x} {}", Hex(bytes)),
        Action::Addr(v, x, offset) => write!(text, "addr r{v} r{x} {offset:#x}"),
        Action::Peek(v, n) => write!(text, "peek r{v} {n}"),
        Action::Desc(d, 0, at, v) => write!(text, "desc r{d} ppi {} r{v}", place(at)),
        Action::Desc(d, kind, at, block) => write!(text, "desc r{d} {} {} block {block}", if *kind == 1 { "callback" } else { "dispatch" }, place(at)),
        Action::Install(registers) => write!(text, "install{}", list(registers)),
        Action::Reinstall(old, new) => write!(text, "reinstall r{old} r{new}"),
        Action::Notify(registers) => write!(text, "notify{}", list(registers)),
        Action::Locate(d, v, guid, instance) => write!(text, "locate r{d} r{v} {guid} {instance}"),
        Action::Hob(kind, body) => write!(text, "hob {kind} {}", Hex(body)),
        Action::Memory(begin, len) => write!(text, "memory r{begin} r{len}"),
        Action::Pages(r, kind, count) => write!(text, "pages r{r} {kind} {count:#x}"),
        Action::BootMode(form, r) => write!(text, "boot_mode {} r{r}", if *form == 0 { "get" } else { "set" }),
        Action::Log(words) => write!(text, "log {}", std::str::from_utf8(words).unwrap()),
        Action::SkipIf(condition, n) => write!(text, "skip_if {condition} {n}"),
        Action::Ret(status) => write!(text, "ret {:?}", STATUSES[*status as usize]),
        Action::Shadow => write!(text, "shadow"),
        Action::InstallInterface(form, h, guid, v) => write!(text, "install {} r{h} {guid} r{v}", if *form == 0 { "new" } else { "on" }),
        Action::ReinstallInterface(h, guid, old, new) => write!(text, "reinstall r{h} {guid} r{old} r{new}"),
        Action::Uninstall(h, guid, v) => write!(text, "uninstall r{h} {guid} r{v}"),
        Action::LocateProtocol(h, v, guid) => write!(text, "locate r{h} r{v} {guid}"),
        Action::NotifyProtocol(guid, block) => write!(text, "notify {guid} block {block}"),
        Action::Schedule(guid) => write!(text, "schedule {guid}"),
        Action::Process(v) => write!(text, "process r{v}"),
        Action::Dispatch => write!(text, "dispatch"),
    }
    .unwrap();
}

/// The bytes of the script that a text is.
pub fn asm_script(text: &[u8]) -> Result<Vec<u8>, Refused> {
    let (lines, more) = whole_lines(text);
    let end = lines.len() + 1;
    let mut reading = Reading { phase: Phase::Pei, blocks: Vec::new(), most_block: 0, owed: 0 };
    for (number, line) in lines.iter().enumerate() {
        reading.line(number, line).ok_or(Refused::Line(number + 1))?;
    }
    if more || !reading.may_end() || reading.most_block >= reading.blocks.len() as u8 && reading.most_block > 0 {
        return Err(Refused::Line(end));
    }
    let bytes = reading.bytes();
    if bytes.len() > MOST_BYTES {
        Err(Refused::Long)
    } else {
        Ok(bytes)
    }
}

struct Reading<'a> {
    phase: Phase,
    blocks: Vec<Vec<(Action<'a>, Vec<u8>)>>,
    most_block: u8,
    /// How many actions of the block a `skip_if` still asks for.
    owed: usize,
}

impl<'a> Reading<'a> {
    /// Whether the last block is whole.
    fn may_end(&self) -> bool {
        let last = self.blocks.last().and_then(|block| block.last());
        matches!(last, Some((Action::Ret(_), _))) && self.owed == 0
    }

    fn line(&mut self, number: usize, line: &'a [u8]) -> Option<()> {
        match (number, line) {
            (0, b"phase pei") => Some(()),
            (0, b"phase dxe") => {
                self.phase = Phase::Dxe;
                Some(())
            }
            (0, _) => None,
            (_, b"block") => {
                let may = (self.blocks.is_empty() || self.may_end()) && self.blocks.len() < MOST_BLOCKS;
                may.then(|| self.blocks.push(Vec::new()))
            }
            _ => self.action(line),
        }
    }

    fn action(&mut self, line: &'a [u8]) -> Option<()> {
        let (action, bytes) = read_action(line, self.phase)?;
        if let Action::Desc(_, 1 | 2, _, block) | Action::NotifyProtocol(_, block) = action {
            if block as usize >= MOST_BLOCKS {
                return None;
            }
            self.most_block = self.most_block.max(block);
        }
        let block = self.blocks.last_mut()?;
        let left = MOST_ACTIONS.checked_sub(block.len() + 1)?;
        self.owed = self.owed.saturating_sub(1);
        if let Action::SkipIf(_, skipped) = action {
            self.owed = self.owed.max(skipped as usize + 1);
        }
        let needed = if matches!(action, Action::Ret(_)) { self.owed } else { self.owed.max(1) };
        block.push((action, bytes));
        (needed <= left).then_some(())
    }

    fn bytes(&self) -> Vec<u8> {
        let mut bytes = b"PIAS\x01".to_vec();
        bytes.extend([if self.phase == Phase::Pei { 1 } else { 2 }, self.blocks.len() as u8, 0]);
        for block in &self.blocks {
            bytes.extend((block.len() as u16).to_le_bytes());
            block.iter().for_each(|(_, action)| bytes.extend(action));
        }
        bytes
    }
}

/// The words of an action's line, taken one after another, and the bytes that they spell.
struct Words<'a> {
    left: Vec<&'a [u8]>,
    bytes: Vec<u8>,
}

impl<'a> Words<'a> {
    fn word(&mut self) -> Option<&'a [u8]> {
        if self.left.is_empty() {
            None
        } else {
            Some(self.left.remove(0))
        }
    }

    fn register(&mut self) -> Option<u8> {
        let word = self.word()?.strip_prefix(b"r")?;
        let register = shortest(word, false)?;
        let register = u8::try_from(register).ok().filter(|register| *register < 16)?;
        self.bytes.push(register);
        Some(register)
    }

    fn registers(&mut self) -> Option<Vec<u8>> {
        let count = self.left.len();
        if !(1..=8).contains(&count) {
            return None;
        }
        self.bytes.push(count as u8);
        (0..count).map(|_| self.register()).collect()
    }

    fn number(&mut self, hex: bool, size: usize) -> Option<u64> {
        let number = shortest(self.word()?, hex)?;
        if size < 8 && number >> (8 * size) != 0 {
            return None;
        }
        self.bytes.extend(&number.to_le_bytes()[..size]);
        Some(number)
    }

    fn guid(&mut self) -> Option<Guid> {
        let guid = Guid::parse(self.word()?)?;
        self.bytes.extend(guid.0);
        Some(guid)
    }

    /// One of some words; its number is its byte.
    fn one_of(&mut self, words: &[&[u8]]) -> Option<u8> {
        let word = self.word()?;
        let number = words.iter().position(|other| *other == word)? as u8;
        self.bytes.push(number);
        Some(number)
    }

    fn hex_bytes(&mut self) -> Option<Vec<u8>> {
        let word = self.word()?;
        if word.len() % 2 != 0 {
            return None;
        }
        word.chunks(2).map(|pair| Some(lower_hex(pair[0])? << 4 | lower_hex(pair[1])?)).collect()
    }

    fn block(&mut self) -> Option<u8> {
        (self.word()? == b"block").then_some(())?;
        self.number(false, 1).map(|block| block as u8)
    }
}

/// A number in its only spelling: decimal, or `0x` and lower-case hexadecimal digits, without leading zeros.
fn shortest(word: &[u8], hex: bool) -> Option<u64> {
    let number = crate::plan::number(word)?;
    let spelled = if hex { format!("{number:#x}") } else { number.to_string() };
    (spelled.as_bytes() == word).then_some(number)
}

fn read_action(line: &[u8], phase: Phase) -> Option<(Action<'_>, Vec<u8>)> {
    if let Some(text) = line.strip_prefix(b"log ") {
        let printable = text.iter().all(|byte| (0x20..=0x7e).contains(byte)) && (1..=64).contains(&text.len());
        return printable.then(|| (Action::Log(text.into()), [&[0x11, text.len() as u8], text].concat()));
    }
    let mut words = Words { left: line.split(|byte| *byte == b' ').collect(), bytes: vec![0] };
    let name = words.word()?;
    let (code, action) = match name {
        b"set" => (0x01, Action::Set(words.register()?, words.number(true, 8)?)),
        b"add" => (0x02, Action::Add(words.register()?, words.number(true, 8)?)),
        b"peek" => (0x07, Action::Peek(words.register()?, words.number(false, 1).filter(|n| (1..=64).contains(n))? as u8)),
        b"skip_if" => (0x12, Action::SkipIf(words.number(false, 1).filter(|n| *n <= 1)? as u8, words.number(false, 1).filter(|n| *n >= 1)? as u8)),
        b"ret" => {
            let names = STATUSES.map(|status| format!("{status:?}"));
            (0x13, Action::Ret(words.one_of(&names.each_ref().map(|name| name.as_bytes()))?))
        }
        _ if phase == Phase::Pei => pei_action(name, &mut words)?,
        _ => dxe_action(name, &mut words)?,
    };
    words.bytes[0] = code;
    words.left.is_empty().then_some((action, words.bytes))
}

fn pei_action<'a>(name: &[u8], words: &mut Words<'a>) -> Option<(u8, Action<'a>)> {
    Some(match name {
        b"pool" => (0x03, Action::Pool(words.register()?, words.number(true, 4)? as u32)),
        b"store" => {
            let (register, offset, bytes) = (words.register()?, words.number(true, 4)? as u32, words.hex_bytes()?);
            if !(1..=64).contains(&bytes.len()) {
                return None;
            }
            words.bytes.push(bytes.len() as u8);
            words.bytes.extend(&bytes);
            (0x04, Action::Store(register, offset, bytes.into()))
        }
        b"addr" => (0x06, Action::Addr(words.register()?, words.register()?, words.number(true, 4)? as u32)),
        b"desc" => {
            let (register, kind) = (words.register()?, words.one_of(&[b"ppi", b"callback", b"dispatch"])?);
            let at = words.left.first() == Some(&&b"at"[..]);
            words.bytes.push(at as u8);
            let place = if at {
                words.word()?;
                Where::At(words.register()?)
            } else {
                Where::Here(words.guid()?)
            };
            let last = if kind == 0 { words.register()? } else { words.block()? };
            (0x08, Action::Desc(register, kind, place, last))
        }
        b"install" => (0x09, Action::Install(words.registers()?.into())),
        b"reinstall" => (0x0A, Action::Reinstall(words.register()?, words.register()?)),
        b"notify" => (0x0B, Action::Notify(words.registers()?.into())),
        b"locate" => (0x0C, Action::Locate(words.register()?, words.register()?, words.guid()?, words.number(false, 2)? as u16)),
        b"hob" => {
            let (kind, body) = (words.number(false, 1)? as u8, words.hex_bytes()?);
            if !is_hob_body(kind, body.len()) {
                return None;
            }
            words.bytes.extend((body.len() as u16).to_le_bytes());
            words.bytes.extend(&body);
            (0x0D, Action::Hob(kind, body.into()))
        }
        b"memory" => (0x0E, Action::Memory(words.register()?, words.register()?)),
        b"pages" => (0x0F, Action::Pages(words.register()?, words.number(false, 1)? as u8, words.number(true, 4)? as u32)),
        b"boot_mode" => (0x10, Action::BootMode(words.one_of(&[b"get", b"set"])?, words.register()?)),
        b"shadow" => (0x14, Action::Shadow),
        _ => return None,
    })
}

fn dxe_action<'a>(name: &[u8], words: &mut Words<'a>) -> Option<(u8, Action<'a>)> {
    Some(match name {
        b"install" => (0x20, Action::InstallInterface(words.one_of(&[b"new", b"on"])?, words.register()?, words.guid()?, words.register()?)),
        b"reinstall" => (0x21, Action::ReinstallInterface(words.register()?, words.guid()?, words.register()?, words.register()?)),
        b"uninstall" => (0x22, Action::Uninstall(words.register()?, words.guid()?, words.register()?)),
        b"locate" => (0x23, Action::LocateProtocol(words.register()?, words.register()?, words.guid()?)),
        b"notify" => (0x24, Action::NotifyProtocol(words.guid()?, words.block()?)),
        b"schedule" => (0x25, Action::Schedule(words.guid()?)),
        b"process" => (0x26, Action::Process(words.register()?)),
        b"dispatch" => (0x27, Action::Dispatch),
        _ => return None,
    })
}
