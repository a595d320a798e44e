//! Dependency expressions (docs/FORMATS.md, "Dependency expressions").
use crate::bytes::Guid;
use crate::rules::rules;
use crate::script::Phase;

#[derive(Clone, Copy, PartialEq, Debug)]
pub enum Op {
    Push(Guid),
    And,
    Or,
    Not,
    True,
    False,
}

#[derive(Clone, Debug)]
pub enum Expr {
    Absent,
    Malformed(usize),
    /// The postfix opcodes without END, and whether SOR stands in front.
    Tree {
        sor: bool,
        ops: Vec<Op>,
    },
    Before(Guid),
    After(Guid),
}

impl Expr {
    /// The GUIDs that a tree pushes.
    pub fn pushed(&self) -> impl Iterator<Item = Guid> + '_ {
        let ops: &[Op] = match self {
            Expr::Tree { ops, .. } => ops,
            _ => &[],
        };
        ops.iter().filter_map(|op| match op {
            Op::Push(guid) => Some(*guid),
            _ => None,
        })
    }
}

pub const MOST_OPCODES: usize = 1_024;

/// The expression that some bytes begin with, or `Malformed` at the first opcode that fails.
pub fn read(bytes: &[u8], phase: Phase) -> Expr {
    let (mut at, mut depth, mut count, mut sor, mut ops) = (0, 0usize, 0, false, Vec::new());
    loop {
        let Some(&opcode) = bytes.get(at) else { return Expr::Malformed(at) };
        count += 1;
        if count > MOST_OPCODES {
            return Expr::Malformed(at);
        }
        let guid = bytes.get(at + 1..at + 17).map(|bytes| Guid::at(bytes, 0));
        let first = at == 0 && phase == Phase::Dxe;
        match (opcode, guid) {
            (0 | 1, Some(guid)) if first => return alone(bytes, opcode, guid),
            (2, Some(guid)) => {
                ops.push(Op::Push(guid));
                depth += 1;
                at += 16;
            }
            (3 | 4, _) if depth >= 2 => {
                ops.push(if opcode == 3 { Op::And } else { Op::Or });
                depth -= 1;
            }
            (5, _) if depth >= 1 => ops.push(Op::Not),
            (6 | 7, _) => {
                ops.push(if opcode == 6 { Op::True } else { Op::False });
                depth += 1;
            }
            (8, _) if depth == 1 || depth > 1 && phase == Phase::Dxe && rules().left_over_holds => return Expr::Tree { sor, ops },
            (9, _) if first => sor = true,
            _ => return Expr::Malformed(at),
        }
        at += 1;
    }
}

/// BEFORE or AFTER, and END behind it.
fn alone(bytes: &[u8], opcode: u8, guid: Guid) -> Expr {
    match bytes.get(17) {
        Some(8) if opcode == 0 => Expr::Before(guid),
        Some(8) => Expr::After(guid),
        _ => Expr::Malformed(17),
    }
}

/// Whether the postfix opcodes hold where these GUIDs are installed.
pub fn holds(ops: &[Op], installed: impl Fn(&Guid) -> bool) -> bool {
    let mut stack: Vec<bool> = Vec::new();
    for op in ops {
        match op {
            Op::Push(guid) => stack.push(installed(guid)),
            Op::True => stack.push(true),
            Op::False => stack.push(false),
            Op::Not => {
                let top = stack.pop().unwrap();
                stack.push(!top);
            }
            Op::And | Op::Or => {
                let (right, left) = (stack.pop().unwrap(), stack.pop().unwrap());
                stack.push(if *op == Op::And { left && right } else { left || right });
            }
        }
    }
    stack.pop().unwrap()
}
