//! Lines of words and numbers, and plans (docs/FORMATS.md, "Plan").

/// The lines of a text that count, with their number from 1: their words, or none where the line is no line of words.
pub fn lines_of(text: &[u8]) -> Vec<(usize, Option<Vec<&[u8]>>)> {
    let mut lines = Vec::new();
    for (number, line) in split_lines(text).into_iter().enumerate() {
        if !line.is_empty() && line[0] != b'#' {
            lines.push((number + 1, words_of(line)));
        }
    }
    lines
}

/// All lines, without their line feed and a carriage return directly before it.
pub fn split_lines(text: &[u8]) -> Vec<&[u8]> {
    let mut lines: Vec<&[u8]> = text.split(|byte| *byte == b'\n').collect();
    let rest = lines.pop().unwrap();
    let mut lines: Vec<&[u8]> = lines.into_iter().map(|line| line.strip_suffix(b"\r").unwrap_or(line)).collect();
    if !rest.is_empty() {
        lines.push(rest);
    }
    lines
}

fn words_of(line: &[u8]) -> Option<Vec<&[u8]>> {
    if line[0] == b' ' || line[line.len() - 1] == b' ' || line.iter().any(|byte| !(0x20..=0x7e).contains(byte)) {
        return None;
    }
    Some(line.split(|byte| *byte == b' ').filter(|word| !word.is_empty()).collect())
}

/// A number below 2^64: decimal digits, or `0x` and hexadecimal digits.
pub fn number(word: &[u8]) -> Option<u64> {
    let (digits, base) = match word.strip_prefix(b"0x") {
        Some(digits) => (digits, 16),
        None => (word, 10),
    };
    if digits.is_empty() {
        return None;
    }
    let mut value = 0u64;
    for digit in digits {
        let digit = (*digit as char).to_digit(base)?;
        value = value.checked_mul(base as u64)?.checked_add(digit as u64)?;
    }
    Some(value)
}

#[derive(Clone, Copy, Debug, PartialEq)]
pub struct Span {
    pub base: u64,
    pub len: u64,
}

impl Span {
    pub fn end(&self) -> u64 {
        self.base + self.len
    }

    pub fn meets(&self, other: &Span) -> bool {
        self.base < other.end() && other.base < self.end()
    }

    pub fn has(&self, base: u64, len: u64) -> bool {
        base >= self.base && base <= self.end() && len <= self.end() - base
    }
}

pub struct Plan {
    pub temp: Span,
    pub ram: Span,
    pub pages: u64,
    pub fuel: u64,
    pub volumes: Vec<(u64, String)>,
}

pub const TOP: u64 = 1 << 40;
const LEAST: u64 = 0x10_0000;
const PAGE: u64 = 4_096;
const HEAP: u64 = 0x4000;

/// A plan, or the line and the cause of its first fault.
pub fn read(text: &[u8]) -> Result<Plan, (usize, &'static str)> {
    let (mut temp, mut ram, mut pages, mut fuel, mut volumes) = (None, None, None, None, Vec::new());
    for (line, words) in lines_of(text) {
        let words = words.ok_or((line, "Word"))?;
        let kind = words[0];
        let wanted = match kind {
            b"temp" | b"ram" | b"volume" => 3,
            b"fuel" | b"pages" => 2,
            _ => 0,
        };
        if words.len() != wanted {
            return Err((line, "Word"));
        }
        if kind == b"temp" && temp.is_some() || kind == b"ram" && ram.is_some() || kind == b"fuel" && fuel.is_some() || kind == b"pages" && pages.is_some() {
            return Err((line, "Twice"));
        }
        let first = number(words[1]).ok_or((line, "Number"))?;
        let limit = |sound: bool| if sound { Ok(()) } else { Err((line, "Limit")) };
        match kind {
            b"temp" | b"ram" => {
                let len = number(words[2]).ok_or((line, "Number"))?;
                let (least, most) = if kind == b"temp" { (0x4000, LEAST) } else { (PAGE, 256 << 20) };
                limit(first % PAGE == 0 && len % PAGE == 0 && (least..=most).contains(&len) && first >= LEAST && first <= TOP - len)?;
                *(if kind == b"temp" { &mut temp } else { &mut ram }) = Some((line, Span { base: first, len }));
            }
            b"volume" => {
                limit(volumes.len() < 16 && first % 8 == 0 && first >= LEAST && words[2].len() <= 255)?;
                volumes.push((first, String::from_utf8(words[2].to_vec()).unwrap()));
            }
            b"fuel" => {
                limit((1..=1_000_000).contains(&first))?;
                fuel = Some(first);
            }
            _ => {
                limit(first % PAGE == 0 && (PAGE..=LEAST).contains(&first))?;
                pages = Some((line, first));
            }
        }
    }
    let missing = (split_lines(text).len() + 1, "Missing");
    let ((temp_line, temp), (ram_line, ram)) = (temp.ok_or(missing)?, ram.ok_or(missing)?);
    if volumes.is_empty() {
        return Err(missing);
    }
    if temp.meets(&ram) {
        return Err((temp_line.max(ram_line), "Overlap"));
    }
    if let Some((line, _)) = pages.filter(|(_, pages)| temp.len < pages + HEAP) {
        return Err((line, "Room"));
    }
    Ok(Plan { temp, ram, pages: pages.map_or(0, |(_, pages)| pages), fuel: fuel.unwrap_or(100_000), volumes })
}
