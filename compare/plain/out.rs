//! Where a boot's lines go: to standard output, nowhere, or beside a trace with which they are compared.
use crate::bytes::Guid;
use std::fmt::Write as _;
use std::io::Write;

/// Why a boot was broken off.
pub enum Halt {
    /// The line from 1 at which the trace says otherwise.
    Other(usize),
    /// Standard output failed.
    Sink,
}

enum To<'a> {
    Printed(std::io::BufWriter<std::io::Stdout>),
    Nowhere,
    Beside { trace: &'a [u8], at: usize, lines: usize },
}

pub struct Out<'a> {
    pub line: String,
    to: To<'a>,
}

/// Puts a formatted line.
#[macro_export]
macro_rules! put {
    ($out:expr, $($words:tt)*) => {{
        let out = &mut *$out;
        let _ = std::fmt::Write::write_fmt(&mut out.line, format_args!($($words)*));
        out.end_line()
    }};
}

impl<'a> Out<'a> {
    pub fn printed() -> Out<'a> {
        Out { line: String::new(), to: To::Printed(std::io::BufWriter::with_capacity(1 << 16, std::io::stdout())) }
    }

    pub fn nowhere() -> Out<'a> {
        Out { line: String::new(), to: To::Nowhere }
    }

    pub fn beside(trace: &'a [u8]) -> Out<'a> {
        Out { line: String::new(), to: To::Beside { trace, at: 0, lines: 0 } }
    }

    pub fn end_line(&mut self) -> Result<(), Halt> {
        self.line.push('\n');
        let put = match &mut self.to {
            To::Printed(out) => out.write_all(self.line.as_bytes()).map_err(|_| Halt::Sink),
            To::Nowhere => Ok(()),
            To::Beside { trace, at, lines } => {
                if trace[*at..].starts_with(self.line.as_bytes()) {
                    *at += self.line.len();
                    *lines += 1;
                    Ok(())
                } else {
                    Err(Halt::Other(*lines + 1))
                }
            }
        };
        self.line.clear();
        put
    }

    /// Ends the text: what was put is written, and a trace ends here.
    pub fn end(&mut self) -> Result<(), Halt> {
        match &mut self.to {
            To::Printed(out) => out.flush().map_err(|_| Halt::Sink),
            To::Beside { trace, at, lines } if *at < trace.len() => Err(Halt::Other(*lines + 1)),
            _ => Ok(()),
        }
    }

    /// The volume and name of the start line that stands next in the trace.
    pub fn named(&self, phase: &str) -> Option<(usize, Guid)> {
        let To::Beside { trace, at, .. } = &self.to else { return None };
        let rest = trace[*at..].strip_prefix(phase.as_bytes())?.strip_prefix(b" start ")?;
        let mut words = rest.split(|byte| *byte == b' ');
        let volume = std::str::from_utf8(words.next()?).ok()?.parse().ok()?;
        Some((volume, Guid::parse(words.next()?)?))
    }

    /// Adds to the line that is being put.
    pub fn add(&mut self, words: std::fmt::Arguments) {
        let _ = self.line.write_fmt(words);
    }
}
