//! Which rule a file breaks that is not a saved state, and at which byte.

use std::fmt;

use vb::grouped;

use super::layout::{Form, Layout, DRAWING, LINES, PROCESSOR};
use super::LENGTHS;

/// The first rule that is broken, in the file's order.
#[derive(Clone, Debug, PartialEq, Eq)]
pub enum Fault {
    /// Refusal 9: no saved state has this length.
    Length,
    /// Refusal 9: the first halfword is this form's, and the length is the other form's.
    Form { found: Form, first: u16 },
    /// Refusal 10: a byte before the first body is not the layout's.
    Contents { at: usize, part: String, expected: u8, found: u8 },
    /// Refusal 10: a register holds what it cannot hold.
    Register { at: usize, name: String, found: u32, rule: Rule },
}

/// What a register may hold.
#[derive(Clone, Copy, Debug, PartialEq, Eq)]
pub enum Rule {
    Zero,
    Even,
    Bits(u32),
    Most(u32),
    Mode,
}

/// A register that cannot hold everything: its body, its name, its place there in bytes, its length, and its rule.
struct Register {
    kind: u16,
    name: String,
    at: usize,
    length: usize,
    rule: Rule,
}

impl Fault {
    /// The first fault of a file.
    pub fn of(file: &[u8]) -> Option<Fault> {
        let Some(layout) = Layout::of_file(file) else {
            let found = Form::of(file);
            return Some(match Layout::of_length(found.other(), file.len()) {
                Some(other) => {
                    let first = other.contents(file);
                    Fault::Form { found, first: u16::from_le_bytes([first[0], first[1]]) }
                }
                None => Fault::Length,
            });
        };
        let contents = layout.contents(file);
        let wrong = contents.iter().zip(file).position(|(expected, found)| expected != found);
        if let Some(at) = wrong {
            let (expected, found) = (contents[at], file[at]);
            return Some(Fault::Contents { at, part: layout.part(at), expected, found });
        }
        registers().into_iter().find_map(|register| {
            let Register { kind, name, at, length, rule } = register;
            let bytes = layout.bytes(file, kind).get(at..at + length)?;
            let found = bytes.iter().rev().fold(0, |value, &byte| value << 8 | u32::from(byte));
            let at = layout.body(kind)?.offset + at;
            (!rule.allows(found)).then_some(Fault::Register { at, name, found, rule })
        })
    }

    /// Paper 02's number.
    pub fn refusal(&self) -> u32 {
        match self {
            Fault::Length | Fault::Form { .. } => 9,
            _ => 10,
        }
    }

    /// The file's first byte that is wrong, or the register's first.
    pub fn byte(&self) -> Option<usize> {
        match self {
            Fault::Length => None,
            Fault::Form { .. } => Some(0),
            Fault::Contents { at, .. } | Fault::Register { at, .. } => Some(*at),
        }
    }
}

impl fmt::Display for Fault {
    fn fmt(&self, f: &mut fmt::Formatter) -> fmt::Result {
        write!(f, "refusal {}: ", self.refusal())?;
        match self {
            Fault::Length => {
                write!(f, "no saved state has this length; it must be a saved state, {LENGTHS}")
            }
            Fault::Form { found, first } => {
                let (form, other) = (found.number(), found.other().number());
                write!(
                    f,
                    "the first halfword is that of form {form}, which has no such length; form {other} has, and begins \
                     with 0x{first:04X}"
                )
            }
            Fault::Contents { at, part, expected, found } => {
                let at = grouped(*at as u64);
                write!(f, "byte {at} ({part}) is 0x{found:02X}; it must be 0x{expected:02X}")
            }
            Fault::Register { at, name, found, rule } => {
                let at = grouped(*at as u64);
                write!(f, "{name}, at byte {at}, is 0x{found:X}; {rule}")
            }
        }
    }
}

impl Rule {
    fn allows(self, value: u32) -> bool {
        match self {
            Rule::Zero => value == 0,
            Rule::Even => value.is_multiple_of(2),
            Rule::Bits(mask) => value & !mask == 0,
            Rule::Most(most) => value <= most,
            Rule::Mode => value <= 2,
        }
    }
}

impl fmt::Display for Rule {
    fn fmt(&self, f: &mut fmt::Formatter) -> fmt::Result {
        match self {
            Rule::Zero => write!(f, "it must be 0"),
            Rule::Even => write!(f, "it must be even"),
            Rule::Bits(mask) => write!(f, "it may have bits of 0x{mask:08X} only"),
            Rule::Most(most) => write!(f, "it must be at most 0x{most:X}"),
            Rule::Mode => write!(f, "it must be 0 (running), 1 (halted) or 2 (fatal)"),
        }
    }
}

/// The registers of refusal 10, in the file's order.
fn registers() -> Vec<Register> {
    let psw = Rule::Bits(0x000F_F3FF);
    let words = [
        ("general register 0", 0, Rule::Zero),
        ("PC", 32, Rule::Even),
        ("EIPC", 33, Rule::Even),
        ("EIPSW", 34, psw),
        ("FEPC", 35, Rule::Even),
        ("FEPSW", 36, psw),
        ("PSW", 38, psw),
        ("system register 25", 39, Rule::Even),
        ("system register 31", 41, Rule::Most(0x8000_0000)),
        ("the mode", 42, Rule::Mode),
    ];
    let words = words.map(|(name, n, rule)| {
        let name = name.to_string();
        Register { kind: PROCESSOR, name, at: 4 * n, length: 4, rule }
    });
    let drawing = vb::Drawing::default().registers().into_iter().enumerate();
    let drawing = drawing.map(|(n, (name, _, width))| {
        let rule = Rule::Most((1 << width) - 1);
        Register { kind: DRAWING, name: name.to_string(), at: 2 * n, length: 2, rule }
    });
    let lines = [("the request lines", 0, 0x1F), ("the timer's control bits", 6, 0x1B)];
    let lines = lines.map(|(name, at, mask)| {
        let (name, rule) = (name.to_string(), Rule::Bits(mask));
        Register { kind: LINES, name, at, length: 2, rule }
    });
    words.into_iter().chain(drawing).chain(lines).collect()
}
