//! Instructions to halfwords and back, by the proved encoder and decoder.

use crate::refusal::Refusal;
pub use vbsys::{op, Instruction};

/// The halfwords of an instruction, unused bits clear.
#[derive(Clone, Copy, Debug, PartialEq, Eq)]
pub struct Halfwords {
    /// The first halfword.
    pub first: u16,
    /// Where the instruction has two.
    pub second: Option<u16>,
}

impl Halfwords {
    /// The one or two halfwords, in order.
    pub fn iter(self) -> impl Iterator<Item = u16> {
        std::iter::once(self.first).chain(self.second)
    }
}

/// What a first and a second halfword mean; `halfwords` of them count.
#[derive(Clone, Copy, Debug, PartialEq, Eq)]
pub enum Decoded {
    /// An instruction.
    Instruction {
        /// Its fields.
        instruction: Instruction,
        /// How many halfwords it has.
        halfwords: u32,
    },
    /// An invalid opcode or sub-opcode.
    Illegal {
        /// How many halfwords it has.
        halfwords: u32,
    },
    /// Refusal 6.
    NotModelled,
}

/// The halfwords of an instruction. Refusal 12: a field is out of its range.
pub fn encode(instruction: Instruction) -> Result<Halfwords, Refusal> {
    let encoded = vbsys::encode(instruction);
    match (encoded.refusal, encoded.halfwords) {
        (0, 1) => Ok(Halfwords { first: encoded.first, second: None }),
        (0, _) => Ok(Halfwords { first: encoded.first, second: Some(encoded.second) }),
        _ => Err(Refusal::Encoding { instruction }),
    }
}

/// The instruction of a first and a second halfword; the second counts only where the first asks for it.
pub fn decode(first: u16, second: u16) -> Decoded {
    let vbsys::Decoded { refusal, halfwords, instruction } = vbsys::decode(first, second);
    match (refusal, instruction.operation) {
        (0, op::ILLEGAL) => Decoded::Illegal { halfwords },
        (0, _) => Decoded::Instruction { instruction, halfwords },
        _ => Decoded::NotModelled,
    }
}

const BIT_STRINGS: [&str; 16] = [
    "SCH0BSU", "SCH0BSD", "SCH1BSU", "SCH1BSD", "", "", "", "", "ORBSU", "ANDBSU", "XORBSU",
    "MOVBSU", "ORNBSU", "ANDNBSU", "XORNBSU", "NOTBSU",
];

/// The mnemonic of halfwords that are not modelled, and how many there are.
pub fn left_out(first: u16, second: u16) -> Option<(&'static str, u32)> {
    if decode(first, second) != Decoded::NotModelled {
        return None;
    }
    Some(match first >> 10 {
        0b011111 => match BIT_STRINGS.get(usize::from(first & 31)) {
            Some(name) if !name.is_empty() => (name, 1),
            _ => ("bit string", 1),
        },
        0b011100 => ("LDSR", 1),
        0b011101 => ("STSR", 1),
        _ => ("CAXI", 2),
    })
}
