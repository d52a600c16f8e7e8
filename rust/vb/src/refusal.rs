//! The specification's refusals, each with what was given.

use std::fmt;

use crate::instructions::{left_out, Instruction};
use crate::records::{Drawing, Hardware, Processor};

/// Why a call did nothing: the specification's refusals by their numbers, with what was given. 8, 9, 11 and 15 have a variant for
/// each subject.
#[derive(Clone, Debug, PartialEq, Eq)]
pub enum Refusal {
    /// Refusal 1: the length of ROM is not a power of two from 1,024 to 16,777,216.
    RomLength {
        /// The length in bytes.
        given: usize,
    },
    /// Refusal 2: the length of WRAM is not 65,536.
    WramLength {
        /// The length in bytes.
        given: usize,
    },
    /// Refusal 3: the length of VRAM is not 262,144.
    VramLength {
        /// The length in bytes.
        given: usize,
    },
    /// Refusal 4: the length of pak RAM is neither 0 nor a power of two up to 16,777,216.
    PakLength {
        /// The length in bytes.
        given: usize,
    },
    /// Refusal 5: a register holds what it cannot hold.
    State {
        /// The register's name.
        register: &'static str,
        /// What it holds.
        given: u32,
        /// What it can hold, in words.
        allowed: &'static str,
    },
    /// Refusal 6: the instruction at PC is not modelled.
    NotModelled {
        /// Where it is.
        pc: u32,
        /// Its first halfword.
        first: u16,
        /// The halfword after it, which belongs to it only where the instruction has two.
        second: u16,
    },
    /// Refusal 7: the frame is neither 0 nor 1.
    Frame {
        /// The frame.
        given: u32,
    },
    /// Refusal 8: the strip is not 0 to 27.
    Strip {
        /// The strip.
        given: u32,
    },
    /// Refusal 8: the character is not 0 to 2,047.
    Character {
        /// The character.
        given: u32,
    },
    /// Refusal 9: the length of a saved state, or of the output buffer for it, is not the layout's.
    FileLength {
        /// The length in bytes.
        given: usize,
        /// The layout's length with pak RAM of this size.
        due: usize,
    },
    /// Refusal 9 of a move: the length of the file or of the output buffer is not that of its form.
    MoveLength {
        /// The file's length.
        file: usize,
        /// The output buffer's length.
        output: usize,
    },
    /// Refusal 10: the bytes are not a saved state.
    FileBytes,
    /// Refusal 11: a list has over 256 accesses.
    TooManyAccesses {
        /// How many it has.
        given: usize,
    },
    /// Refusal 11: an access has a size other than 1, 2 and 4.
    AccessSize {
        /// The first such access.
        index: usize,
        /// Its size.
        given: u32,
    },
    /// Refusal 12: the fields are not those of an instruction.
    Encoding {
        /// The fields.
        instruction: Instruction,
    },
    /// Refusal 13: a probe's write is outside its ranges.
    ProbeTarget {
        /// The address.
        address: u32,
    },
    /// Refusal 14: the length of a trace is not a multiple of 16.
    TraceLength {
        /// The length in bytes.
        given: usize,
    },
    /// Refusal 15: the eye is neither 0 nor 1.
    Eye {
        /// The eye.
        given: u32,
    },
    /// Refusal 15: the column table's start is not one of VRAM's.
    Start {
        /// The start.
        given: u32,
    },
    /// Refusal 15: the output buffer of a display does not have a byte for each pixel.
    OutputLength {
        /// Its length in bytes.
        given: usize,
    },
    /// Refusal 16: request lines and timer are not at reset, and form 1 does not hold them.
    NotAtReset,
    /// Refusal 17: the length is not one that a saved state of form 2 has.
    NoLayout {
        /// The length in bytes.
        given: usize,
    },
}

impl Refusal {
    /// The specification's number.
    pub fn number(&self) -> u32 {
        match self {
            Refusal::RomLength { .. } => 1,
            Refusal::WramLength { .. } => 2,
            Refusal::VramLength { .. } => 3,
            Refusal::PakLength { .. } => 4,
            Refusal::State { .. } => 5,
            Refusal::NotModelled { .. } => 6,
            Refusal::Frame { .. } => 7,
            Refusal::Strip { .. } | Refusal::Character { .. } => 8,
            Refusal::FileLength { .. } | Refusal::MoveLength { .. } => 9,
            Refusal::FileBytes => 10,
            Refusal::TooManyAccesses { .. } | Refusal::AccessSize { .. } => 11,
            Refusal::Encoding { .. } => 12,
            Refusal::ProbeTarget { .. } => 13,
            Refusal::TraceLength { .. } => 14,
            Refusal::Eye { .. } | Refusal::Start { .. } | Refusal::OutputLength { .. } => 15,
            Refusal::NotAtReset => 16,
            Refusal::NoLayout { .. } => 17,
        }
    }
}

impl fmt::Display for Refusal {
    fn fmt(&self, f: &mut fmt::Formatter) -> fmt::Result {
        write!(f, "refusal {}: ", self.number())?;
        match self {
            Refusal::RomLength { given } => write!(
                f,
                "ROM has {} bytes; its length must be a power of two from 1,024 to 16,777,216",
                grouped(*given as u64)
            ),
            Refusal::WramLength { given } => {
                write!(f, "WRAM has {} bytes; it must have 65,536", grouped(*given as u64))
            }
            Refusal::VramLength { given } => {
                write!(f, "VRAM has {} bytes; it must have 262,144", grouped(*given as u64))
            }
            Refusal::PakLength { given } => write!(
                f,
                "pak RAM has {} bytes; its length must be 0 or a power of two up to 16,777,216",
                grouped(*given as u64)
            ),
            Refusal::State { register, given, allowed } => {
                write!(f, "{register} is 0x{given:08X}; {allowed}")
            }
            Refusal::NotModelled { pc, first, second } => write!(
                f,
                "the instruction {} at 0x{pc:08X} is not modelled; left out are opcodes 011111 (bit strings), 111010 \
                 (CAXI) and LDSR or STSR of register 24",
                named(*first, *second)
            ),
            Refusal::Encoding { instruction } => {
                let Instruction { operation, reg1, reg2, condition, immediate } = instruction;
                write!(
                    f,
                    "operation {operation} with reg1 {reg1}, reg2 {reg2}, condition {condition} and immediate \
                     0x{immediate:08X} is not an instruction; each field must be in its operation's range, one that it \
                     does not have 0, an offset even, and a system register not 24"
                )
            }
            Refusal::Frame { given } => {
                write!(f, "frame {given} was asked for; frames are 0 and 1")
            }
            Refusal::Strip { given } => {
                write!(f, "strip {given} was asked for; strips are 0 to 27")
            }
            Refusal::Character { given } => {
                write!(f, "character {given} was asked for; characters are 0 to 2,047")
            }
            Refusal::FileLength { given, due } => write!(
                f,
                "the file or output buffer has {} bytes; with pak RAM of this length a saved state has {}",
                grouped(*given as u64),
                grouped(*due as u64)
            ),
            Refusal::FileBytes => write!(
                f,
                "the bytes are not a saved state; each byte before the first body must be the layout's, and the records \
                 must be those of an accepted machine"
            ),
            Refusal::Eye { given } => {
                write!(f, "eye {given} was asked for; eyes are 0 (left) and 1 (right)")
            }
            Refusal::Start { given } => write!(
                f,
                "the column table is to start at entry {given}; a start is from 95 to 255, since 384 columns use 96 \
                 entries downwards"
            ),
            Refusal::OutputLength { given } => write!(
                f,
                "the output buffer has {} bytes; it must have 86,016, a byte for each pixel",
                grouped(*given as u64)
            ),
            Refusal::ProbeTarget { address } => write!(
                f,
                "the probe was to write at 0x{address:08X}; it may write characters 1,536 to 2,047 and background maps \
                 12 and 13, at 0x0001E000 to 0x0001FFFF, 0x00038000 to 0x0003BFFF and their mirrors"
            ),
            Refusal::TooManyAccesses { given } => {
                write!(f, "the list has {} accesses; it may have up to 256", grouped(*given as u64))
            }
            Refusal::AccessSize { index, given } => {
                write!(f, "access {index} has size {given}; sizes are 1, 2 and 4")
            }
            Refusal::TraceLength { given } => write!(
                f,
                "the trace has {} bytes; its length must be a multiple of 16, a record's",
                grouped(*given as u64)
            ),
            Refusal::MoveLength { file, output } => write!(
                f,
                "the file has {} bytes and the output buffer {}; the file's form has no such length, or the other form another",
                grouped(*file as u64),
                grouped(*output as u64)
            ),
            Refusal::NotAtReset => write!(
                f,
                "request lines and timer are not at reset, and a saved state of form 1 does not hold them; form 2 does"
            ),
            Refusal::NoLayout { given } => write!(
                f,
                "the file has {} bytes; a saved state of form 2 has 327,962 without pak RAM, or 327,976 and its length, \
                 a power of two up to 16,777,216",
                grouped(*given as u64)
            ),
        }
    }
}

impl std::error::Error for Refusal {}

/// Halfwords that are not modelled, with their mnemonic: `0xE841 0x0004 (CAXI)`.
fn named(first: u16, second: u16) -> String {
    match left_out(first, second) {
        Some((name, 2)) => format!("0x{first:04X} 0x{second:04X} ({name})"),
        Some((name, _)) => format!("0x{first:04X} ({name})"),
        None => format!("0x{first:04X}"),
    }
}

/// A whole number with commas between thousands.
pub fn grouped(number: u64) -> String {
    let digits = number.to_string();
    let mut out = String::new();
    for (i, digit) in digits.chars().enumerate() {
        if i > 0 && (digits.len() - i).is_multiple_of(3) {
            out.push(',');
        }
        out.push(digit);
    }
    out
}

/// Which register makes refusal 5, in the order of paper 01's row: the processor's, where a call is given one, the
/// drawing registers, then the request lines and the timer, where it is given them.
pub(crate) fn fault(
    processor: Option<&Processor>,
    drawing: &Drawing,
    hardware: Option<&Hardware>,
) -> Option<Refusal> {
    processor
        .and_then(processor_fault)
        .or_else(|| drawing_fault(drawing))
        .or_else(|| hardware.and_then(hardware_fault))
}

pub(crate) fn hardware_fault(hardware: &Hardware) -> Option<Refusal> {
    let Hardware { lines, control, .. } = *hardware;
    if lines >= 32 {
        let allowed = "it must be at most 0x1F (5 lines)";
        return Some(Refusal::State { register: "lines", given: u32::from(lines), allowed });
    }
    if control & !0x1B != 0 {
        let allowed = "it may have bits of 0x1B only";
        return Some(Refusal::State { register: "control", given: u32::from(control), allowed });
    }
    None
}

fn processor_fault(p: &Processor) -> Option<Refusal> {
    let odd = |value: u32| !value.is_multiple_of(2);
    let outside = |value: u32| value & !0x000F_F3FF != 0;
    let rows: [(&'static str, u32, bool, &'static str); 9] = [
        ("general register 0", p.regs[0], p.regs[0] != 0, "it must be 0"),
        ("PC", p.pc, odd(p.pc), "it must be even"),
        ("EIPC", p.eipc, odd(p.eipc), "it must be even"),
        ("FEPC", p.fepc, odd(p.fepc), "it must be even"),
        ("system register 25", p.sr25, odd(p.sr25), "it must be even"),
        ("EIPSW", p.eipsw, outside(p.eipsw), "it may have bits of 0x000FF3FF only"),
        ("FEPSW", p.fepsw, outside(p.fepsw), "it may have bits of 0x000FF3FF only"),
        ("PSW", p.psw, outside(p.psw), "it may have bits of 0x000FF3FF only"),
        ("system register 31", p.sr31, p.sr31 > 0x8000_0000, "it must be at most 0x80000000"),
    ];
    let (register, given, _, allowed) = *rows.iter().find(|row| row.2)?;
    Some(Refusal::State { register, given, allowed })
}

fn drawing_fault(drawing: &Drawing) -> Option<Refusal> {
    let (register, given, width) =
        *drawing.registers().iter().find(|(_, value, width)| value >> width != 0)?;
    let allowed = match width {
        10 => "it must be at most 0x3FF (10 bits)",
        8 => "it must be at most 0xFF (8 bits)",
        _ => "it must be at most 3 (2 bits)",
    };
    Some(Refusal::State { register, given: u32::from(given), allowed })
}
