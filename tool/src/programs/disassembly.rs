//! Halfwords to mnemonics, in the assembler's notation, by the proved decoder, and what an instruction reads or writes in
//! memory.

use vb::{op, Decoded, Instruction};

use crate::programs::mnemonics::{self, Operands};

/// An instruction as it is printed.
#[derive(Clone, Debug, PartialEq, Eq)]
pub struct Line {
    pub text: String,
    /// Its length in halfwords.
    pub halves: u32,
    pub access: Option<Access>,
}

/// A load or a store: the register and displacement of its address, and its width in bytes.
#[derive(Clone, Copy, Debug, PartialEq, Eq)]
pub struct Access {
    pub store: bool,
    pub base: usize,
    pub displacement: u32,
    pub width: u32,
}

/// The instruction at `pc` whose first halfword is `first`; `second` is looked at where it has two.
pub fn disassemble(pc: u32, first: u16, second: u16) -> Line {
    match vb::decode(first, second) {
        Decoded::Instruction { instruction, halfwords } => Line {
            text: written(&instruction, pc, &|target| format!("0x{target:08X}")),
            halves: halfwords,
            access: access(&instruction),
        },
        Decoded::Illegal { halfwords: 1 } => plain(format!(".half 0x{first:04X} (illegal)"), 1),
        Decoded::Illegal { halfwords } => {
            plain(format!(".half 0x{first:04X}, 0x{second:04X} (illegal)"), halfwords)
        }
        Decoded::NotModelled => left_out(first, second),
    }
}

fn plain(text: String, halves: u32) -> Line {
    Line { text, halves, access: None }
}

/// An instruction in the assembler's notation; `target` writes where a branch or jump leads.
pub fn written(i: &Instruction, pc: u32, target: &dyn Fn(u32) -> String) -> String {
    let Instruction { operation, reg1, reg2, condition, immediate } = *i;
    let signed = immediate as i32;
    let ahead = || target(pc.wrapping_add(immediate));
    if operation == op::BCOND {
        return match mnemonics::condition_name(condition) {
            "NOP" => "NOP".to_string(),
            name => format!("{name} {}", ahead()),
        };
    }
    let (name, operands) = mnemonics::of(operation);
    match operands {
        Operands::Registers => format!("{name} r{reg1}, r{reg2}"),
        Operands::Target => format!("{name} [r{reg1}]"),
        Operands::Signed => format!("{name} {signed}, r{reg2}"),
        Operands::Unsigned => format!("{name} {immediate}, r{reg2}"),
        Operands::Condition => format!("{name} {condition}, r{reg2}"),
        Operands::Vector => format!("{name} {immediate}"),
        Operands::None => name.to_string(),
        Operands::ToSystem => format!("{name} r{reg2}, {immediate}"),
        Operands::FromSystem => format!("{name} {immediate}, r{reg2}"),
        Operands::Jump => format!("{name} {}", ahead()),
        Operands::Long(..) if operation == op::ADDI => format!("{name} {signed}, r{reg1}, r{reg2}"),
        Operands::Long(..) => format!("{name} 0x{:04X}, r{reg1}, r{reg2}", immediate as u16),
        Operands::Load => format!("{name} {signed}[r{reg1}], r{reg2}"),
        Operands::Store => format!("{name} r{reg2}, {signed}[r{reg1}]"),
        Operands::Reg2 => format!("{name} r{reg2}"),
    }
}

/// What the instruction reads or writes in memory.
pub fn access(i: &Instruction) -> Option<Access> {
    let width = match i.operation {
        op::LD_B | op::IN_B | op::ST_B | op::OUT_B => 1,
        op::LD_H | op::IN_H | op::ST_H | op::OUT_H => 2,
        op::LD_W | op::IN_W | op::ST_W | op::OUT_W => 4,
        _ => return None,
    };
    let store = mnemonics::of(i.operation).1 == Operands::Store;
    Some(Access { store, base: i.reg1 as usize, displacement: i.immediate, width })
}

/// An instruction that is not modelled.
fn left_out(first: u16, second: u16) -> Line {
    let (reg2, reg1) = (first >> 5 & 31, first & 31);
    match vb::left_out(first, second) {
        Some(("LDSR", _)) => plain(format!("LDSR r{reg2}, {reg1}"), 1),
        Some(("STSR", _)) => plain(format!("STSR {reg1}, r{reg2}"), 1),
        Some(("CAXI", halves)) => {
            plain(format!("CAXI {}[r{reg1}], r{reg2}", second as i16), halves)
        }
        Some(("bit string", _)) | None => plain(format!(".half 0x{first:04X} (bit string)"), 1),
        Some((name, halves)) => plain(name.to_string(), halves),
    }
}

#[cfg(test)]
mod tests {
    use super::*;
    use crate::programs::assembler::{assemble, Source};

    /// What the assembler makes of the text, at the same address.
    fn assembled(pc: u32, text: &str) -> Option<(u16, u16)> {
        let bytes = assemble(&Source { text, origin: pc, symbols: &[], bytes: &[] }).ok()?;
        let half = |n: usize| bytes.get(2 * n..2 * n + 2).map(|b| u16::from_le_bytes([b[0], b[1]]));
        Some((half(0)?, half(1).unwrap_or(0)))
    }

    #[test]
    fn what_is_disassembled_assembles_again() {
        let pc = 0x0710_0000;
        let mut tried = 0;
        for first in 0..=0xFFFFu16 {
            let second = first.wrapping_mul(0x9E37) & !1;
            let line = disassemble(pc, first, second);
            let Some((a, b)) = assembled(pc, &line.text) else { continue };
            tried += 1;
            // unused bits are cleared: the text again is the text
            let again = disassemble(pc, a, b);
            assert_eq!(again.text, line.text, "{first:04X} {second:04X}");
            let used = match first >> 10 {
                0b000110 | 0b011000 => !0x03E0,
                0b010010 => !0x0010,
                0b010110 | 0b011001 | 0b011010 | 0b011110 => 0xFC00,
                0b100000..=0b100111 if first >> 9 & 15 == 13 => 0xFE00,
                0b100000..=0b100111 => !1,
                0b111110 if matches!(second >> 10, 0b001000 | 0b001001) => !0x001F,
                _ => 0xFFFF,
            };
            let used_second = if first >> 10 == 0b111110 { 0xFC00 } else { 0xFFFF };
            assert_eq!(a, first & used, "{}", line.text);
            assert!(line.halves == 1 || b == second & used_second, "{}", line.text);
        }
        // all but three illegal opcodes, bit strings, CAXI and the unlisted sub-opcodes
        assert!(tried >= 65_536 - 6 * 1_024, "{tried}");
    }

    #[test]
    fn memory_accesses_are_known() {
        let store = disassemble(0, 0xD441, 0xFFFE);
        assert_eq!(store.text, "ST.H r2, -2[r1]");
        let access = Access { store: true, base: 1, displacement: 0xFFFF_FFFE, width: 2 };
        assert_eq!(store.access, Some(access));
        assert_eq!(disassemble(0, 0xF841, 0x1000).text, "ADDF.S r1, r2");
        assert_eq!(disassemble(0, 0x7C0B, 0).text, "MOVBSU");
        assert_eq!(disassemble(0, 0x6C00, 0).text, ".half 0x6C00 (illegal)");
    }
}
