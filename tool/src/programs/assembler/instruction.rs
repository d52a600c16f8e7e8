//! An instruction's operands, and its halfwords by the proved encoder.

use vb::{op, Instruction};

use super::{within, Place};
use crate::programs::mnemonics::{self, Operands};

impl Place<'_> {
    /// Where a branch or jump leads, from its own address. In the first pass targets are not yet placed.
    fn ahead(&mut self, text: &str, low: i64, high: i64) -> Result<u32, String> {
        let target = self.value(text)?.number;
        if !self.writing {
            return Ok(0);
        }
        // addresses wrap at 2^32
        let ahead = within(i64::from((target - self.address()) as i32), low, high)?;
        if ahead % 2 != 0 {
            return Err(format!("`{text}` is odd"));
        }
        Ok(ahead as u32)
    }

    fn immediate(&mut self, text: &str, low: i64, high: i64) -> Result<u32, String> {
        Ok(self.within(text, low, high)? as u32)
    }

    /// A system register that is modelled.
    fn system(&mut self, text: &str) -> Result<u32, String> {
        match self.immediate(text, 0, 31)? {
            24 => Err("system register 24 is not modelled".to_string()),
            number => Ok(number),
        }
    }

    /// `disp[reg1]`: the displacement and the register.
    fn memory(&mut self, text: &str) -> Result<(u32, u32), String> {
        let (before, after) = text.split_once('[').ok_or(format!("`{text}` is not disp[reg]"))?;
        let base = register(after.strip_suffix(']').ok_or(format!("`{text}` has no `]`"))?)?;
        let disp =
            if before.trim().is_empty() { 0 } else { self.immediate(before, -0x8000, 0x7FFF)? };
        Ok((disp, base))
    }

    /// An instruction's halfwords, as the proved encoder gives them.
    pub(super) fn instruction(
        &mut self,
        name: &str,
        operands: &[&str],
    ) -> Result<Vec<u16>, String> {
        if let ("LI", [value, reg]) = (name, operands) {
            return self.load_constant(value, register(reg)?);
        }
        let instruction = match mnemonics::condition(name) {
            Some(condition) => self.branch(name, condition, operands)?,
            None => {
                let rows = mnemonics::named(name);
                // MOV and others take a register or an immediate
                let by_register = operands.first().is_some_and(|first| register(first).is_ok());
                let row = rows.iter().find(|row| (row.1 == Operands::Registers) == by_register);
                let row = row.or(rows.first()).ok_or(wrong(name))?;
                self.fields(name, *row, operands)?
            }
        };
        encoded(instruction)
    }

    fn branch(
        &mut self,
        name: &str,
        condition: u32,
        operands: &[&str],
    ) -> Result<Instruction, String> {
        let plain = Instruction { operation: op::BCOND, condition, ..Instruction::default() };
        match operands {
            [] if name == "NOP" => Ok(plain),
            [target] if name != "NOP" => {
                Ok(Instruction { immediate: self.ahead(target, -256, 254)?, ..plain })
            }
            _ => Err(wrong(name)),
        }
    }

    /// The fields of an instruction whose operands are written in this form.
    fn fields(
        &mut self,
        name: &str,
        (operation, form): (u32, Operands),
        operands: &[&str],
    ) -> Result<Instruction, String> {
        let plain = Instruction { operation, ..Instruction::default() };
        Ok(match (form, operands) {
            (Operands::Registers, [reg1, reg2]) => {
                Instruction { reg1: register(reg1)?, reg2: register(reg2)?, ..plain }
            }
            (Operands::Target, [target]) => {
                let inner = target.strip_prefix('[').and_then(|o| o.strip_suffix(']'));
                Instruction { reg1: register(inner.ok_or(wrong(name))?)?, ..plain }
            }
            (Operands::Signed, [value, reg2]) => {
                let reg2 = register(reg2)?;
                Instruction { immediate: self.immediate(value, -16, 15)?, reg2, ..plain }
            }
            (Operands::Unsigned, [value, reg2]) => {
                let reg2 = register(reg2)?;
                Instruction { immediate: self.immediate(value, 0, 31)?, reg2, ..plain }
            }
            (Operands::Condition, [value, reg2]) => {
                let reg2 = register(reg2)?;
                Instruction { condition: self.immediate(value, 0, 15)?, reg2, ..plain }
            }
            (Operands::Vector, [value]) => {
                Instruction { immediate: self.immediate(value, 0, 31)?, ..plain }
            }
            (Operands::None, []) => plain,
            (Operands::ToSystem, [reg2, system]) => {
                Instruction { reg2: register(reg2)?, immediate: self.system(system)?, ..plain }
            }
            (Operands::FromSystem, [system, reg2]) => {
                Instruction { reg2: register(reg2)?, immediate: self.system(system)?, ..plain }
            }
            (Operands::Jump, [target]) => {
                Instruction { immediate: self.ahead(target, -0x200_0000, 0x1FF_FFFE)?, ..plain }
            }
            (Operands::Long(low, high), [value, reg1, reg2]) => {
                let value = self.immediate(value, low, high)?;
                // a number that is taken with and without its sign stands for the same halfword
                let immediate = if low < 0 { value as i16 as u32 } else { value };
                Instruction { immediate, reg1: register(reg1)?, reg2: register(reg2)?, ..plain }
            }
            (Operands::Load, [memory, reg2]) => {
                let (immediate, reg1) = self.memory(memory)?;
                Instruction { immediate, reg1, reg2: register(reg2)?, ..plain }
            }
            (Operands::Store, [reg2, memory]) => {
                let (immediate, reg1) = self.memory(memory)?;
                Instruction { immediate, reg1, reg2: register(reg2)?, ..plain }
            }
            (Operands::Reg2, [reg2]) => Instruction { reg2: register(reg2)?, ..plain },
            _ => return Err(wrong(name)),
        })
    }

    /// MOVHI, then MOVEA, whose sign extension the upper half makes up for.
    fn load_constant(&mut self, value: &str, reg2: u32) -> Result<Vec<u16>, String> {
        let value = self.within(value, -0x8000_0000, 0xFFFF_FFFF)? as u32;
        let low = value as i16 as u32;
        let high = value.wrapping_sub(low) >> 16;
        let plain = Instruction { reg2, ..Instruction::default() };
        let upper = Instruction { operation: op::MOVHI, immediate: high, ..plain };
        let lower = Instruction { operation: op::MOVEA, reg1: reg2, immediate: low, ..plain };
        Ok([encoded(upper)?, encoded(lower)?].concat())
    }
}

fn encoded(instruction: Instruction) -> Result<Vec<u16>, String> {
    let halfwords = vb::encode(instruction).map_err(|refusal| refusal.to_string())?;
    Ok(halfwords.iter().collect())
}

fn wrong(name: &str) -> String {
    format!("`{name}` with these operands is not known")
}

fn register(text: &str) -> Result<u32, String> {
    let number = text.trim().strip_prefix('r').and_then(|n| n.parse::<u32>().ok());
    number.filter(|n| *n < 32).ok_or(format!("`{text}` is not a register r0 to r31"))
}
