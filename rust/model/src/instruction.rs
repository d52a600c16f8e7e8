//! Instructions and their decoding: 000 "Instruction Formats" and "List of
//! Instructions by Opcode"; 01 "Instructions".

use crate::floating::Floating;
use crate::number::{field, sign_extend};

/// A general register, 0 to 31.
pub type RegisterNumber = u8;

/// What two registers are combined by (formats I and II, and format V where
/// the second operand is an immediate).
#[derive(Clone, Copy, Debug, PartialEq, Eq)]
pub enum Operation {
    Add,
    Subtract,
    And,
    Or,
    ExclusiveOr,
    ShiftLeft,
    ShiftRight,
    ShiftArithmeticRight,
    Multiply,
    MultiplyUnsigned,
    Divide,
    DivideUnsigned,
}

/// The width of an access.
#[derive(Clone, Copy, Debug, PartialEq, Eq)]
pub enum Width {
    Byte,
    Half,
    Word,
}

impl Width {
    /// How many bytes an access of this width has.
    pub fn bytes(self) -> u32 {
        match self {
            Width::Byte => 1,
            Width::Half => 2,
            Width::Word => 4,
        }
    }
}

/// The right-hand operand.
#[derive(Clone, Copy, Debug, PartialEq, Eq)]
pub enum Operand {
    Register(RegisterNumber),
    /// Extended to 32 bits as the instruction extends it.
    Immediate(u32),
}

/// A modelled instruction. Names and fields are 000's.
#[derive(Clone, Copy, Debug, PartialEq, Eq)]
pub enum Instruction {
    /// MOV, both forms: reg2 = operand.
    Move { reg2: RegisterNumber, operand: Operand },
    /// MOVEA and MOVHI: reg2 = reg1 + immediate, flags kept.
    AddKeepingFlags { reg2: RegisterNumber, reg1: RegisterNumber, immediate: u32 },
    /// reg2 = left (operation) right, flags set.
    Operate { operation: Operation, reg2: RegisterNumber, left: RegisterNumber, right: Operand },
    /// CMP, both forms: a subtraction whose result is dropped.
    Compare { reg2: RegisterNumber, right: Operand },
    /// NOT: reg2 = NOT reg1.
    Not { reg2: RegisterNumber, reg1: RegisterNumber },
    /// SETF: `condition` is four bits.
    SetFlag { reg2: RegisterNumber, condition: u8 },
    /// LD and IN: they differ in their extension.
    Load {
        width: Width,
        signed: bool,
        reg2: RegisterNumber,
        reg1: RegisterNumber,
        displacement: u32,
    },
    /// ST and OUT.
    Store { width: Width, reg2: RegisterNumber, reg1: RegisterNumber, displacement: u32 },
    /// Bcond: `displacement` from the instruction's own address.
    Branch { condition: u8, displacement: u32 },
    /// JMP.
    Jump { reg1: RegisterNumber },
    /// JR.
    JumpRelative { displacement: u32 },
    /// JAL.
    JumpAndLink { displacement: u32 },
    /// TRAP: the vector is 0 to 31.
    Trap { vector: u8 },
    /// RETI.
    ReturnFromException,
    /// HALT.
    Halt,
    /// LDSR.
    LoadSystemRegister { reg2: RegisterNumber, system: u8 },
    /// STSR.
    StoreSystemRegister { reg2: RegisterNumber, system: u8 },
    /// CLI.
    ClearInterruptDisable,
    /// SEI.
    SetInterruptDisable,
    /// The floating instructions; reg1 is the right-hand operand.
    Float { operation: Floating, reg2: RegisterNumber, reg1: RegisterNumber },
    /// XB: reg2's low bytes exchanged.
    ExchangeBytes { reg2: RegisterNumber },
    /// XH: reg2's halfwords exchanged.
    ExchangeHalfwords { reg2: RegisterNumber },
    /// REV: reg2 = reg1 with its bits in reverse order.
    Reverse { reg2: RegisterNumber, reg1: RegisterNumber },
    /// MPYHW: reg2 times the low 17 bits of reg1.
    MultiplyHalfword { reg2: RegisterNumber, reg1: RegisterNumber },
    /// 011011, 110010, 110110: one halfword each; and an unlisted sub-opcode of
    /// 111110: two.
    Illegal,
}

/// An instruction with its length in bytes, or that the model has none.
#[derive(Clone, Copy, Debug, PartialEq, Eq)]
pub enum Decoded {
    Instruction {
        instruction: Instruction,
        length: u32,
    },
    /// Refusal 6.
    NotModelled,
}

/// Whether an instruction that starts with `first` has a second halfword:
/// formats IV to VII have, all of them from opcode 101000 upwards.
pub fn has_second_half(first: u16) -> bool {
    let opcode = first >> 10;
    opcode >= 0b101000 && opcode != 0b110010 && opcode != 0b110110
}

/// The fields of an instruction, named as in 000's formats.
struct Fields {
    opcode: u32,
    reg2: RegisterNumber,
    reg1: RegisterNumber,
    /// Format II's five bits.
    small: u32,
    /// The second halfword.
    second: u32,
    first: u32,
}

impl Fields {
    fn new(first: u16, second: u16) -> Fields {
        let first = u32::from(first);
        Fields {
            opcode: field(first, 10, 6),
            reg2: field(first, 5, 5) as u8,
            reg1: field(first, 0, 5) as u8,
            small: field(first, 0, 5),
            second: u32::from(second),
            first,
        }
    }

    /// The right-hand operand of format I.
    fn by_register(&self) -> Operand {
        Operand::Register(self.reg1)
    }

    /// Format II's immediate, sign extended.
    fn small_signed(&self) -> Operand {
        Operand::Immediate(sign_extend(self.small, 5) as u32)
    }

    /// Format II's immediate, zero extended.
    fn small_plain(&self) -> Operand {
        Operand::Immediate(self.small)
    }

    /// The 16 bits of formats V and VI, sign extended.
    fn second_signed(&self) -> u32 {
        sign_extend(self.second, 16) as u32
    }

    /// reg2 = reg2 (operation) right: formats I and II.
    fn on_reg2(&self, operation: Operation, right: Operand) -> Instruction {
        Instruction::Operate { operation, reg2: self.reg2, left: self.reg2, right }
    }

    /// reg2 = reg1 (operation) immediate: format V.
    fn on_reg1(&self, operation: Operation, immediate: u32) -> Instruction {
        let right = Operand::Immediate(immediate);
        Instruction::Operate { operation, reg2: self.reg2, left: self.reg1, right }
    }

    fn load(&self, width: Width, signed: bool) -> Instruction {
        let (reg2, reg1, displacement) = (self.reg2, self.reg1, self.second_signed());
        Instruction::Load { width, signed, reg2, reg1, displacement }
    }

    fn store(&self, width: Width) -> Instruction {
        let (reg2, reg1, displacement) = (self.reg2, self.reg1, self.second_signed());
        Instruction::Store { width, reg2, reg1, displacement }
    }

    /// Format III: nine bits, of which bit 0 cannot show ("bit 0 stays 0").
    fn branch(&self) -> Instruction {
        let displacement = sign_extend(field(self.first, 0, 9), 9) as u32 & !1;
        Instruction::Branch { condition: field(self.first, 9, 4) as u8, displacement }
    }

    /// Format IV: 26 bits, ten of them in the first halfword.
    fn long_displacement(&self) -> u32 {
        sign_extend(field(self.first, 0, 10) << 16 | self.second, 26) as u32 & !1
    }

    /// The system register of LDSR and STSR.
    fn system(&self) -> u8 {
        self.small as u8
    }
}

/// Decodes from the halfwords fetched; `second` counts only where
/// [`has_second_half`] says so.
pub fn decode(first: u16, second: u16) -> Decoded {
    let fields = Fields::new(first, second);
    let length = if has_second_half(first) { 4 } else { 2 };
    let instruction = match fields.opcode {
        0b000000..=0b001111 => Some(decode_format_i(&fields)),
        0b010000..=0b011111 => decode_format_ii(&fields),
        0b100000..=0b100111 => Some(fields.branch()),
        0b101000..=0b101111 => Some(decode_formats_iv_v(&fields)),
        _ => decode_formats_vi_vii(&fields),
    };
    match instruction {
        Some(instruction) => Decoded::Instruction { instruction, length },
        None => Decoded::NotModelled,
    }
}

/// 000000 to 001111.
fn decode_format_i(fields: &Fields) -> Instruction {
    let (reg2, reg1, operand) = (fields.reg2, fields.reg1, fields.by_register());
    let operation = match fields.opcode {
        0b000000 => return Instruction::Move { reg2, operand },
        0b000011 => return Instruction::Compare { reg2, right: operand },
        0b000110 => return Instruction::Jump { reg1 },
        0b001111 => return Instruction::Not { reg2, reg1 },
        0b000001 => Operation::Add,
        0b000010 => Operation::Subtract,
        0b000100 => Operation::ShiftLeft,
        0b000101 => Operation::ShiftRight,
        0b000111 => Operation::ShiftArithmeticRight,
        0b001000 => Operation::Multiply,
        0b001001 => Operation::Divide,
        0b001010 => Operation::MultiplyUnsigned,
        0b001011 => Operation::DivideUnsigned,
        0b001100 => Operation::Or,
        0b001101 => Operation::And,
        _ => Operation::ExclusiveOr,
    };
    fields.on_reg2(operation, operand)
}

/// 010000 to 011111; none for bit strings and for system register 24.
fn decode_format_ii(fields: &Fields) -> Option<Instruction> {
    let reg2 = fields.reg2;
    let system = fields.system();
    Some(match fields.opcode {
        0b010000 => Instruction::Move { reg2, operand: fields.small_signed() },
        0b010001 => fields.on_reg2(Operation::Add, fields.small_signed()),
        0b010010 => Instruction::SetFlag { reg2, condition: field(fields.small, 0, 4) as u8 },
        0b010011 => Instruction::Compare { reg2, right: fields.small_signed() },
        0b010100 => fields.on_reg2(Operation::ShiftLeft, fields.small_plain()),
        0b010101 => fields.on_reg2(Operation::ShiftRight, fields.small_plain()),
        0b010110 => Instruction::ClearInterruptDisable,
        0b010111 => fields.on_reg2(Operation::ShiftArithmeticRight, fields.small_plain()),
        0b011000 => Instruction::Trap { vector: fields.small as u8 },
        0b011001 => Instruction::ReturnFromException,
        0b011010 => Instruction::Halt,
        0b011011 => Instruction::Illegal,
        0b011100 if system != 24 => Instruction::LoadSystemRegister { reg2, system },
        0b011101 if system != 24 => Instruction::StoreSystemRegister { reg2, system },
        0b011110 => Instruction::SetInterruptDisable,
        _ => return None,
    })
}

/// 101000 to 101111.
fn decode_formats_iv_v(fields: &Fields) -> Instruction {
    let (reg2, reg1) = (fields.reg2, fields.reg1);
    let immediate = fields.second_signed();
    match fields.opcode {
        0b101000 => Instruction::AddKeepingFlags { reg2, reg1, immediate },
        0b101001 => fields.on_reg1(Operation::Add, immediate),
        0b101010 => Instruction::JumpRelative { displacement: fields.long_displacement() },
        0b101011 => Instruction::JumpAndLink { displacement: fields.long_displacement() },
        0b101100 => fields.on_reg1(Operation::Or, fields.second),
        0b101101 => fields.on_reg1(Operation::And, fields.second),
        0b101110 => fields.on_reg1(Operation::ExclusiveOr, fields.second),
        _ => Instruction::AddKeepingFlags { reg2, reg1, immediate: fields.second << 16 },
    }
}

/// 110000 to 111111; none for CAXI.
fn decode_formats_vi_vii(fields: &Fields) -> Option<Instruction> {
    Some(match fields.opcode {
        0b110000 => fields.load(Width::Byte, true),
        0b110001 => fields.load(Width::Half, true),
        0b110011 => fields.load(Width::Word, true),
        0b110100 => fields.store(Width::Byte),
        0b110101 => fields.store(Width::Half),
        0b110111 => fields.store(Width::Word),
        0b111000 => fields.load(Width::Byte, false),
        0b111001 => fields.load(Width::Half, false),
        0b111011 => fields.load(Width::Word, false),
        0b111100 => fields.store(Width::Byte),
        0b111101 => fields.store(Width::Half),
        0b111111 => fields.store(Width::Word),
        0b110010 | 0b110110 => Instruction::Illegal,
        0b111110 => decode_sub_opcode(fields),
        _ => return None,
    })
}

/// 111110, by the sub-opcode: the second halfword's top six bits; its other
/// bits are ignored.
fn decode_sub_opcode(fields: &Fields) -> Instruction {
    let (reg2, reg1) = (fields.reg2, fields.reg1);
    let operation = match field(fields.second, 10, 6) {
        0b000000 => Floating::Compare,
        0b000010 => Floating::FromWord,
        0b000011 => Floating::ToWord,
        0b000100 => Floating::Add,
        0b000101 => Floating::Subtract,
        0b000110 => Floating::Multiply,
        0b000111 => Floating::Divide,
        0b001011 => Floating::Truncate,
        0b001000 => return Instruction::ExchangeBytes { reg2 },
        0b001001 => return Instruction::ExchangeHalfwords { reg2 },
        0b001010 => return Instruction::Reverse { reg2, reg1 },
        0b001100 => return Instruction::MultiplyHalfword { reg2, reg1 },
        _ => return Instruction::Illegal,
    };
    Instruction::Float { operation, reg2, reg1 }
}
