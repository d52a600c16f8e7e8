//! The encoder (W8): an instruction as a record of its fields, into halfwords and
//! back. It is written from 000's formats by itself; [`crate::instruction`] has
//! no part in it.

use crate::number::{field, sign_extend};
use crate::refusal::{refuse_unless, Refusal};

/// An instruction with its fields; a field that the operation does not have is 0.
#[derive(Clone, Copy, Debug, Default, PartialEq, Eq)]
pub struct Fields {
    /// The opcode, 32 for Bcond, and 64 + the sub-opcode under 111110.
    pub operation: u32,
    pub reg1: u32,
    pub reg2: u32,
    pub condition: u32,
    /// A word, a negative one as two's complement.
    pub immediate: u32,
}

/// The operation number of an invalid opcode or sub-opcode.
pub const ILLEGAL: u32 = 255;

/// One or two halfwords; the second is 0 where there is only one.
#[derive(Clone, Copy, Debug, PartialEq, Eq)]
pub struct Halfwords {
    pub count: u32,
    pub first: u16,
    pub second: u16,
}

/// Which fields an operation has, and where they stand.
#[derive(Clone, Copy, Debug, PartialEq, Eq)]
enum Layout {
    /// reg2 in bits 9-5, reg1 in bits 4-0.
    TwoRegisters,
    /// JMP: reg1 alone.
    OneRegister,
    /// reg2, and five bits that hold -16 to 15.
    SmallSigned,
    /// reg2, and five bits that hold 0 to 31.
    SmallPlain,
    /// SETF: reg2, and a condition in the low four bits.
    SetFlag,
    /// TRAP: a vector in the low five bits.
    Vector,
    /// No field.
    Plain,
    /// LDSR, STSR: reg2, and a system register in the low five bits, not 24.
    System,
    /// Bcond: a condition in bits 12-9, an even offset in bits 8-0.
    Branch,
    /// JR, JAL: an even offset of 26 bits, ten of them in the first halfword.
    Jump,
    /// reg1, reg2, and a second halfword that holds -32,768 to 32,767.
    LongSigned,
    /// reg1, reg2, and a second halfword that holds 0 to 65,535.
    LongPlain,
    /// 111110: reg1, reg2, the sub-opcode in the second halfword's top six bits.
    SubTwoRegisters,
    /// XB, XH: reg2 and the sub-opcode.
    SubOneRegister,
}

/// The layout of an operation; `None` for a number that is not an operation.
fn layout_of(operation: u32) -> Option<Layout> {
    Some(match operation {
        6 => Layout::OneRegister,
        0..=15 => Layout::TwoRegisters,
        16 | 17 | 19 => Layout::SmallSigned,
        18 => Layout::SetFlag,
        20 | 21 | 23 => Layout::SmallPlain,
        22 | 25 | 26 | 30 => Layout::Plain,
        24 => Layout::Vector,
        28 | 29 => Layout::System,
        32 => Layout::Branch,
        40 | 41 => Layout::LongSigned,
        42 | 43 => Layout::Jump,
        44..=47 => Layout::LongPlain,
        48 | 49 | 51..=53 | 55..=57 | 59..=61 | 63 => Layout::LongSigned,
        72 | 73 => Layout::SubOneRegister,
        64 | 66..=71 | 74..=76 => Layout::SubTwoRegisters,
        _ => return None,
    })
}

/// Whether a word is, as a signed number, from `least` to `most`.
fn within(word: u32, least: i32, most: i32) -> bool {
    (least..=most).contains(&sign_extend(word, 32))
}

/// Whether the fields are in their ranges, and those that the operation does not
/// have are 0.
fn in_range(layout: Layout, fields: &Fields) -> bool {
    let Fields { reg1, reg2, condition, immediate, .. } = *fields;
    let even = immediate % 2 == 0;
    let (has_reg1, has_reg2, has_condition, immediate_fits) = match layout {
        Layout::TwoRegisters | Layout::SubTwoRegisters => (true, true, false, immediate == 0),
        Layout::OneRegister => (true, false, false, immediate == 0),
        Layout::SubOneRegister => (false, true, false, immediate == 0),
        Layout::SmallSigned => (false, true, false, within(immediate, -16, 15)),
        Layout::SmallPlain => (false, true, false, immediate <= 31),
        Layout::SetFlag => (false, true, true, immediate == 0),
        Layout::Vector => (false, false, false, immediate <= 31),
        Layout::Plain => (false, false, false, immediate == 0),
        Layout::System => (false, true, false, immediate <= 31 && immediate != 24),
        Layout::Branch => (false, false, true, even && within(immediate, -256, 254)),
        Layout::Jump => (false, false, false, even && within(immediate, -33_554_432, 33_554_430)),
        Layout::LongSigned => (true, true, false, within(immediate, -32_768, 32_767)),
        Layout::LongPlain => (true, true, false, immediate <= 0xFFFF),
    };
    let fits = |has: bool, value: u32, most: u32| value <= if has { most } else { 0 };
    fits(has_reg1, reg1, 31)
        && fits(has_reg2, reg2, 31)
        && fits(has_condition, condition, 15)
        && immediate_fits
}

/// The halfwords of an instruction, unused bits clear; refusal 12.
pub fn encode(fields: &Fields) -> Result<Halfwords, Refusal> {
    let layout = layout_of(fields.operation).ok_or(Refusal::Encoding)?;
    refuse_unless(in_range(layout, fields), Refusal::Encoding)?;
    let Fields { operation, reg1, reg2, condition, immediate } = *fields;
    let opcode = |opcode: u32| opcode << 10;
    let small = field(immediate, 0, 5);
    let one = |first: u32| Halfwords { count: 1, first: first as u16, second: 0 };
    let two = |first: u32, second: u32| Halfwords {
        count: 2,
        first: first as u16,
        second: second as u16,
    };
    let registers = reg2 << 5 | reg1;
    Ok(match layout {
        Layout::TwoRegisters | Layout::OneRegister => one(opcode(operation) | registers),
        Layout::SmallSigned | Layout::SmallPlain | Layout::Vector | Layout::System => {
            one(opcode(operation) | reg2 << 5 | small)
        }
        Layout::SetFlag => one(opcode(operation) | reg2 << 5 | condition),
        Layout::Plain => one(opcode(operation)),
        Layout::Branch => one(0x8000 | condition << 9 | field(immediate, 0, 9)),
        Layout::Jump => two(opcode(operation) | field(immediate, 16, 10), field(immediate, 0, 16)),
        Layout::LongSigned | Layout::LongPlain => {
            two(opcode(operation) | registers, field(immediate, 0, 16))
        }
        Layout::SubTwoRegisters | Layout::SubOneRegister => {
            two(opcode(0b111110) | registers, opcode(operation - 64))
        }
    })
}

/// What two halfwords are: the operation's number, with how many of them count.
fn operation_of(first: u32, second: u32) -> Result<(u32, u32), Refusal> {
    match field(first, 10, 6) {
        0b011111 | 0b111010 => Err(Refusal::NotModelled),
        0b011100 | 0b011101 if field(first, 0, 5) == 24 => Err(Refusal::NotModelled),
        0b011011 | 0b110010 | 0b110110 => Ok((ILLEGAL, 1)),
        0b100000..=0b100111 => Ok((32, 1)),
        0b111110 => {
            let operation = 64 + field(second, 10, 6);
            let listed = layout_of(operation).is_some();
            Ok((if listed { operation } else { ILLEGAL }, 2))
        }
        opcode => Ok((opcode, if opcode < 0b101000 { 1 } else { 2 })),
    }
}

/// The instruction of one or two halfwords, with how many of them count; refusal
/// 6. An illegal one is [`ILLEGAL`] without fields.
pub fn decode(first: u16, second: u16) -> Result<(u32, Fields), Refusal> {
    let (first, second) = (u32::from(first), u32::from(second));
    let (operation, count) = operation_of(first, second)?;
    let plain = Fields { operation, ..Fields::default() };
    let (reg1, reg2) = (field(first, 0, 5), field(first, 5, 5));
    let signed = |value: u32, width: u32| sign_extend(value, width) as u32;
    let fields = match layout_of(operation) {
        None => plain,
        Some(Layout::TwoRegisters | Layout::SubTwoRegisters) => Fields { reg1, reg2, ..plain },
        Some(Layout::OneRegister) => Fields { reg1, ..plain },
        Some(Layout::SubOneRegister) => Fields { reg2, ..plain },
        Some(Layout::SmallSigned) => Fields { reg2, immediate: signed(reg1, 5), ..plain },
        Some(Layout::SmallPlain | Layout::System) => Fields { reg2, immediate: reg1, ..plain },
        Some(Layout::SetFlag) => Fields { reg2, condition: field(first, 0, 4), ..plain },
        Some(Layout::Vector) => Fields { immediate: reg1, ..plain },
        Some(Layout::Plain) => plain,
        Some(Layout::Branch) => {
            let immediate = signed(field(first, 0, 9), 9) & !1;
            Fields { condition: field(first, 9, 4), immediate, ..plain }
        }
        Some(Layout::Jump) => {
            let immediate = signed(field(first, 0, 10) << 16 | second, 26) & !1;
            Fields { immediate, ..plain }
        }
        Some(Layout::LongSigned) => Fields { reg1, reg2, immediate: signed(second, 16), ..plain },
        Some(Layout::LongPlain) => Fields { reg1, reg2, immediate: second, ..plain },
    };
    Ok((count, fields))
}
