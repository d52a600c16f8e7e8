//! Results and flags of the arithmetic and bitwise instructions: 000
//! "Arithmetic", "Bitwise" and the conditions of Bcond; 01 "Instructions".

use crate::instruction::Operation;

/// Bits of PSW.
pub const Z: u32 = 1 << 0;
pub const S: u32 = 1 << 1;
pub const OV: u32 = 1 << 2;
pub const CY: u32 = 1 << 3;
pub const ID: u32 = 1 << 12;
pub const AE: u32 = 1 << 13;
pub const EP: u32 = 1 << 14;
pub const NP: u32 = 1 << 15;
/// The interrupt level, four bits.
pub const I: u32 = 15 << 16;
/// The bits that PSW, EIPSW and FEPSW hold.
pub const PSW_BITS: u32 = 0x000F_F3FF;

/// What an operation gives. Z and S always follow `result`.
#[derive(Clone, Copy, Debug, PartialEq, Eq)]
pub struct Outcome {
    pub result: u32,
    /// The high word of a product or the remainder of a division, for r30.
    pub second: Option<u32>,
    pub overflow: bool,
    /// None keeps CY.
    pub carry: Option<bool>,
}

impl Outcome {
    /// A bitwise result: OV cleared, CY kept.
    fn bitwise(result: u32) -> Outcome {
        Outcome { result, second: None, overflow: false, carry: None }
    }

    /// The flags of PSW after this outcome.
    pub fn flags(&self, psw: u32) -> u32 {
        let carry = self.carry.unwrap_or(psw & CY != 0);
        let mut after = psw & !(Z | S | OV | CY);
        after |= if self.result == 0 { Z } else { 0 };
        after |= if self.result >> 31 == 1 { S } else { 0 };
        after |= if self.overflow { OV } else { 0 };
        after |= if carry { CY } else { 0 };
        after
    }
}

/// A zero divisor: exception 0xFF80.
#[derive(Clone, Copy, Debug, PartialEq, Eq)]
pub struct ZeroDivisor;

/// `left` (operation) `right`.
pub fn operate(operation: Operation, left: u32, right: u32) -> Result<Outcome, ZeroDivisor> {
    Ok(match operation {
        Operation::Add => add(left, right),
        Operation::Subtract => subtract(left, right),
        Operation::And => Outcome::bitwise(left & right),
        Operation::Or => Outcome::bitwise(left | right),
        Operation::ExclusiveOr => Outcome::bitwise(left ^ right),
        Operation::ShiftLeft => shift_left(left, right % 32),
        Operation::ShiftRight => shift_right(left, right % 32),
        Operation::ShiftArithmeticRight => shift_arithmetic_right(left, right % 32),
        Operation::Multiply => multiply(left, right),
        Operation::MultiplyUnsigned => multiply_unsigned(left, right),
        Operation::Divide => return divide(left, right),
        Operation::DivideUnsigned => return divide_unsigned(left, right),
    })
}

/// Whether a signed number does not fit in a 32-bit word.
fn leaves_signed_word(value: i64) -> bool {
    i32::try_from(value).is_err()
}

/// The sum; OV by the signed sum, CY by the unsigned one.
pub fn add(left: u32, right: u32) -> Outcome {
    let signed = i64::from(left as i32) + i64::from(right as i32);
    let unsigned = u64::from(left) + u64::from(right);
    Outcome {
        result: left.wrapping_add(right),
        second: None,
        overflow: leaves_signed_word(signed),
        carry: Some(unsigned > u64::from(u32::MAX)),
    }
}

/// The difference; "carry will be set when subtracting an unsigned value from
/// a lesser value".
pub fn subtract(left: u32, right: u32) -> Outcome {
    let signed = i64::from(left as i32) - i64::from(right as i32);
    Outcome {
        result: left.wrapping_sub(right),
        second: None,
        overflow: leaves_signed_word(signed),
        carry: Some(left < right),
    }
}

/// NOT: OV cleared, CY kept.
pub fn not(value: u32) -> Outcome {
    Outcome::bitwise(!value)
}

/// A shift's outcome: OV cleared; "CY is the last bit out, clear for amount 0".
fn shifted(result: u32, last_bit_out: bool) -> Outcome {
    Outcome { result, second: None, overflow: false, carry: Some(last_bit_out) }
}

/// `amount` is 0 to 31. The last bit out is bit 32 of the unbounded shift.
fn shift_left(value: u32, amount: u32) -> Outcome {
    let wide = u64::from(value) << amount;
    shifted(wide as u32, wide >> 32 & 1 == 1)
}

/// Bit `amount - 1`, the last that a shift to the right drops.
fn last_dropped(value: u32, amount: u32) -> bool {
    amount != 0 && value >> (amount - 1) & 1 == 1
}

fn shift_right(value: u32, amount: u32) -> Outcome {
    shifted(value >> amount, last_dropped(value, amount))
}

fn shift_arithmetic_right(value: u32, amount: u32) -> Outcome {
    let result = (i64::from(value as i32).div_euclid(1 << amount)) as u32;
    shifted(result, last_dropped(value, amount))
}

/// R8. 000: the full product "is not equivalent to the 64-bit value produced
/// by sign-extending the lower 32 bits", one sentence for MUL and MULU.
fn product_overflows(product: u64) -> bool {
    product != i64::from(product as u32 as i32) as u64
}

fn product(product: u64) -> Outcome {
    Outcome {
        result: product as u32,
        second: Some((product >> 32) as u32),
        overflow: product_overflows(product),
        carry: None,
    }
}

fn multiply(left: u32, right: u32) -> Outcome {
    product((i64::from(left as i32) * i64::from(right as i32)) as u64)
}

fn multiply_unsigned(left: u32, right: u32) -> Outcome {
    product(u64::from(left) * u64::from(right))
}

/// 01: "DIV truncates towards zero"; 0x80000000 by -1 gives 0x80000000,
/// remainder 0, OV set.
fn divide(left: u32, right: u32) -> Result<Outcome, ZeroDivisor> {
    let (dividend, divisor) = (i64::from(left as i32), i64::from(right as i32));
    if divisor == 0 {
        return Err(ZeroDivisor);
    }
    let (quotient, remainder) = (dividend / divisor, dividend % divisor);
    Ok(Outcome {
        result: quotient as u32,
        second: Some(remainder as u32),
        overflow: leaves_signed_word(quotient),
        carry: None,
    })
}

fn divide_unsigned(left: u32, right: u32) -> Result<Outcome, ZeroDivisor> {
    if right == 0 {
        return Err(ZeroDivisor);
    }
    Ok(Outcome { result: left / right, second: Some(left % right), overflow: false, carry: None })
}

/// Whether one of the sixteen conditions of Bcond and SETF holds in `psw`.
pub fn condition_holds(condition: u8, psw: u32) -> bool {
    let set = |flag: u32| psw & flag != 0;
    let (zero, sign, overflow, carry) = (set(Z), set(S), set(OV), set(CY));
    match condition {
        0 => overflow,
        1 => carry,
        2 => zero,
        3 => carry || zero,
        4 => sign,
        5 => true,
        6 => overflow != sign,
        7 => (overflow != sign) || zero,
        8 => !overflow,
        9 => !carry,
        10 => !zero,
        11 => !(carry || zero),
        12 => !sign,
        13 => false,
        14 => overflow == sign,
        15 => !((overflow != sign) || zero),
        _ => unreachable!("a condition is four bits"),
    }
}
