//! Floating-point instructions: 000 "Floating-Point", W4. Everything is worked
//! out in whole numbers; the machine's own floats have no part in it.
//!
//! A short floating word is a sign, 8 bits of exponent and 23 of fraction. Only
//! zeros and normal numbers are operands, so that every operand is a significand
//! below 2^24 times a power of two, and every result is rounded once from its
//! exact value.

use crate::arithmetic::{CY, OV, S, Z};
use crate::number::{bit, field, sign_extend};

/// Flags of PSW that floating instructions set and never clear.
pub const FRO: u32 = 1 << 9;
pub const FIV: u32 = 1 << 8;
pub const FZD: u32 = 1 << 7;
pub const FOV: u32 = 1 << 6;
pub const FUD: u32 = 1 << 5;

/// The floating instructions of format VII.
#[derive(Clone, Copy, Debug, PartialEq, Eq)]
pub enum Floating {
    /// CMPF.S: reg2 compared with reg1.
    Compare,
    /// CVT.WS: the float nearest to the signed word reg1.
    FromWord,
    /// CVT.SW: the whole number nearest to reg1.
    ToWord,
    /// ADDF.S: reg2 + reg1.
    Add,
    /// SUBF.S: reg2 - reg1.
    Subtract,
    /// MULF.S: reg2 * reg1.
    Multiply,
    /// DIVF.S: reg2 / reg1.
    Divide,
    /// TRNC.SW: reg1 without its fraction.
    Truncate,
}

/// Why a floating instruction traps, in the order in which they are tested.
#[derive(Clone, Copy, Debug, PartialEq, Eq)]
pub enum Trap {
    /// An infinity, a not-a-number or a nonzero subnormal.
    ReservedOperand,
    /// Zero by zero, or a value outside the signed word.
    InvalidOperation,
    /// A nonzero number by zero.
    ZeroDivision,
    /// The rounded size is 2^128 or more.
    Overflow,
}

/// What a floating instruction that ends leaves.
#[derive(Clone, Copy, Debug, PartialEq, Eq)]
pub struct Ended {
    /// For reg2; none from CMPF.S.
    pub result: Option<u32>,
    pub psw: u32,
}

/// W4: "An infinity, a not-a-number or a nonzero subnormal is a reserved
/// operand".
pub fn is_reserved(word: u32) -> bool {
    let (exponent, fraction) = (field(word, 23, 8), field(word, 0, 23));
    exponent == 255 || (exponent == 0 && fraction != 0)
}

/// A zero or a normal number: significand times 2^exponent, with a sign.
#[derive(Clone, Copy, Debug)]
struct Number {
    negative: bool,
    /// 0, or 2^23 to 2^24 - 1.
    significand: u128,
    exponent: i32,
}

impl Number {
    /// Reads a word that isn't reserved.
    fn read(word: u32) -> Number {
        let negative = bit(word, 31);
        let (exponent, fraction) = (field(word, 23, 8) as i32, u128::from(field(word, 0, 23)));
        if exponent == 0 {
            return Number { negative, significand: 0, exponent: 0 };
        }
        Number { negative, significand: (1 << 23) + fraction, exponent: exponent - 150 }
    }

    fn is_zero(self) -> bool {
        self.significand == 0
    }

    /// The same size with the other sign, of a zero too.
    fn negated(self) -> Number {
        Number { negative: !self.negative, ..self }
    }
}

/// An exact result: a zero of a sign, or `units` times 2^exponent, plus
/// something above 0 and below one unit where `more` is set. `units` has more
/// than 25 bits where `more` is set.
#[derive(Clone, Copy, Debug)]
struct Exact {
    negative: bool,
    units: u128,
    exponent: i32,
    more: bool,
}

/// What an exact result is rounded to.
#[derive(Clone, Copy, Debug, PartialEq, Eq)]
enum Rounded {
    Float(u32),
    /// Not exactly zero, and rounded to zero or a subnormal: a zero of its sign.
    Underflow(u32),
    /// The rounded size is 2^128 or more.
    Overflow,
}

/// The bits of a whole number without leading zeros.
fn bits(value: u128) -> i32 {
    128 - value.leading_zeros() as i32
}

/// The whole number nearest to `value` / 2^shift, the even one of two; `more`
/// says that `value` is a little larger.
fn nearest(value: u128, shift: i32, more: bool) -> u128 {
    if shift <= 0 {
        return value << -shift;
    }
    if shift > bits(value) {
        // less than a half
        return 0;
    }
    let below = value >> shift;
    let rest = value - (below << shift);
    let half = 1 << (shift - 1);
    let up = rest > half || (rest == half && (more || below % 2 == 1));
    below + u128::from(up)
}

/// "each result is rounded once to nearest, ties to even": to 24 bits, and to
/// no finer than 2^-149, the unit of the subnormals; without a largest
/// exponent, so that overflow is seen after rounding.
fn round(exact: Exact) -> Rounded {
    let sign = u32::from(exact.negative) << 31;
    if exact.units == 0 {
        return Rounded::Float(sign);
    }
    let unit = (exact.exponent + bits(exact.units) - 24).max(-149);
    let mut significand = nearest(exact.units, unit - exact.exponent, exact.more);
    let mut unit = unit;
    if significand == 1 << 24 {
        significand = 1 << 23;
        unit += 1;
    }
    if significand < 1 << 23 {
        return Rounded::Underflow(sign);
    }
    if unit + 24 > 128 {
        return Rounded::Overflow;
    }
    let fraction = significand as u32 - (1 << 23);
    Rounded::Float(sign | ((unit + 150) as u32) << 23 | fraction)
}

/// left + right. A sum that is exactly zero has the sign of both, and is +0
/// where they differ (IEEE 754, to nearest).
fn add(left: Number, right: Number) -> Exact {
    let left_is_higher = !left.is_zero() && left.exponent >= right.exponent;
    let (high, low) = if right.is_zero() || left_is_higher { (left, right) } else { (right, left) };
    let (low, distance) = nearer(high, low);
    let size = |number: Number, shift: i32| {
        let units = i128::try_from(number.significand << shift).expect("few bits");
        if number.negative {
            -units
        } else {
            units
        }
    };
    let sum = size(high, distance) + size(low, 0);
    let negative = if sum == 0 { left.negative && right.negative } else { sum < 0 };
    let (units, exponent) = (sum.unsigned_abs(), high.exponent - distance);
    Exact { negative, units, exponent, more: false }
}

/// The lower of two operands of a sum, with its distance below the higher one's
/// exponent. One that lies more than 64 binary places below a number of 24 bits
/// only says that the sum isn't exactly that number; the least number at 64
/// places, of its sign, says the same.
fn nearer(high: Number, low: Number) -> (Number, i32) {
    if low.is_zero() {
        return (low, 0);
    }
    let distance = high.exponent - low.exponent;
    if distance > 64 {
        return (Number { significand: 1, exponent: high.exponent - 64, ..low }, 64);
    }
    (low, distance)
}

fn multiply(left: Number, right: Number) -> Exact {
    Exact {
        negative: left.negative != right.negative,
        units: left.significand * right.significand,
        exponent: left.exponent + right.exponent,
        more: false,
    }
}

/// Places that a quotient is worked out beyond its dividend's.
const QUOTIENT_PLACES: i32 = 40;

/// left / right, which isn't zero. The quotient of two significands has at
/// least 40 bits at 40 more places.
fn divide(left: Number, right: Number) -> Exact {
    let dividend = left.significand << QUOTIENT_PLACES;
    Exact {
        negative: left.negative != right.negative,
        units: dividend / right.significand,
        exponent: left.exponent - right.exponent - QUOTIENT_PLACES,
        more: !dividend.is_multiple_of(right.significand),
    }
}

/// The exact result of one of the four operations on operands that aren't
/// reserved, after the tests that come before rounding.
fn calculate(operation: Floating, reg2: Number, reg1: Number) -> Result<Exact, Trap> {
    match operation {
        Floating::Add => Ok(add(reg2, reg1)),
        Floating::Subtract => Ok(add(reg2, reg1.negated())),
        Floating::Multiply => Ok(multiply(reg2, reg1)),
        _ if reg1.is_zero() && reg2.is_zero() => Err(Trap::InvalidOperation),
        _ if reg1.is_zero() => Err(Trap::ZeroDivision),
        _ => Ok(divide(reg2, reg1)),
    }
}

/// Z, S, OV and CY replaced; "in the flags a zero of either sign isn't
/// negative (H)", which the caller has seen to.
fn with_flags(psw: u32, zero: bool, negative: bool, carry: bool) -> u32 {
    let flag = |set: bool, flag: u32| if set { flag } else { 0 };
    psw & !(Z | S | OV | CY) | flag(zero, Z) | flag(negative, S) | flag(carry, CY)
}

/// The flags of a result that is a float: CY and S are its sign.
fn float_flags(psw: u32, result: u32) -> u32 {
    let zero = field(result, 0, 31) == 0;
    let negative = bit(result, 31) && !zero;
    with_flags(psw, zero, negative, negative)
}

/// A word as a place among the numbers: of two floats that aren't reserved the
/// lower number has the lower place, and both zeros have place 0.
fn place(word: u32) -> i64 {
    let size = i64::from(field(word, 0, 31));
    if bit(word, 31) {
        -size
    } else {
        size
    }
}

/// The signed word of a size and a sign; "A value outside the signed word is
/// invalid."
fn to_word(negative: bool, size: u128) -> Result<u32, Trap> {
    let size = i64::try_from(size).map_err(|_| Trap::InvalidOperation)?;
    let value = if negative { -size } else { size };
    let word = i32::try_from(value).map_err(|_| Trap::InvalidOperation)?;
    Ok(word as u32)
}

/// The size of a number as a whole one: nearest with ties to even, or without
/// its fraction.
fn whole(number: Number, truncated: bool) -> u128 {
    let shift = -number.exponent;
    if truncated && shift > 0 {
        return if shift < 128 { number.significand >> shift } else { 0 };
    }
    // 2^40 and more lie outside the signed word wherever they are
    nearest(number.significand, shift.max(-40), false)
}

/// Executes a floating instruction on the words of reg2 and reg1.
pub fn execute(operation: Floating, reg2: u32, reg1: u32, psw: u32) -> Result<Ended, Trap> {
    let reserved = match operation {
        Floating::FromWord => false,
        Floating::ToWord | Floating::Truncate => is_reserved(reg1),
        _ => is_reserved(reg1) || is_reserved(reg2),
    };
    if reserved {
        return Err(Trap::ReservedOperand);
    }
    match operation {
        Floating::Compare => {
            let (zero, lower) = (place(reg2) == place(reg1), place(reg2) < place(reg1));
            Ok(Ended { result: None, psw: with_flags(psw, zero, lower, lower) })
        }
        Floating::FromWord => {
            let value = sign_extend(reg1, 32);
            let units = u128::from(value.unsigned_abs());
            let exact = Exact { negative: value < 0, units, exponent: 0, more: false };
            let Rounded::Float(result) = round(exact) else {
                unreachable!("a word is neither too large nor too small")
            };
            Ok(Ended { result: Some(result), psw: float_flags(psw, result) })
        }
        Floating::ToWord | Floating::Truncate => {
            let number = Number::read(reg1);
            let size = whole(number, operation == Floating::Truncate);
            let word = to_word(number.negative, size)?;
            let carry = psw & CY != 0;
            let psw = with_flags(psw, word == 0, bit(word, 31), carry);
            Ok(Ended { result: Some(word), psw })
        }
        _ => match round(calculate(operation, Number::read(reg2), Number::read(reg1))?) {
            Rounded::Float(result) => {
                Ok(Ended { result: Some(result), psw: float_flags(psw, result) })
            }
            Rounded::Underflow(zero) => {
                Ok(Ended { result: Some(zero), psw: float_flags(psw, zero) | FUD })
            }
            Rounded::Overflow => Err(Trap::Overflow),
        },
    }
}

/// MPYHW: 000 "sign-extending the lower 17 bits of reg1"; the product's low
/// word.
pub fn multiply_halfword(reg2: u32, reg1: u32) -> u32 {
    let product = i64::from(sign_extend(reg2, 32)) * i64::from(sign_extend(reg1, 17));
    product as u32
}

/// XB: "exchanges the two low bytes"; the high halfword stays.
pub fn exchange_bytes(word: u32) -> u32 {
    let [first, second, third, fourth] = word.to_le_bytes();
    u32::from_le_bytes([second, first, third, fourth])
}

/// XH: the two halfwords exchanged.
pub fn exchange_halfwords(word: u32) -> u32 {
    let [first, second, third, fourth] = word.to_le_bytes();
    u32::from_le_bytes([third, fourth, first, second])
}

/// REV: bit i of the result is bit 31 - i of the operand.
pub fn reverse(word: u32) -> u32 {
    (0..32).filter(|&i| bit(word, 31 - i)).map(|i| 1 << i).sum()
}
