//! The encoder (W8): halfwords to fields and back, the library against the
//! model and against the bits that each opcode keeps.

use model::encoding::{decode, encode, Fields, Halfwords};
use vbsys::{op, Decoded, Encoded, Instruction};

fn fields(i: Instruction) -> Fields {
    let Instruction { operation, reg1, reg2, condition, immediate } = i;
    Fields { operation, reg1, reg2, condition, immediate }
}

fn instruction(x: Fields) -> Instruction {
    let Fields { operation, reg1, reg2, condition, immediate } = x;
    Instruction { operation, reg1, reg2, condition, immediate }
}

/// The library's encoding, which must be the model's.
fn encoded(i: Instruction) -> Encoded {
    let library = vbsys::encode(i);
    let model = match encode(&fields(i)) {
        Ok(Halfwords { count, first, second }) => {
            Encoded { refusal: 0, halfwords: count, first, second }
        }
        Err(refusal) => Encoded { refusal: refusal.number(), ..Encoded::default() },
    };
    assert_eq!(library, model, "{i:?}");
    library
}

/// The library's decoding, which must be the model's.
fn decoded(first: u16, second: u16) -> Decoded {
    let library = vbsys::decode(first, second);
    let model = match decode(first, second) {
        Ok((halfwords, x)) => Decoded { refusal: 0, halfwords, instruction: instruction(x) },
        Err(refusal) => Decoded { refusal: refusal.number(), ..Decoded::default() },
    };
    assert_eq!(library, model, "{first:04X} {second:04X}");
    library
}

/// The bits of both halfwords that an opcode keeps; the second counts where there are two.
fn kept(first: u16, second: u16) -> (u16, u16) {
    match first >> 10 {
        0b000110 | 0b011000 => (0xFC1F, 0),
        0b010010 => (0xFFEF, 0),
        0b010110 | 0b011001 | 0b011010 | 0b011110 => (0xFC00, 0),
        0b000000..=0b011111 => (0xFFFF, 0),
        0b100000..=0b100111 => (0xFFFE, 0),
        0b101010 | 0b101011 => (0xFFFF, 0xFFFE),
        0b111110 if matches!(second >> 10, 0b001000 | 0b001001) => (0xFFE0, 0xFC00),
        0b111110 => (0xFFFF, 0xFC00),
        _ => (0xFFFF, 0xFFFF),
    }
}

/// Halfwords decoded, encoded, compared with the kept bits, and decoded again. Gives whether they are an instruction.
fn round(first: u16, second: u16) -> bool {
    let given = decoded(first, second);
    let Decoded { refusal, halfwords, instruction } = given;
    let back = encoded(instruction);
    if refusal != 0 || instruction.operation == op::ILLEGAL {
        assert!(refusal == 6 || back == Encoded { refusal: 12, ..Encoded::default() });
        return false;
    }
    let (a, b) = kept(first, second);
    let second = if halfwords == 2 { second & b } else { 0 };
    let cleared = Encoded { refusal: 0, halfwords, first: first & a, second };
    assert_eq!(back, cleared, "{first:04X} {second:04X}");
    assert_eq!(decoded(back.first, back.second), given, "{first:04X} {second:04X}");
    true
}

/// Every first halfword, with every second one where the registers are r7 and r19, and with 64 elsewhere: those whose
/// bits are one bit or all but one, the sub-opcodes, and others from all over.
#[test]
fn every_first_halfword() {
    let some: Vec<u16> = (0..16u16)
        .flat_map(|k| [1 << k, !(1 << k), (k << 10) | 0x155, k.wrapping_mul(0x9E37) ^ 0x5AF0])
        .collect();
    assert_eq!(some.len(), 64);
    let mut legal = 0u64;
    for first in 0..=u16::MAX {
        if first & 0x3FF == 7 << 5 | 19 {
            legal += (0..=u16::MAX).filter(|&second| round(first, second)).count() as u64;
        } else {
            legal += some.iter().filter(|&&second| round(first, second)).count() as u64;
        }
    }
    assert!(legal > 6_000_000, "{legal}");
}

/// Every operation number that is one, and its row of the table: which members it has, and the range of its immediate.
fn operations() -> Vec<(u32, [bool; 3], Range)> {
    let mut rows = Vec::new();
    let mut add = |numbers: &[u32], members: [bool; 3], range: Range| {
        rows.extend(numbers.iter().map(|&n| (n, members, range)));
    };
    let both = [true, true, false];
    add(&[0, 1, 2, 3, 4, 5, 7, 8, 9, 10, 11, 12, 13, 14, 15], both, Range::None);
    add(&[op::JMP], [true, false, false], Range::None);
    add(&[op::MOV_IMM, op::ADD_IMM, op::CMP_IMM], [false, true, false], Range::Signed(16));
    add(&[op::SHL_IMM, op::SHR_IMM, op::SAR_IMM], [false, true, false], Range::Below(32));
    add(&[op::SETF], [false, true, true], Range::None);
    add(&[op::TRAP], [false; 3], Range::Below(32));
    add(&[op::CLI, op::SEI, op::RETI, op::HALT], [false; 3], Range::None);
    add(&[op::LDSR, op::STSR], [false, true, false], Range::System);
    add(&[op::BCOND], [false, false, true], Range::Even(256));
    add(&[op::JR, op::JAL], [false; 3], Range::Even(0x200_0000));
    add(&[op::MOVEA, op::ADDI], both, Range::Signed(0x8000));
    let memory = [48, 49, 51, 52, 53, 55, 56, 57, 59, 60, 61, 63];
    add(&memory, both, Range::Signed(0x8000));
    add(&[op::ORI, op::ANDI, op::XORI, op::MOVHI], both, Range::Below(0x10000));
    add(&[64, 66, 67, 68, 69, 70, 71, 74, 75, 76], both, Range::None);
    add(&[op::XB, op::XH], [false, true, false], Range::None);
    rows
}

#[derive(Clone, Copy, Debug)]
enum Range {
    None,
    Below(u32),
    System,
    Signed(u32),
    Even(u32),
}

impl Range {
    fn has(self, x: u32) -> bool {
        let signed = i64::from(x as i32);
        match self {
            Range::None => x == 0,
            Range::Below(limit) => x < limit,
            Range::System => x < 32 && x != 24,
            Range::Signed(half) => (-i64::from(half)..i64::from(half)).contains(&signed),
            Range::Even(half) => x.is_multiple_of(2) && Range::Signed(half).has(x),
        }
    }

    /// Words at both sides of each limit, and far from it.
    fn words(self) -> Vec<u32> {
        let near = |n: u32| (0..7).map(move |k| n.wrapping_add(k).wrapping_sub(3));
        let limits = match self {
            Range::None => vec![0],
            Range::Below(limit) => vec![0, limit],
            Range::System => vec![0, 24, 32],
            Range::Signed(half) | Range::Even(half) => vec![0, half, half.wrapping_neg()],
        };
        let far = [0x8000_0000, u32::MAX, 0xFFFF, 0x1_0000, 0x7FFF_FFFF];
        limits.into_iter().flat_map(near).chain(far).collect()
    }
}

const REGISTERS: [u32; 8] = [0, 1, 15, 16, 31, 32, 0x8000_0000, u32::MAX];

/// Every operation with each member at both sides of its range, far from it, and with members that it does not have.
#[test]
fn every_operation_at_its_limits() {
    let rows = operations();
    assert_eq!(rows.len(), 63);
    let mut accepted = 0u64;
    for (operation, [has_reg1, has_reg2, has_condition], range) in rows {
        for &reg1 in &REGISTERS {
            for &reg2 in &REGISTERS {
                for &condition in &REGISTERS {
                    for &immediate in &range.words() {
                        let i = Instruction { operation, reg1, reg2, condition, immediate };
                        let within =
                            |has: bool, x: u32, limit: u32| x < if has { limit } else { 1 };
                        let legal = within(has_reg1, reg1, 32)
                            && within(has_reg2, reg2, 32)
                            && within(has_condition, condition, 16)
                            && range.has(immediate);
                        let answer = encoded(i);
                        assert_eq!(answer.refusal, if legal { 0 } else { 12 }, "{i:?}");
                        if legal {
                            accepted += 1;
                            let Encoded { halfwords, first, second, .. } = answer;
                            let expected = Decoded { refusal: 0, halfwords, instruction: i };
                            assert_eq!(decoded(first, second), expected);
                        }
                    }
                }
            }
        }
    }
    assert!(accepted > 4_000, "{accepted}");
}

/// Numbers 0 to 300: those that are no operation are refused with any members.
#[test]
fn every_operation_number() {
    let known: Vec<u32> = operations().iter().map(|row| row.0).collect();
    for operation in (0..=300).chain([0x8000_0000, u32::MAX]) {
        for members in [[0, 0, 0, 0], [1, 2, 0, 0], [0, 2, 3, 0], [0, 0, 0, 2], [31, 31, 15, 30]] {
            let [reg1, reg2, condition, immediate] = members;
            let i = Instruction { operation, reg1, reg2, condition, immediate };
            let refused = encoded(i).refusal == 12;
            assert!(refused || known.contains(&operation), "{operation}");
        }
        let bare = Instruction { operation, ..Instruction::default() };
        assert_eq!(encoded(bare).refusal == 0, known.contains(&operation), "{operation}");
    }
}

/// The worked rows.
#[test]
fn worked_rows() {
    let minus = |n: u32| n.wrapping_neg();
    let none = Instruction::default();
    for (i, halfwords) in [
        (
            Instruction { operation: op::ADD_IMM, reg2: 10, immediate: minus(1), ..none },
            (1, 0x455F, 0),
        ),
        (Instruction { operation: op::JR, immediate: minus(4), ..none }, (2, 0xABFF, 0xFFFC)),
        (Instruction { operation: op::JAL, immediate: 33_554_430, ..none }, (2, 0xADFF, 0xFFFE)),
        (Instruction { operation: op::BCOND, condition: 13, ..none }, (1, 0x9A00, 0)),
        (
            Instruction { operation: op::BCOND, condition: 5, immediate: minus(256), ..none },
            (1, 0x8B00, 0),
        ),
        (Instruction { operation: op::SETF, condition: 15, reg2: 7, ..none }, (1, 0x48EF, 0)),
        (
            Instruction { operation: op::MOVHI, reg2: 1, immediate: 0x0700, ..none },
            (2, 0xBC20, 0x0700),
        ),
        (Instruction { operation: op::ADDF_S, reg1: 11, reg2: 10, ..none }, (2, 0xF94B, 0x1000)),
        (Instruction { operation: op::XB, reg2: 10, ..none }, (2, 0xF940, 0x2000)),
        (Instruction { operation: op::STSR, reg2: 9, immediate: 5, ..none }, (1, 0x7525, 0)),
        (Instruction { operation: op::TRAP, immediate: 31, ..none }, (1, 0x601F, 0)),
        (Instruction { operation: op::JMP, reg1: 31, ..none }, (1, 0x181F, 0)),
    ] {
        let Encoded { refusal, halfwords: count, first, second } = encoded(i);
        assert_eq!((refusal, (count, first, second)), (0, halfwords), "{i:?}");
    }
    let again = |first, second| {
        let Encoded { refusal, first, second, .. } = encoded(decoded(first, second).instruction);
        (refusal, first, second)
    };
    assert_eq!(again(0x1BFF, 0), (0, 0x181F, 0));
    assert_eq!(again(0xFBFF, 0x23FF), (0, 0xFBE0, 0x2000));
    for i in [
        Instruction { operation: op::BCOND, condition: 5, immediate: 3, ..none },
        Instruction { operation: op::JR, immediate: 1, ..none },
        Instruction { operation: op::ADD_IMM, reg2: 1, immediate: 16, ..none },
        Instruction { operation: op::ORI, immediate: minus(1), ..none },
        Instruction { operation: op::LDSR, reg2: 1, immediate: 24, ..none },
        Instruction { operation: op::MOV, reg1: 32, ..none },
        Instruction { operation: op::ILLEGAL, ..none },
    ] {
        assert_eq!(encoded(i), Encoded { refusal: 12, ..Encoded::default() }, "{i:?}");
    }
}
