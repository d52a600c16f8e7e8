//! W4's worked rows, and the floating instructions against exact arithmetic.

use model::arithmetic::Z;
use model::floating::{execute, is_reserved, Ended, Floating, Trap, FIV, FOV, FRO, FUD, FZD};
use model::instruction::{decode, Decoded, Instruction};
use model::processor::step;
use model::{Cause, DrawingRegisters, Memories, Mode, Processor, StepAnswer};
use worked::floating::*;

/// A step of a format VII instruction with reg2 5 and reg1 6.
fn stepped(sub_opcode: u16, reg2: u32, reg1: u32, psw: u32) -> (StepAnswer, Processor) {
    let mut wram = vec![0; 65_536];
    wram[..2].copy_from_slice(&(0b111110 << 10 | 5 << 5 | 6u16).to_le_bytes());
    wram[2..4].copy_from_slice(&(sub_opcode << 10 | 0x3FF).to_le_bytes());
    let (rom, mut vram) = (vec![0; 1_024], vec![0; 262_144]);
    let mut processor = Processor { pc: 0x0500_0000, psw, ..Processor::default() };
    processor.registers[5] = reg2;
    processor.registers[6] = reg1;
    let mut memories = Memories { rom: &rom, wram: &mut wram, vram: &mut vram, pak: &mut [] };
    let answer = step(&mut memories, &mut processor, &mut DrawingRegisters::default());
    (answer.unwrap().answer, processor)
}

/// The rows that trap: sub-opcode, reg2, reg1, why, code, flag.
const TRAPPED: [(u16, u32, u32, Trap, u32, u32); 8] = [
    (ADDF, 0x7F7F_FFFF, 0x7300_0000, Trap::Overflow, 0xFF64, FOV),
    (ADDF, 0x0000_0001, 0x3F80_0000, Trap::ReservedOperand, 0xFF60, FRO),
    (DIVF, 0x0000_0000, 0x8000_0000, Trap::InvalidOperation, 0xFF70, FIV),
    (DIVF, 0x3F80_0000, 0x8000_0000, Trap::ZeroDivision, 0xFF68, FZD),
    (DIVF, 0x7F80_0000, 0x0000_0000, Trap::ReservedOperand, 0xFF60, FRO),
    (DIVF, 0x7F7F_FFFF, 0x3F00_0000, Trap::Overflow, 0xFF64, FOV),
    (CVT_SW, 0x1234_5678, 0x4F00_0000, Trap::InvalidOperation, 0xFF70, FIV),
    (TRNC, 0x1234_5678, 0xFF80_0000, Trap::ReservedOperand, 0xFF60, FRO),
];

#[test]
fn worked_rows_that_end() {
    for (sub_opcode, reg2, reg1, after, psw) in ENDED {
        let (answer, processor) = stepped(sub_opcode, reg2, reg1, 0);
        let what = format!("{sub_opcode:06b} {reg2:08X} {reg1:08X}");
        assert_eq!(answer, StepAnswer::Ended, "{what}");
        assert_eq!((processor.registers[5], processor.psw), (after, psw), "{what}");
        assert_eq!((processor.pc, processor.registers[6]), (0x0500_0004, reg1), "{what}");
    }
}

/// With PSW 0x3FF before: OV and CY cleared, the sticky flags kept.
#[test]
fn flags_that_are_kept() {
    let (_, processor) = stepped(ADDF, 0x3F80_0000, 0x4000_0000, 0x3FF);
    assert_eq!(processor.psw, 0x3F0);
    let (_, processor) = stepped(CVT_SW, 0, 0x3F80_0000, 0x3FF);
    assert_eq!(processor.psw, 0x3F8);
    for sub_opcode in [XB, XH, REV, MPYHW] {
        assert_eq!(stepped(sub_opcode, 7, 9, 0x3FF).1.psw, 0x3FF);
    }
}

/// In each state of NP and EP; the flag is in the saved PSW and in the one in
/// force, and in neither where the machine turns fatal.
#[test]
fn worked_rows_that_trap() {
    for (sub_opcode, reg2, reg1, trap, code, flag) in TRAPPED {
        let what = format!("{sub_opcode:06b} {reg2:08X} {reg1:08X}");
        let cause = Cause::Floating(trap);
        let (answer, processor) = stepped(sub_opcode, reg2, reg1, 0xF);
        assert_eq!(answer, StepAnswer::Trapped(cause), "{what}");
        assert_eq!(cause.code(), code, "{what}");
        assert_eq!((processor.registers[5], processor.pc), (reg2, 0xFFFF_FF60), "{what}");
        assert_eq!((processor.eipc, processor.eipsw), (0x0500_0000, flag | 0xF), "{what}");
        assert_eq!((processor.psw, processor.ecr), (0x5000 | flag | 0xF, code), "{what}");

        let (answer, processor) = stepped(sub_opcode, reg2, reg1, 0x4000);
        assert_eq!(answer, StepAnswer::Trapped(cause), "{what}");
        assert_eq!((processor.fepc, processor.fepsw), (0x0500_0000, flag | 0x4000), "{what}");
        assert_eq!((processor.psw, processor.ecr), (0xD000 | flag, code << 16), "{what}");
        assert_eq!(processor.pc, 0xFFFF_FFD0, "{what}");

        let (answer, processor) = stepped(sub_opcode, reg2, reg1, 0x8000);
        assert_eq!(answer, StepAnswer::TurnedFatal(cause), "{what}");
        assert_eq!((processor.psw, processor.mode), (0x8000, Mode::Fatal), "{what}");
    }
    assert_eq!(stepped(ADDF, 1, 0, 0x3FF).1.eipsw, 0x3FF);
}

/// CVT.SW and TRNC.SW at the limits of the signed word.
#[test]
fn limits_of_the_signed_word() {
    for operation in [Floating::ToWord, Floating::Truncate] {
        let word = |float| execute(operation, 0, float, 0).map(|ended| ended.result.unwrap());
        assert_eq!(word(0x4EFF_FFFF), Ok(0x7FFF_FF80));
        assert_eq!(word(0x4F00_0000), Err(Trap::InvalidOperation));
        assert_eq!(word(0xCF00_0000), Ok(0x8000_0000));
        assert_eq!(word(0xCF00_0001), Err(Trap::InvalidOperation));
        assert_eq!(word(0x7F7F_FFFF), Err(Trap::InvalidOperation));
        assert_eq!(word(0x0080_0000), Ok(0));
    }
}

/// Halves go to the even neighbour, and nothing else does by being near one.
#[test]
fn nearest_whole_numbers() {
    for (float, word) in [
        (0x3F00_0000, 0),         // 0.5
        (0x3F00_0001, 1),         // just above
        (0x3EFF_FFFF, 0),         // just below
        (0x3FC0_0000, 2),         // 1.5
        (0x3FBF_FFFF, 1),         // just below
        (0x4020_0000, 2),         // 2.5
        (0x4020_0001, 3),         // just above
        (0x4060_0000, 4),         // 3.5
        (0x4AFF_FFFF, 0x80_0000), // 8388607.5
    ] {
        let ended = execute(Floating::ToWord, 0, float, 0).unwrap();
        assert_eq!(ended.result, Some(word), "{float:X}");
        let minus = execute(Floating::ToWord, 0, float | 0x8000_0000, 0).unwrap();
        assert_eq!(minus.result, Some(word.wrapping_neg()), "-{float:X}");
    }
}

/// CVT.WS is exact up to 16,777,216: its float, truncated, is the word again.
#[test]
fn words_that_are_exact() {
    let round_trip = |value: i32| {
        let float = execute(Floating::FromWord, 0, value as u32, 0).unwrap().result.unwrap();
        execute(Floating::Truncate, 0, float, 0).unwrap().result.unwrap() as i32
    };
    for size in (0..=16_777_216).step_by(997).chain([1, 2, 3, 16_777_215, 16_777_216]) {
        assert_eq!((round_trip(size), round_trip(-size)), (size, -size));
    }
    assert_eq!(round_trip(16_777_217), 16_777_216);
}

#[test]
fn reserved_words() {
    for (word, reserved) in [
        (0, false),
        (1, true),
        (0x007F_FFFF, true),
        (0x0080_0000, false),
        (0x7F7F_FFFF, false),
        (0x7F80_0000, true),
        (0x7FFF_FFFF, true),
    ] {
        assert_eq!(is_reserved(word), reserved, "{word:X}");
        assert_eq!(is_reserved(word | 0x8000_0000), reserved, "-{word:X}");
    }
}

/// Each of the 64 sub-opcodes, whatever the ten bits after it are.
#[test]
fn rows_of_the_sub_opcode_table() {
    let first = 0b111110 << 10 | 5 << 5 | 6;
    let (reg2, reg1) = (5, 6);
    let float = |operation| Instruction::Float { operation, reg2, reg1 };
    for sub_opcode in 0..64 {
        let instruction = match sub_opcode {
            CMPF => float(Floating::Compare),
            CVT_WS => float(Floating::FromWord),
            CVT_SW => float(Floating::ToWord),
            ADDF => float(Floating::Add),
            SUBF => float(Floating::Subtract),
            MULF => float(Floating::Multiply),
            DIVF => float(Floating::Divide),
            XB => Instruction::ExchangeBytes { reg2 },
            XH => Instruction::ExchangeHalfwords { reg2 },
            REV => Instruction::Reverse { reg2, reg1 },
            TRNC => float(Floating::Truncate),
            MPYHW => Instruction::MultiplyHalfword { reg2, reg1 },
            _ => Instruction::Illegal,
        };
        for low in [0, 1, 0x200, 0x3FF] {
            let decoded = decode(first, sub_opcode << 10 | low);
            assert_eq!(decoded, Decoded::Instruction { instruction, length: 4 });
        }
    }
}

/// The test's own check of the model: where no flag or trap is in play the
/// result is the host's, which rounds once to nearest with ties to even.
#[test]
fn results_of_the_host() {
    let mut state = 1u64;
    let mut word = || {
        state =
            state.wrapping_mul(6_364_136_223_846_793_005).wrapping_add(1_442_695_040_888_963_407);
        (state >> 32) as u32
    };
    for _ in 0..200_000 {
        let (reg2, mut reg1) = (word(), word());
        if word() % 2 == 0 {
            reg1 = reg1 & 0x807F_FFFF | reg2 & 0x7F80_0000;
        }
        if is_reserved(reg2) || is_reserved(reg1) {
            continue;
        }
        let (left, right) = (f32::from_bits(reg2), f32::from_bits(reg1));
        for (operation, result) in [
            (Floating::Add, left + right),
            (Floating::Subtract, left - right),
            (Floating::Multiply, left * right),
            (Floating::Divide, left / right),
        ] {
            let found = execute(operation, reg2, reg1, 0);
            if result.is_infinite() || result.is_nan() {
                assert!(found.is_err(), "{operation:?} {reg2:X} {reg1:X}");
            } else if result.is_subnormal() || (result == 0.0 && found.unwrap().psw & FUD != 0) {
                let zero = result.to_bits() & 0x8000_0000;
                let expected = Ended { result: Some(zero), psw: Z | FUD };
                assert_eq!(found, Ok(expected), "{operation:?} {reg2:X} {reg1:X}");
            } else {
                let found = found.unwrap().result;
                assert_eq!(found, Some(result.to_bits()), "{operation:?} {reg2:X} {reg1:X}");
            }
        }
    }
}
