//! 01's worked rows about the processor, and facts of 000's tables.

mod common;

use common::Machine;
use model::arithmetic::{condition_holds, CY, EP, ID, NP, OV, S, Z};
use model::instruction::{
    decode, has_second_half, Decoded, Instruction, Operand, Operation, Width,
};
use model::processor::reset;
use model::{Cause, DrawingRegisters, Mode, Processor, Refusal, StepAnswer, Undefined};

const fn format_i(opcode: u16, reg2: u16, reg1: u16) -> u16 {
    opcode << 10 | reg2 << 5 | reg1
}

const HALT: u16 = format_i(0b011010, 0, 0);
const RETI: u16 = format_i(0b011001, 0, 0);
const BIT_STRING: u16 = format_i(0b011111, 0, 0);

fn flags(machine: &Machine) -> u32 {
    machine.processor.psw & (Z | S | OV | CY)
}

#[test]
fn the_largest_number_plus_one() {
    let mut machine = Machine::new(&[format_i(0b010001, 1, 1)]);
    machine.processor.registers[1] = 0x7FFF_FFFF;
    assert_eq!(machine.step(), Ok(StepAnswer::Ended));
    assert_eq!(machine.processor.registers[1], 0x8000_0000);
    assert_eq!(flags(&machine), OV | S);
}

#[test]
fn minus_seven_divided_by_two() {
    let mut machine = Machine::new(&[format_i(0b001001, 1, 2)]);
    machine.processor.registers[1] = -7i32 as u32;
    machine.processor.registers[2] = 2;
    assert_eq!(machine.step(), Ok(StepAnswer::Ended));
    assert_eq!(machine.processor.registers[1], -3i32 as u32);
    assert_eq!(machine.processor.registers[30], -1i32 as u32);
    assert_eq!(flags(&machine), S);
}

#[test]
fn a_branch_to_itself_and_one_that_never_branches() {
    let mut machine = Machine::new(&[0x8A00]);
    assert_eq!(machine.run(10), (10, None));
    assert_eq!(machine.processor.pc, 0x0500_0000);
    for psw in 0..16 {
        let mut machine = Machine::new(&[0x9A00]);
        machine.processor.psw = psw;
        assert_eq!(machine.step(), Ok(StepAnswer::Ended));
        assert_eq!(machine.processor.pc, 0x0500_0002);
    }
}

/// 000 "List of Instructions by Opcode", a row an opcode, with reg2 5, reg1 6
/// and 0x9ABC as the second halfword.
#[test]
fn rows_of_the_opcode_table() {
    let (reg2, reg1, small) = (5u8, 6u8, 6u32);
    let low = 0x9ABCu32;
    let signed = 0xFFFF_9ABCu32;
    let by_register = Operand::Register(reg1);
    let by_small = Operand::Immediate(small);
    let two = |operation| Instruction::Operate { operation, reg2, left: reg2, right: by_register };
    let imm = |operation| Instruction::Operate { operation, reg2, left: reg2, right: by_small };
    let three = |operation, value| Instruction::Operate {
        operation,
        reg2,
        left: reg1,
        right: Operand::Immediate(value),
    };
    let load =
        |width, signed| Instruction::Load { width, signed, reg2, reg1, displacement: 0xFFFF_9ABC };
    let store = |width| Instruction::Store { width, reg2, reg1, displacement: 0xFFFF_9ABC };
    let far = 0xA6u32 << 16 | low;
    let rows = [
        (0b000000, Instruction::Move { reg2, operand: by_register }),
        (0b000001, two(Operation::Add)),
        (0b000010, two(Operation::Subtract)),
        (0b000011, Instruction::Compare { reg2, right: by_register }),
        (0b000100, two(Operation::ShiftLeft)),
        (0b000101, two(Operation::ShiftRight)),
        (0b000110, Instruction::Jump { reg1 }),
        (0b000111, two(Operation::ShiftArithmeticRight)),
        (0b001000, two(Operation::Multiply)),
        (0b001001, two(Operation::Divide)),
        (0b001010, two(Operation::MultiplyUnsigned)),
        (0b001011, two(Operation::DivideUnsigned)),
        (0b001100, two(Operation::Or)),
        (0b001101, two(Operation::And)),
        (0b001110, two(Operation::ExclusiveOr)),
        (0b001111, Instruction::Not { reg2, reg1 }),
        (0b010000, Instruction::Move { reg2, operand: by_small }),
        (0b010001, imm(Operation::Add)),
        (0b010010, Instruction::SetFlag { reg2, condition: 6 }),
        (0b010011, Instruction::Compare { reg2, right: by_small }),
        (0b010100, imm(Operation::ShiftLeft)),
        (0b010101, imm(Operation::ShiftRight)),
        (0b010110, Instruction::ClearInterruptDisable),
        (0b010111, imm(Operation::ShiftArithmeticRight)),
        (0b011000, Instruction::Trap { vector: 6 }),
        (0b011001, Instruction::ReturnFromException),
        (0b011010, Instruction::Halt),
        (0b011011, Instruction::Illegal),
        (0b011100, Instruction::LoadSystemRegister { reg2, system: 6 }),
        (0b011101, Instruction::StoreSystemRegister { reg2, system: 6 }),
        (0b011110, Instruction::SetInterruptDisable),
        (0b101000, Instruction::AddKeepingFlags { reg2, reg1, immediate: signed }),
        (0b101001, three(Operation::Add, signed)),
        (0b101010, Instruction::JumpRelative { displacement: far }),
        (0b101011, Instruction::JumpAndLink { displacement: far }),
        (0b101100, three(Operation::Or, low)),
        (0b101101, three(Operation::And, low)),
        (0b101110, three(Operation::ExclusiveOr, low)),
        (0b101111, Instruction::AddKeepingFlags { reg2, reg1, immediate: low << 16 }),
        (0b110000, load(Width::Byte, true)),
        (0b110001, load(Width::Half, true)),
        (0b110010, Instruction::Illegal),
        (0b110011, load(Width::Word, true)),
        (0b110100, store(Width::Byte)),
        (0b110101, store(Width::Half)),
        (0b110110, Instruction::Illegal),
        (0b110111, store(Width::Word)),
        (0b111000, load(Width::Byte, false)),
        (0b111001, load(Width::Half, false)),
        (0b111011, load(Width::Word, false)),
        (0b111100, store(Width::Byte)),
        (0b111101, store(Width::Half)),
        (0b111111, store(Width::Word)),
    ];
    for (opcode, instruction) in rows {
        let first = format_i(opcode, 5, 6);
        let one_half = opcode < 0b101000 || instruction == Instruction::Illegal;
        let length = if one_half { 2 } else { 4 };
        let expected = Decoded::Instruction { instruction, length };
        assert_eq!(decode(first, 0x9ABC), expected, "{opcode:06b}");
        assert_eq!(has_second_half(first), !one_half, "{opcode:06b}");
    }
    for opcode in [0b011111, 0b111010] {
        assert_eq!(decode(format_i(opcode, 5, 6), 0), Decoded::NotModelled, "{opcode:06b}");
    }
    for opcode in [0b011100, 0b011101] {
        assert_eq!(decode(format_i(opcode, 5, 24), 0), Decoded::NotModelled, "{opcode:06b}");
    }
}

#[test]
fn displacements_are_signed_and_even() {
    let branch = |first| match decode(first, 0) {
        Decoded::Instruction { instruction: Instruction::Branch { displacement, .. }, .. } => {
            displacement as i32
        }
        other => panic!("{other:?}"),
    };
    assert_eq!(branch(0x8A00 | 0xFF), 254);
    assert_eq!(branch(0x8A00 | 0x100), -256);
    assert_eq!(branch(0x8A00 | 0x1FF), -2);
    let jump = |first, second| match decode(first, second) {
        Decoded::Instruction {
            instruction: Instruction::JumpRelative { displacement }, ..
        } => displacement as i32,
        other => panic!("{other:?}"),
    };
    assert_eq!(jump(0b101010 << 10 | 0x1FF, 0xFFFF), 0x1FF_FFFE);
    assert_eq!(jump(0b101010 << 10 | 0x200, 0), -0x200_0000);
    assert_eq!(jump(0b101010 << 10 | 0x3FF, 0xFFFE), -2);
}

/// 000's table of conditions; 14 and 15 by their tests, not their notes.
#[test]
fn conditions() {
    for psw in 0..16 {
        let (z, s, ov, cy) = (psw & 1, psw >> 1 & 1, psw >> 2 & 1, psw >> 3 & 1);
        let tests = [ov, cy, z, cy | z, s, 1, ov ^ s, (ov ^ s) | z];
        for (condition, test) in tests.into_iter().enumerate() {
            assert_eq!(condition_holds(condition as u8, psw), test == 1);
            assert_eq!(condition_holds(condition as u8 + 8, psw), test == 0);
        }
    }
}

#[test]
fn the_three_exception_states() {
    let trap = format_i(0b011000, 0, 17);
    let mut machine = Machine::new(&[trap]);
    assert_eq!(machine.step(), Ok(StepAnswer::Trapped(Cause::Trap(17))));
    let processor = machine.processor;
    assert_eq!((processor.pc, processor.eipc), (0xFFFF_FFB0, 0x0500_0002));
    assert_eq!((processor.ecr, processor.psw, processor.eipsw), (0xFFB1, EP | ID, 0));

    machine.processor.pc = 0x0500_0000;
    assert_eq!(machine.step(), Ok(StepAnswer::Trapped(Cause::Trap(17))));
    let processor = machine.processor;
    assert_eq!((processor.pc, processor.fepc), (0xFFFF_FFD0, 0x0500_0002));
    assert_eq!((processor.ecr, processor.psw), (0xFFB1_FFB1, NP | EP | ID));
    assert_eq!(processor.fepsw, EP | ID);

    machine.processor.pc = 0x0500_0000;
    let before = machine.processor;
    assert_eq!(machine.step(), Ok(StepAnswer::TurnedFatal(Cause::Trap(17))));
    assert_eq!(machine.processor, Processor { mode: Mode::Fatal, ..before });
    assert_eq!(machine.step(), Ok(StepAnswer::WasFatal));
}

#[test]
fn a_return_takes_the_registers_that_np_names() {
    let mut machine = Machine::new(&[RETI]);
    machine.processor.eipc = 0x10;
    machine.processor.eipsw = 1;
    machine.processor.fepc = 0x20;
    machine.processor.fepsw = 2;
    machine.processor.psw = NP;
    machine.step().unwrap();
    assert_eq!((machine.processor.pc, machine.processor.psw), (0x20, 2));
    machine.processor.pc = 0x0500_0000;
    machine.step().unwrap();
    assert_eq!((machine.processor.pc, machine.processor.psw), (0x10, 1));
}

/// HALT itself and a trapped instruction count; a refused one and the step
/// that turns fatal don't.
#[test]
fn counts_of_runs() {
    let nop = 0x9A00;
    assert_eq!(Machine::new(&[nop, nop, HALT, nop]).run(100), (3, None));
    assert_eq!(Machine::new(&[nop, BIT_STRING]).run(100), (1, Some(Refusal::NotModelled)));
    assert_eq!(Machine::new(&[BIT_STRING]).run(0), (0, None));
    let illegal = format_i(0b011011, 0, 0);
    assert_eq!(Machine::new(&[nop, illegal]).run(2), (2, None));
    let mut machine = Machine::new(&[nop, illegal]);
    machine.processor.psw = NP;
    assert_eq!(machine.run(100), (1, None));
    assert_eq!((machine.processor.mode, machine.processor.pc), (Mode::Fatal, 0x0500_0002));
    assert_eq!(machine.run(100), (0, None));
}

#[test]
fn products_and_their_overflow() {
    for (opcode, left, right, overflow) in [
        (0b001000, 0x8000_0000u32, 1u32, false),
        (0b001000, 0xFFFF_FFFF, 0xFFFF_FFFF, false),
        (0b001000, 0x10000, 0x8000, true),
        (0b001010, 0x10000, 0x8000, true),
        (0b001010, 0x7FFF_FFFF, 1, false),
        (0b001010, 0xFFFF_FFFF, 0xFFFF_FFFF, true),
    ] {
        let mut machine = Machine::new(&[format_i(opcode, 1, 2)]);
        machine.processor.registers[1] = left;
        machine.processor.registers[2] = right;
        machine.step().unwrap();
        assert_eq!(flags(&machine) & OV != 0, overflow, "{opcode:b} {left:X} {right:X}");
    }
}

#[test]
fn the_smallest_number_divided_by_minus_one() {
    let mut machine = Machine::new(&[format_i(0b001001, 1, 2)]);
    machine.processor.registers[1] = 0x8000_0000;
    machine.processor.registers[2] = 0xFFFF_FFFF;
    machine.processor.registers[30] = 5;
    machine.step().unwrap();
    assert_eq!(machine.processor.registers[1], 0x8000_0000);
    assert_eq!(machine.processor.registers[30], 0);
    assert_eq!(flags(&machine), OV | S);
}

#[test]
fn system_registers() {
    let mut machine = Machine::new(&[format_i(0b011100, 1, 31), format_i(0b011101, 2, 31)]);
    machine.processor.registers[1] = 0x8000_0000;
    machine.run(2);
    assert_eq!(machine.processor.registers[2], 0x8000_0000);
    for (system, expected) in [
        (6, 0x5346),
        (7, 0xE0),
        (30, 4),
        (8, 0),
        (28, 0),
        (0, !1),
        (5, 0xF_F3FF),
        (29, !0),
        (25, !1),
    ] {
        let mut machine =
            Machine::new(&[format_i(0b011100, 1, system), format_i(0b011101, 2, system)]);
        machine.processor.registers[1] = !0;
        machine.run(2);
        assert_eq!(machine.processor.registers[2], expected, "system register {system}");
    }
}

#[test]
fn reset_gives_both_records() {
    let (processor, drawing) = reset();
    assert_eq!((processor.pc, processor.ecr, processor.psw), (0xFFFF_FFF0, 0xFFF0, 0x8000));
    assert_eq!(processor.registers, [0; 32]);
    assert_eq!(drawing, DrawingRegisters::default());
    assert!(processor.check().is_ok());
}

/// An instruction at 0xFFFFFFFE takes its second halfword from address 0.
#[test]
fn the_end_of_the_address_space() {
    let mut machine = Machine::new(&[]);
    machine.rom[0x3FE..].copy_from_slice(&format_i(0b101000, 1, 0).to_le_bytes());
    machine.vram[..2].copy_from_slice(&0x1234u16.to_le_bytes());
    machine.processor.pc = 0xFFFF_FFFE;
    machine.step().unwrap();
    assert_eq!((machine.processor.pc, machine.processor.registers[1]), (2, 0x1234));
}

/// W2's worked steps: what the halfwords and the load read that is undefined.
#[test]
fn undefined_bytes_of_steps() {
    let undefined = |first, second, load| Undefined { first, second, load };
    let mut machine = Machine::new(&[]);
    machine.processor.pc = 0x0004_0000;
    let stepped = machine.stepped();
    assert_eq!(stepped.unwrap().undefined, undefined(3, 0, 0));
    assert_eq!(machine.processor.pc, 0x0004_0002);

    let movea = format_i(0b101000, 1, 0);
    machine.vram[0x3FFFE..].copy_from_slice(&movea.to_le_bytes());
    machine.processor.pc = 0x0003_FFFE;
    assert_eq!(machine.stepped().unwrap().undefined, undefined(0, 3, 0));

    for (opcode, reg2, address, load) in [
        (0b110011, 1, 0x0005_F870, 0xC),
        (0b111000, 0, 0x0005_F872, 1),
        (0b110000, 1, 0x0005_F805, 0),
        (0b110001, 1, 0x0005_F807, 3),
        (0b111011, 1, 0x0004_0003, 15),
        (0b110100, 1, 0x0004_0000, 0),
        (0b111111, 1, 0x0004_0000, 0),
    ] {
        let mut machine = Machine::new(&[format_i(opcode, reg2, 2), 0]);
        machine.processor.registers[2] = address;
        let expected = undefined(0, 0, load);
        assert_eq!(machine.stepped().unwrap().undefined, expected, "{opcode:06b} {address:X}");
    }
}

/// A step that is refused or does nothing reports no undefined byte.
#[test]
fn steps_that_read_nothing() {
    let mut machine = Machine::new(&[]);
    let caxi = format_i(0b111010, 1, 2);
    machine.vram[0x3FFFE..].copy_from_slice(&caxi.to_le_bytes());
    machine.processor.pc = 0x0003_FFFE;
    assert_eq!(machine.stepped(), Err(Refusal::NotModelled));
    machine.processor.pc = 0x0004_0000;
    for mode in [Mode::Halted, Mode::Fatal] {
        machine.processor.mode = mode;
        assert_eq!(machine.stepped().unwrap().undefined, Undefined::default());
    }
}
