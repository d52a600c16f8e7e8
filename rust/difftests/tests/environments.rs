//! The floating instructions in every floating-point environment of the caller, against the model, which works them out
//! in whole numbers; afterwards the caller's environment is as it was.

#![cfg(target_arch = "x86_64")]

use std::arch::asm;

use difftests::machine::{to_library, Buffers};
use difftests::program::{half, FLOATING};
use difftests::random::Random;
use difftests::twin::processor_to_library;
use model::replay::{record_bytes, record_of};
use model::{DrawingRegisters, Processor};
use vbsys::REPLAY_AGREED;
use worked::floating::*;

const PC: u32 = 0x0500_0100;
const HALT: u16 = 0x6800;
const DEFAULT: u32 = 0x1F80;

/// Pairs of random operands for each instruction.
const PAIRS: u32 = 300;

const SPECIAL: [u32; 28] = [
    0,
    0x8000_0000,
    0x3F80_0000,
    0xBF80_0000,
    0x3F00_0000,
    0x4000_0000,
    0x4040_0000,
    0x3300_0000,
    0x0080_0000,
    0x8080_0000,
    0x00FF_FFFF,
    0x00FF_FFFE,
    0x7F7F_FFFF,
    0xFF7F_FFFF,
    0x72FF_FFFF,
    0x7300_0000,
    0x0000_0001,
    0x807F_FFFF,
    0x7F80_0000,
    0x7F80_0001,
    0x7FC0_0000,
    0x4F00_0000,
    0xCF00_0000,
    0xCF00_0001,
    0x0100_0001,
    0x0100_0003,
    0x4B80_0001,
    0xC020_0000,
];

/// Every rounding mode with FTZ and DAZ on and off, all exceptions masked, unmasked, and each one unmasked, with no
/// flag and with all flags set.
fn environments() -> Vec<u32> {
    let mut all = Vec::new();
    for unmasked in [0, 0x80, 0x100, 0x200, 0x400, 0x800, 0x1000, 0x1F80] {
        for rounding in 0..4 {
            for zeros in [0, 0x40, 0x8000, 0x8040] {
                for flags in [0, 0x3F] {
                    all.push(DEFAULT & !unmasked | rounding << 13 | zeros | flags);
                }
            }
        }
    }
    all
}

/// A call made in this environment: its answer, and the environment after it.
fn within<T>(environment: u32, call: impl FnOnce() -> T) -> (T, u32) {
    let (mut before, mut after) = (0u32, 0u32);
    // SAFETY: between the two the call alone computes, and the thread's environment comes back.
    unsafe {
        asm!("stmxcsr [{}]", in(reg) &mut before);
        asm!("ldmxcsr [{}]", in(reg) &environment);
    }
    let answer = call();
    // SAFETY: as above.
    unsafe {
        asm!("stmxcsr [{}]", in(reg) &mut after);
        asm!("ldmxcsr [{}]", in(reg) &before);
    }
    (answer, after)
}

/// Memories with one 111110 instruction at PC, reg2 5 and reg1 6; HALT after it and in every handler.
fn memories(sub_opcode: u16) -> Buffers {
    let mut buffers = Buffers::zeroed(1_024, 65_536, 262_144, 0);
    for place in buffers.rom.chunks_exact_mut(2) {
        place.copy_from_slice(&HALT.to_le_bytes());
    }
    for (n, word) in [half(FLOATING, 5, 6), sub_opcode << 10, HALT].iter().enumerate() {
        buffers.wram[0x100 + 2 * n..][..2].copy_from_slice(&word.to_le_bytes());
    }
    buffers
}

/// The instruction by a step, a run and a replay in every environment.
fn everywhere(buffers: &mut Buffers, reg2: u32, reg1: u32, environments: &[u32]) {
    let drawing = DrawingRegisters::default();
    let mut before = Processor { pc: PC, ..Processor::default() };
    before.registers[5] = reg2;
    before.registers[6] = reg1;

    let (mut stepped, mut ran) = (before, before);
    let mut memories = buffers.for_model();
    model::processor::step(&mut memories, &mut stepped, &mut drawing.clone()).expect("a step");
    let count = model::processor::run(&mut memories, &mut ran, &mut drawing.clone(), 2).count;
    let trace = record_bytes(record_of(PC, &stepped));
    let (given, drawing) = (processor_to_library(&before), to_library(&drawing));
    let (due_step, due_run) = (processor_to_library(&stepped), processor_to_library(&ran));

    for &environment in environments {
        let what = || format!("{reg2:08X} {reg1:08X}, MXCSR {environment:04X}");
        let mut memories = buffers.for_library();
        let (answer, after) = within(environment, || vbsys::step(&mut memories, given, drawing));
        let seen = (answer.refusal, answer.processor, after);
        assert_eq!(seen, (0, due_step, environment), "step, {}", what());
        let (answer, after) = within(environment, || vbsys::run(&mut memories, given, drawing, 2));
        let seen = (answer.count, answer.processor, after);
        assert_eq!(seen, (count, due_run, environment), "run, {}", what());
        let (answer, after) =
            within(environment, || vbsys::replay(&mut memories, given, drawing, &trace));
        let seen = (answer.answer, answer.agreed, answer.processor, after);
        assert_eq!(seen, (REPLAY_AGREED, 1, due_step, environment), "replay, {}", what());
    }
}

#[test]
fn floating_instructions_answer_the_same_in_every_environment_and_leave_it() {
    let environments = environments();
    let mut random = Random::new(0x6001_0000);
    for sub_opcode in [CMPF, CVT_WS, CVT_SW, ADDF, SUBF, MULF, DIVF, TRNC] {
        let mut buffers = memories(sub_opcode);
        for reg2 in SPECIAL {
            for reg1 in SPECIAL {
                everywhere(&mut buffers, reg2, reg1, &environments);
            }
        }
        for _ in 0..PAIRS {
            everywhere(&mut buffers, random.word(), random.word(), &environments);
        }
    }
}
