//! The 111110 instructions (W4) of the library against the model's, which works
//! them out in whole numbers: the request's rows, pairs of operands drawn by
//! class, conversions, every sub-opcode, and traps in each state.

use difftests::machine::Buffers;
use difftests::program::{biased_psw, half, random_processor, FLOATING, SUB_OPCODES};
use difftests::random::Random;
use difftests::twin::Twin;
use model::{Cause, DrawingRegisters, Mode, Processor, StepAnswer, Undefined};
use worked::floating::*;

/// Pairs of operands of each of the four operations and of the comparison.
const PAIRS: u32 = 1_000_000;
/// Words of each conversion, PSW and reg2 random among them; every_word.rs has
/// words spread over all 2^32, and on demand all.
const WORDS: u32 = 1_000_000;

/// Where the instruction lies.
const PC: u32 = 0x0500_0100;

/// A machine at one 111110 instruction with reg2 5 and reg1 6.
struct Bench {
    twin: Twin,
}

impl Bench {
    fn new(sub_opcode: u16) -> Bench {
        let buffers = Buffers::zeroed(1_024, 65_536, 262_144, 0);
        let processor = Processor { pc: PC, ..Processor::default() };
        let mut twin = Twin::new(buffers, processor, DrawingRegisters::default());
        twin.put_code(PC, &[half(FLOATING, 5, 6), sub_opcode << 10]);
        Bench { twin }
    }

    /// One step on both sides from these operands.
    fn step(&mut self, reg2: u32, reg1: u32, psw: u32) -> StepAnswer {
        let mut processor = Processor { pc: PC, psw, ..Processor::default() };
        processor.registers[5] = reg2;
        processor.registers[6] = reg1;
        self.twin.processor = processor;
        let answer = self.twin.step(&|| format!("reg2 {reg2:08X}, reg1 {reg1:08X}"));
        answer.expect("every 111110 instruction is modelled")
    }

    fn reg2(&self) -> u32 {
        self.twin.processor.registers[5]
    }
}

/// The request's rows that end, from PSW 0.
#[test]
fn worked_rows_that_end() {
    for (sub_opcode, reg2, reg1, after, psw) in ENDED {
        let mut bench = Bench::new(sub_opcode);
        let what = format!("{sub_opcode:06b} {reg2:08X} {reg1:08X}");
        assert_eq!(bench.step(reg2, reg1, 0), StepAnswer::Ended, "{what}");
        let processor = bench.twin.processor;
        assert_eq!((bench.reg2(), processor.psw), (after, psw), "{what}");
        assert_eq!(processor.pc, PC + 4, "{what}");
    }
    let mut bench = Bench::new(ADDF);
    bench.step(0x3F80_0000, 0x4000_0000, 0x3FF);
    assert_eq!(bench.twin.processor.psw, 0x3F0);
}

/// The request's rows that trap, in each state of NP and EP, with no flag and
/// with all flags set before: sub-opcode, reg2, reg1, code, flag.
#[test]
fn traps_in_each_state() {
    for (sub_opcode, reg2, reg1, code, flag) in [
        (ADDF, 0x7F7F_FFFF, 0x7300_0000, 0xFF64, 0x40),
        (SUBF, 0xFF7F_FFFF, 0x7F7F_FFFF, 0xFF64, 0x40),
        (MULF, 0x7F00_0000, 0x4000_0000, 0xFF64, 0x40),
        (ADDF, 0x0000_0001, 0x3F80_0000, 0xFF60, 0x200),
        (SUBF, 0x3F80_0000, 0x807F_FFFF, 0xFF60, 0x200),
        (MULF, 0x7F80_0000, 0x0000_0000, 0xFF60, 0x200),
        (CMPF, 0x7FC0_0000, 0x7FC0_0000, 0xFF60, 0x200),
        (CVT_SW, 0x0000_0000, 0xFFFF_FFFF, 0xFF60, 0x200),
        (TRNC, 0x0000_0000, 0x0000_0001, 0xFF60, 0x200),
        (DIVF, 0x0000_0000, 0x8000_0000, 0xFF70, 0x100),
        (DIVF, 0x8000_0000, 0x8000_0000, 0xFF70, 0x100),
        (CVT_SW, 0x1234_5678, 0x4F00_0000, 0xFF70, 0x100),
        (TRNC, 0x1234_5678, 0xCF00_0001, 0xFF70, 0x100),
        (DIVF, 0x3F80_0000, 0x8000_0000, 0xFF68, 0x80),
        (DIVF, 0x7F80_0000, 0x0000_0000, 0xFF60, 0x200),
        (DIVF, 0x7FFF_FFFF, 0x0000_0000, 0xFF60, 0x200),
        (DIVF, 0x7F7F_FFFF, 0x3F00_0000, 0xFF64, 0x40),
        (0b000001, 0x3F80_0000, 0x4000_0000, 0xFF90, 0),
        (0b001101, 0x3F80_0000, 0x4000_0000, 0xFF90, 0),
        (0b111111, 0x3F80_0000, 0x4000_0000, 0xFF90, 0),
    ] {
        let mut bench = Bench::new(sub_opcode);
        for flags in [0, 0xF, 0x3FF, 0x3FF & !flag, 0x2000, 0xF_3000] {
            let what = format!("{sub_opcode:06b} {reg2:08X} {reg1:08X}, PSW {flags:X}");
            let answer = bench.step(reg2, reg1, flags);
            let processor = bench.twin.processor;
            assert!(matches!(answer, StepAnswer::Trapped(cause) if cause.code() == code), "{what}");
            assert_eq!((processor.eipc, processor.eipsw), (PC, flags | flag), "{what}");
            assert_eq!((processor.psw, processor.ecr), (flags & !0x2000 | flag | 0x5000, code));
            assert_eq!(bench.reg2(), reg2, "{what}");
            let handler = if code == 0xFF90 { 0xFFFF_FF90 } else { 0xFFFF_FF60u32 };
            assert_eq!(processor.pc, handler, "{what}");

            let answer = bench.step(reg2, reg1, flags | 0x4000);
            let processor = bench.twin.processor;
            assert!(matches!(answer, StepAnswer::Trapped(cause) if cause.code() == code), "{what}");
            let saved = flags | flag | 0x4000;
            assert_eq!((processor.fepc, processor.fepsw), (PC, saved), "{what}");
            assert_eq!((processor.pc, processor.ecr), (0xFFFF_FFD0, code << 16), "{what}");

            let answer = bench.step(reg2, reg1, flags | 0x8000);
            let processor = bench.twin.processor;
            assert!(
                matches!(answer, StepAnswer::TurnedFatal(cause) if cause.code() == code),
                "{what}"
            );
            let left = (processor.psw, processor.mode, processor.pc, bench.reg2());
            assert_eq!(left, (flags | 0x8000, Mode::Fatal, PC, reg2), "{what}");
        }
    }
}

/// A significand's fraction: any, few bits set, or at either end.
fn fraction(random: &mut Random) -> u32 {
    let any = random.word() & 0x7F_FFFF;
    match random.below(6) {
        0 => 0,
        1 => 0x7F_FFFF ^ random.below(4),
        2 => random.below(4),
        3 => any & 0x7F_F800,
        4 => 1 << random.below(23) | if random.one_in(2) { 1 } else { 0 },
        _ => any,
    }
}

/// A float with this exponent field, 1 to 254; others are brought there.
fn float(random: &mut Random, exponent: i32) -> u32 {
    random.below(2) << 31 | (exponent.clamp(1, 254) as u32) << 23 | fraction(random)
}

/// A word of some class: zeros, the least and the largest normal, subnormals,
/// infinities, not-a-numbers, powers of two, whole numbers, or any.
fn word_of_class(random: &mut Random) -> u32 {
    let sign = random.below(2) << 31;
    sign | match random.below(16) {
        0 | 1 => 0,
        2 => 0x0080_0000 + random.below(3),
        3 => 0x7F7F_FFFF - random.below(3),
        4 => random.pick(&[1, 0x0040_0000, 0x007F_FFFF]),
        5 => 0x7F80_0000,
        6 => 0x7F80_0001 + (random.word() & 0x3F_FFFF),
        7 | 8 => (1 + random.below(254)) << 23,
        9 => {
            let exponent = random.between(127, 151);
            float(random, exponent) & 0x7FFF_FFFF
        }
        _ => random.word() & 0x7FFF_FFFF,
    }
}

/// Two operands whose result is near a limit or a tie of the operation.
fn near_pair(random: &mut Random, sub_opcode: u16) -> (u32, u32) {
    let first = random.between(1, 254);
    let second = match sub_opcode {
        // the product's exponent field near 1 and below, near 254 and above
        MULF => 127 - first + random.pick(&[-24, -2, -1, 0, 1, 2, 126, 127, 128, 129, 130]),
        DIVF => first - 127 + random.pick(&[-4, -3, -2, 126, 127, 128, 129, 150]),
        _ => {
            let far = random.pick(&[0, 0, 1, 2, 3, 22, 23, 24, 25, 26, 27, 60, 64, 65, 66, 200]);
            let near = random.pick(&[1, 1, 2, 3, 24, 253, 254, 254, first]);
            let pair = (float(random, near), float(random, near - far));
            return if random.one_in(2) { pair } else { (pair.1, pair.0) };
        }
    };
    (float(random, first), float(random, second))
}

/// Two operands that are equal in size, or neighbours.
fn close_pair(random: &mut Random) -> (u32, u32) {
    let word = word_of_class(random);
    let other = word.wrapping_add(random.below(5)).wrapping_sub(2);
    (word, other ^ random.below(2) << 31)
}

fn pair(random: &mut Random, sub_opcode: u16) -> (u32, u32) {
    match random.below(8) {
        0 | 1 => (word_of_class(random), word_of_class(random)),
        2 => close_pair(random),
        3 => {
            let exponent = random.between(1, 254);
            let other = exponent + random.between(-30, 30);
            (float(random, exponent), float(random, other))
        }
        4 => (random.word(), random.word()),
        _ => near_pair(random, sub_opcode),
    }
}

/// What the pairs met, so that a test that no longer reaches something says so.
#[derive(Debug, Default)]
struct Tally {
    ended: u32,
    underflow: u32,
    zero: u32,
    reserved: u32,
    invalid: u32,
    zero_divide: u32,
    overflow: u32,
}

impl Tally {
    fn add(&mut self, answer: StepAnswer, psw: u32) {
        let count = match answer {
            StepAnswer::Ended if psw & 0x20 != 0 => &mut self.underflow,
            StepAnswer::Ended if psw & 1 != 0 => &mut self.zero,
            StepAnswer::Ended => &mut self.ended,
            StepAnswer::Trapped(cause) => match cause.code() {
                0xFF60 => &mut self.reserved,
                0xFF64 => &mut self.overflow,
                0xFF68 => &mut self.zero_divide,
                _ => &mut self.invalid,
            },
            other => panic!("{other:?}"),
        };
        *count += 1;
    }
}

/// Pairs of one operation; PSW is mostly clear, so that FUD shows.
fn pairs(sub_opcode: u16, seed: u64) -> Tally {
    let mut random = Random::new(seed);
    let mut bench = Bench::new(sub_opcode);
    let mut tally = Tally::default();
    for _ in 0..PAIRS {
        let (reg2, reg1) = pair(&mut random, sub_opcode);
        let psw = if random.one_in(4) { random.word() & 0xF_33DF } else { 0 };
        let answer = bench.step(reg2, reg1, psw);
        tally.add(answer, bench.twin.processor.psw);
    }
    bench.twin.expect_equal(&|| "floating instructions touch no memory".into());
    tally
}

fn expect_reached(sub_opcode: u16, tally: &Tally, due: &[u32]) {
    let least = due.iter().min();
    assert!(least > Some(&3_000), "{sub_opcode:06b} no longer reaches everything: {tally:?}");
}

#[test]
fn sums() {
    let tally = pairs(ADDF, 0x4001_0000);
    let due = [tally.ended, tally.underflow, tally.zero, tally.reserved, tally.overflow];
    expect_reached(ADDF, &tally, &due);
}

#[test]
fn differences() {
    let tally = pairs(SUBF, 0x4002_0000);
    let due = [tally.ended, tally.underflow, tally.zero, tally.reserved, tally.overflow];
    expect_reached(SUBF, &tally, &due);
}

#[test]
fn products() {
    let tally = pairs(MULF, 0x4003_0000);
    let due = [tally.ended, tally.underflow, tally.zero, tally.reserved, tally.overflow];
    expect_reached(MULF, &tally, &due);
}

#[test]
fn quotients() {
    let tally = pairs(DIVF, 0x4004_0000);
    let due = [tally.ended, tally.underflow, tally.zero, tally.reserved, tally.overflow];
    expect_reached(DIVF, &tally, &due);
    expect_reached(DIVF, &tally, &[tally.invalid, tally.zero_divide]);
}

#[test]
fn comparisons() {
    let tally = pairs(CMPF, 0x4005_0000);
    expect_reached(CMPF, &tally, &[tally.ended, tally.zero, tally.reserved]);
    assert_eq!((tally.overflow, tally.invalid, tally.underflow), (0, 0, 0));
}

/// A word to convert: any, by class, near a half of a whole number, near the
/// signed word's limits, or a whole number near a tie of 24 bits.
fn word_to_convert(random: &mut Random) -> u32 {
    match random.below(8) {
        0 => random.word(),
        1 => word_of_class(random),
        2 => {
            let exponent = random.between(120, 152);
            float(random, exponent)
        }
        3 => 0x4F00_0000u32.wrapping_add(random.below(64)).wrapping_sub(32),
        4 => 0xCF00_0000u32.wrapping_add(random.below(64)).wrapping_sub(32),
        5 => (1u32 << random.below(32)).wrapping_add(random.below(9)).wrapping_sub(4),
        6 => (random.word() << 7 | (random.below(3) + 63)) >> random.below(8),
        _ => random.word() >> random.below(32),
    }
}

fn conversions(sub_opcode: u16, seed: u64) {
    let mut random = Random::new(seed);
    let mut bench = Bench::new(sub_opcode);
    let exponents =
        (0..512u32).flat_map(|high| [0, 1, 0x40_0000, 0x7F_FFFF].map(|f| high << 23 | f));
    let edges: Vec<u32> = exponents.collect();
    for number in 0..WORDS {
        let edge = edges.get(number as usize).copied();
        let reg1 = edge.unwrap_or_else(|| word_to_convert(&mut random));
        let psw = if random.one_in(4) { biased_psw(&mut random) & !0xC000 } else { 0 };
        let answer = bench.step(random.word(), reg1, psw);
        assert!(sub_opcode != CVT_WS || answer == StepAnswer::Ended, "CVT.WS {reg1:08X} traps");
    }
}

#[test]
fn words_to_floats() {
    conversions(CVT_WS, 0x4006_0000);
}

#[test]
fn floats_to_nearest_words() {
    conversions(CVT_SW, 0x4007_0000);
}

#[test]
fn floats_to_truncated_words() {
    conversions(TRNC, 0x4008_0000);
}

/// Each of the 64 sub-opcodes with the ten bits after it clear, set and random,
/// over random registers: r0 and reg1 = reg2 among them.
#[test]
fn every_sub_opcode() {
    let mut random = Random::new(0x4009_0000);
    let buffers = Buffers::random(&mut random, 1_024, 0);
    let mut twin = Twin::new(buffers, Processor::default(), DrawingRegisters::default());
    for sub_opcode in 0..64u16 {
        let listed = SUB_OPCODES.contains(&sub_opcode);
        for number in 0..4_000u32 {
            let any = random.half();
            let low = random.pick(&[0, 0x3FF, any & 0x3FF]);
            let reg2 = random.pick(&[0, 5, 30, 31, any >> 11]);
            let reg1 = if random.one_in(3) { reg2 } else { random.below(32) as u16 };
            twin.put_code(PC, &[half(FLOATING, reg2, reg1), sub_opcode << 10 | low]);
            twin.processor = random_processor(&mut random);
            twin.processor.pc = PC;
            for register in [reg2, reg1] {
                if register != 0 && random.one_in(2) {
                    twin.processor.registers[usize::from(register)] = word_of_class(&mut random);
                }
            }
            let before = twin.processor;
            let what = || format!("{sub_opcode:06b}, low bits {low:X}, step {number}");
            let answer = twin.step(&what).expect("every 111110 instruction is modelled");
            if !listed {
                let illegal = Cause::IllegalOpcode;
                let expected = if before.psw & 0x8000 != 0 {
                    StepAnswer::TurnedFatal(illegal)
                } else {
                    StepAnswer::Trapped(illegal)
                };
                assert_eq!(answer, expected, "{}", what());
            }
        }
        twin.expect_equal(&|| format!("after {sub_opcode:06b}"));
    }
}

/// XB, XH, REV and MPYHW over many words and every single bit.
#[test]
fn words_rearranged_and_multiplied() {
    let mut random = Random::new(0x400A_0000);
    for sub_opcode in [XB, XH, REV, MPYHW] {
        let mut bench = Bench::new(sub_opcode);
        for bit in 0..32 {
            for other in [0, 1, 0xFFFF_FFFF, 0x1_FFFF, 0x1_0000, 0xFFFF, 0x8000_0000] {
                bench.step(1 << bit, other, 0x3FF);
                bench.step(other, 1 << bit, 0);
            }
        }
        for _ in 0..100_000 {
            let psw = biased_psw(&mut random);
            bench.step(random.word(), random.word(), psw);
            assert_eq!(bench.twin.processor.psw, psw, "no flag changes");
        }
    }
}

/// An instruction whose second halfword is undefined reads sub-opcode 0, CMPF.S;
/// where that traps the step still reports the halfword (W2).
#[test]
fn undefined_second_halfwords() {
    let mut bench = Bench::new(CMPF);
    bench.twin.put_half(0x3FFFE, half(FLOATING, 5, 6));
    for (reg2, trapped) in [(0x3F80_0000, false), (0x0000_0001, true)] {
        for psw in [0, 0x4000, 0x8000] {
            let mut processor = Processor { pc: 0x3FFFE, psw, ..Processor::default() };
            processor.registers[5] = reg2;
            bench.twin.processor = processor;
            let stepped = bench.twin.step_watched(&|| format!("PSW {psw:X}")).unwrap();
            assert_eq!(stepped.undefined, Undefined { first: 0, second: 3, load: 0 });
            assert_eq!(stepped.answer != StepAnswer::Ended, trapped);
        }
    }
}
