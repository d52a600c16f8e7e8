//! Steps and runs of the library against the model's.

use difftests::machine::{random_drawing, Buffers};
use difftests::program::{
    aim_pointers, biased_register, code_address, half, instruction, load_program, program,
    random_processor, BIT_STRING, HALT, ILLEGAL, NOP, RETI, TRAP,
};
use difftests::random::Random;
use difftests::twin::Twin;
use model::{DrawingRegisters, Mode, Processor, Refusal, StepAnswer};

/// Steps of each opcode with random operands.
const STEPS_PER_OPCODE: u32 = 40_000;
/// Steps of random programs, in two tests.
const PROGRAM_STEPS: u64 = 2_700_000;

fn random_twin(random: &mut Random, rom: usize, pak: usize) -> Twin {
    let buffers = Buffers::random(random, rom, pak);
    Twin::new(buffers, random_processor(random), random_drawing(random))
}

/// Each of the 64 opcodes, with random fields, operands and PSW.
#[test]
fn every_opcode() {
    let mut random = Random::new(0xC0DE_0001);
    let mut twin = random_twin(&mut random, 2_048, 4_096);
    for opcode in 0..64u16 {
        for number in 0..STEPS_PER_OPCODE {
            let code = code_address(&mut random);
            let low = biased_register(&mut random) << 5 | biased_register(&mut random);
            let halves = [opcode << 10 | low, random.half()];
            twin.put_code(code, &halves);
            twin.processor = random_processor(&mut random);
            twin.processor.pc = code;
            if opcode >= 0x30 {
                aim_pointers(&mut random, &mut twin.processor, code);
            }
            let what = || format!("opcode {opcode:06b}, code {halves:04X?}, step {number}");
            let _ = twin.step(&what);
            if number % 32 == 0 {
                twin.expect_equal(&what);
            }
        }
        twin.expect_equal(&|| format!("after opcode {opcode:06b}"));
    }
}

/// Each condition of Bcond and SETF under each setting of the flags.
#[test]
fn every_condition() {
    let mut random = Random::new(0xC0DE_0002);
    let mut twin = random_twin(&mut random, 1_024, 0);
    for condition in 0..32u16 {
        for flags in 0..16u32 {
            for code in [0x8000 | (condition & 15) << 9 | 0x1F4, half(0b010010, 7, condition)] {
                twin.put_half(0x0500_0100, code);
                twin.processor = random_processor(&mut random);
                twin.processor.pc = 0x0500_0100;
                twin.processor.psw = twin.processor.psw & !15 | flags;
                let _ = twin.step(&|| format!("condition {condition}, flags {flags:X}"));
            }
        }
    }
}

/// Every shift amount, from registers with high bits too.
#[test]
fn every_shift_amount() {
    let mut random = Random::new(0xC0DE_0003);
    let mut twin = random_twin(&mut random, 1_024, 0);
    for opcode in [0b000100, 0b000101, 0b000111, 0b010100, 0b010101, 0b010111] {
        for amount in 0..32u32 {
            for _ in 0..200 {
                let low = if opcode < 0b010000 { 9 } else { amount as u16 };
                twin.put_half(0x0500_0100, half(opcode, 8, low));
                twin.processor = random_processor(&mut random);
                twin.processor.pc = 0x0500_0100;
                twin.processor.registers[9] = random.word() << 5 | amount;
                let _ = twin.step(&|| format!("opcode {opcode:06b}, amount {amount}"));
            }
        }
    }
}

/// Every system register, read and written.
#[test]
fn every_system_register() {
    let mut random = Random::new(0xC0DE_0004);
    let mut twin = random_twin(&mut random, 1_024, 0);
    for system in 0..32u16 {
        for opcode in [0b011100, 0b011101] {
            for _ in 0..500 {
                let register = biased_register(&mut random);
                twin.put_half(0x0500_0100, half(opcode, register, system));
                twin.processor = random_processor(&mut random);
                twin.processor.pc = 0x0500_0100;
                let answer =
                    twin.step(&|| format!("opcode {opcode:06b}, system register {system}"));
                assert_eq!(answer == Err(Refusal::NotModelled), system == 24);
            }
        }
    }
}

/// What the steps of the random programs did, so that a test that no longer
/// reaches something says so.
#[derive(Debug, Default)]
struct Tally {
    ended: u64,
    regular: u64,
    duplexed: u64,
    fatal: u64,
    halted: u64,
    refused: u64,
}

impl Tally {
    fn add(&mut self, before: &Processor, after: &Processor, answer: &Result<StepAnswer, Refusal>) {
        match answer {
            Ok(StepAnswer::Ended) if after.mode == Mode::Halted => self.halted += 1,
            Ok(StepAnswer::Ended) => self.ended += 1,
            Ok(StepAnswer::Trapped(_)) if before.psw & 0x4000 == 0 => self.regular += 1,
            Ok(StepAnswer::Trapped(_)) => self.duplexed += 1,
            Ok(StepAnswer::TurnedFatal(_)) => self.fatal += 1,
            Ok(_) => {}
            Err(refusal) => {
                let number = refusal.number();
                assert_eq!(number, 6, "a step left a machine that isn't accepted: {before:X?}");
                self.refused += 1;
            }
        }
    }

    fn expect_all_reached(&self) {
        let least =
            [self.regular, self.duplexed, self.fatal, self.halted, self.refused].into_iter().min();
        assert!(least > Some(500), "the programs no longer reach everything: {self:?}");
    }
}

/// Steps programs for `PROGRAM_STEPS` completed steps. A machine that stops is
/// started again inside its program; the memories are compared after each
/// program.
fn step_programs(seed: u64, rom: usize, pak: usize) {
    let mut random = Random::new(seed);
    let mut twin = random_twin(&mut random, rom, pak);
    let mut tally = Tally::default();
    let mut number = 0;
    while tally.ended < PROGRAM_STEPS {
        number += 1;
        let code = load_program(&mut random, &mut twin, 200);
        let what = || format!("program {number}, seed {seed:X}");
        for _ in 0..600 {
            let before = twin.processor;
            let answer = twin.step(&what);
            tally.add(&before, &twin.processor, &answer);
            let stopped = twin.processor.mode != Mode::Running || answer.is_err();
            if stopped || random.one_in(64) {
                twin.processor.mode = Mode::Running;
                twin.processor.pc = code.wrapping_add(2 * random.below(200));
            }
            if stopped && random.one_in(2) {
                twin.processor.psw &= !0xC000;
            }
            if random.one_in(128) {
                aim_pointers(&mut random, &mut twin.processor, code);
            }
        }
        twin.expect_equal(&what);
    }
    tally.expect_all_reached();
}

#[test]
fn random_programs_small_pak() {
    step_programs(0xC0DE_0005, 1_024, 2);
}

#[test]
fn random_programs_larger_pak() {
    step_programs(0xC0DE_0006, 65_536, 8_192);
}

/// Runs of random programs at budgets small and large, memories compared after
/// each.
#[test]
fn random_runs() {
    let mut random = Random::new(0xC0DE_0007);
    let mut twin = random_twin(&mut random, 4_096, 1_024);
    let (mut halted, mut fatal, mut refused) = (0, 0, 0);
    for number in 0..6_000 {
        load_program(&mut random, &mut twin, 150);
        let what = || format!("run {number}, seed C0DE0007");
        for _ in 0..3 {
            let budget = match random.below(6) {
                0 => 0,
                1 => 1,
                2 => u64::from(random.below(16)),
                _ => u64::from(random.below(1_000)),
            };
            let ran = twin.run(budget, &what);
            twin.expect_equal(&what);
            refused += u32::from(ran.refusal.is_some());
            halted += u32::from(twin.processor.mode == Mode::Halted);
            fatal += u32::from(twin.processor.mode == Mode::Fatal);
        }
    }
    let least = refused.min(halted).min(fatal);
    assert!(least > 100, "runs reach: {halted} halted, {fatal} fatal, {refused} refused");
}

/// A machine whose program starts at 0x05000000, with plain handlers.
fn programmed(code: &[u16]) -> Twin {
    let buffers = Buffers::zeroed(1_024, 65_536, 262_144, 16);
    let processor = Processor { pc: 0x0500_0000, ..Processor::default() };
    let mut twin = Twin::new(buffers, processor, DrawingRegisters::default());
    twin.put_code(0x0500_0000, code);
    for address in [0xFFFF_FF80u32, 0xFFFF_FF90, 0xFFFF_FFA0, 0xFFFF_FFB0, 0xFFFF_FFD0] {
        twin.put_code(address, &[NOP, RETI]);
    }
    twin
}

/// The last instruction that is met, and what a large budget gives.
struct Ending {
    code: u16,
    psw: u32,
    count: u64,
    refusal: Option<Refusal>,
    mode: Mode,
}

/// Budgets 0, 1 and large over programs that halt, turn fatal or meet
/// refusal 6 in the middle.
#[test]
fn runs_that_end_early() {
    let ending = |code, psw, count, refusal, mode| Ending { code, psw, count, refusal, mode };
    let not_modelled = Some(Refusal::NotModelled);
    for ending in [
        ending(HALT, 0, 4, None, Mode::Halted),
        ending(BIT_STRING, 0, 3, not_modelled, Mode::Running),
        ending(half(0b111010, 1, 2), 0, 3, not_modelled, Mode::Running),
        ending(half(0b011100, 1, 24), 0, 3, not_modelled, Mode::Running),
        ending(half(0b011101, 1, 24), 0, 3, not_modelled, Mode::Running),
        ending(ILLEGAL, 0x8000, 3, None, Mode::Fatal),
        ending(half(0b110010, 1, 2), 0xC000, 3, None, Mode::Fatal),
        ending(half(0b111110, 1, 2), 0x8000, 3, None, Mode::Fatal),
        ending(half(TRAP, 0, 5), 0x8000, 3, None, Mode::Fatal),
        ending(half(0b001001, 1, 0), 0x8000, 3, None, Mode::Fatal),
    ] {
        let code = [NOP, half(0b010000, 1, 7), NOP, ending.code, NOP];
        for budget in [0, 1, 2, 3, 4, 5, 1_000, u64::MAX] {
            let mut twin = programmed(&code);
            twin.processor.psw = ending.psw;
            let what = || format!("{:04X}, budget {budget}", ending.code);
            let ran = twin.run(budget, &what);
            twin.expect_equal(&what);
            assert_eq!(ran.count, budget.min(ending.count), "{}", what());
            if budget > ending.count {
                assert_eq!((ran.refusal, twin.processor.mode), (ending.refusal, ending.mode));
                let again = twin.run(budget, &what);
                assert_eq!((again.count, again.refusal), (0, ending.refusal), "{}", what());
            }
        }
    }
}

/// Each cause in each of the three exception states, by step and by run.
#[test]
fn exceptions_in_each_state() {
    let traps = (0..32).map(|vector| half(TRAP, 9, vector));
    let others = [ILLEGAL, half(0b110010, 1, 2), half(0b110110, 3, 4)];
    let divisions = [half(0b001001, 5, 0), half(0b001011, 30, 0), half(0b001001, 0, 0)];
    for code in traps.chain(others).chain(divisions) {
        for psw in [0u32, 0x3FF, 0x2000, 0x3000, 0x4000, 0x7000, 0x8000, 0xC000, 0xF_F3FF] {
            let mut twin = programmed(&[NOP, code, NOP, HALT]);
            twin.processor.psw = psw;
            twin.processor.ecr = 0x1234_5678;
            let start = twin.clone();
            let what = || format!("{code:04X} with PSW {psw:X}");
            for _ in 0..8 {
                let _ = twin.step(&what);
            }
            twin.expect_equal(&what);
            for budget in 0..8 {
                let mut twin = start.clone();
                twin.run(budget, &what);
                twin.expect_equal(&what);
            }
        }
    }
}

/// Halted and fatal machines do nothing, whatever they point at.
#[test]
fn machines_that_do_not_run() {
    let mut random = Random::new(0xC0DE_0008);
    for mode in [Mode::Halted, Mode::Fatal] {
        for code in [NOP, BIT_STRING, ILLEGAL] {
            let mut twin = programmed(&[code]);
            twin.processor = random_processor(&mut random);
            twin.processor.pc = 0x0500_0000;
            twin.processor.mode = mode;
            let what = || format!("{mode:?} at {code:04X}");
            assert!(twin.step(&what).is_ok());
            for budget in [0, 1, 100] {
                let ran = twin.run(budget, &what);
                assert_eq!((ran.count, ran.refusal), (0, None));
            }
            twin.expect_equal(&what);
        }
    }
}

/// Code at the end of the address space; a second halfword from address 0.
#[test]
fn the_end_of_the_address_space() {
    let mut random = Random::new(0xC0DE_0009);
    let mut twin = random_twin(&mut random, 1_024, 2);
    for number in 0..60_000 {
        let start = 0xFFFF_FFFCu32.wrapping_add(2 * random.below(4));
        let code = if random.one_in(2) {
            instruction(&mut random)
        } else {
            vec![random.half(), random.half()]
        };
        twin.put_code(start, &code);
        twin.processor = random_processor(&mut random);
        twin.processor.pc = start;
        aim_pointers(&mut random, &mut twin.processor, start);
        let what = || format!("{code:04X?} at 0x{start:08X}, number {number}");
        for _ in 0..3 {
            let _ = twin.step(&what);
        }
        if number % 16 == 0 {
            twin.expect_equal(&what);
        }
    }
}

/// Programs that store into themselves, the instruction after the store and
/// the store itself among the targets.
#[test]
fn self_modifying_programs() {
    let mut random = Random::new(0xC0DE_000A);
    let mut twin = random_twin(&mut random, 1_024, 4_096);
    for number in 0..20_000 {
        let code =
            random.pick(&[0x0500_0200u32, 0xFDAB_0400, 0x0600_0040, 0x0000_6100, 0x0007_8100]);
        let mut halves = program(&mut random, 2);
        for _ in 0..8 {
            let store = random.pick(&[0b110100u16, 0b110101, 0b110111, 0b111100]);
            let place = 2 * halves.len() as i32 + random.between(-4, 8);
            halves.push(half(store, 1 + random.below(4) as u16, 10));
            halves.push(place as u16);
            halves.extend(instruction(&mut random));
        }
        twin.put_code(code, &halves);
        twin.processor = random_processor(&mut random);
        twin.processor.pc = code;
        twin.processor.registers[10] = code;
        for register in 1..=4 {
            let (low, high) = (instruction(&mut random)[0], instruction(&mut random)[0]);
            twin.processor.registers[register] = u32::from(high) << 16 | u32::from(low);
        }
        let what = || format!("self-modifying program {number}, seed C0DE000A");
        if number % 2 == 0 {
            twin.run(40, &what);
        } else {
            for _ in 0..40 {
                let _ = twin.step(&what);
            }
        }
        twin.expect_equal(&what);
    }
}

/// The reset call gives both records.
#[test]
fn reset() {
    let machine = vbsys::reset();
    let (processor, drawing) = model::processor::reset();
    assert_eq!(machine.processor, difftests::twin::processor_to_library(&processor));
    assert_eq!(machine.drawing, difftests::machine::to_library(&drawing));
}
