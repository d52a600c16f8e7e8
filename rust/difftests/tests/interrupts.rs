//! Interrupts and the timer (W6): which line is accepted and how, in every mode;
//! ticks; the timer's registers on the bus; programs that halt, mask and lower
//! their lines; refusal 5 with the new fields.

use difftests::access::{by_library, by_model, timer_address, Call, CALLS, LOADS, STORES};
use difftests::broken::Broken;
use difftests::machine::{
    hardware_to_library, hardware_to_model, number_of, random_drawing, random_hardware, to_library,
    Buffers, Registers,
};
use difftests::program::{
    aim_pointers, half, load_interrupt_program, random_processor, BIT_STRING, CAXI, HALT, NOP,
};
use difftests::random::Random;
use difftests::twin::{processor_to_library, Twin};
use model::hardware::TimerRegister;
use model::{DrawingRegisters, Hardware, Mode, Processor, Refusal, StepAnswer};

/// Bits of PSW.
const ID: u32 = 0x1000;
const AE: u32 = 0x2000;
const EP: u32 = 0x4000;
const NP: u32 = 0x8000;

/// Numbers at which the timer turns.
const COUNTS: [u16; 7] = [0, 1, 2, 3, 255, 256, 65_535];
/// The 16 settings of control's bits.
fn controls() -> impl Iterator<Item = u16> {
    (0..0x20).filter(|control| control & !0x1B == 0)
}

const fn hardware(lines: u16, count: u16, reload: u16, control: u16) -> Hardware {
    Hardware { lines, count, reload, control }
}

/// A machine at this instruction in WRAM; the handlers are NOPs.
fn at_instruction(random: &mut Random, code: u16) -> Twin {
    let mut buffers = Buffers::random(random, 1_024, 4);
    for pair in buffers.rom.chunks_mut(2) {
        pair.copy_from_slice(&NOP.to_le_bytes());
    }
    let processor = Processor { pc: 0x0500_0000, ..random_processor(random) };
    let mut twin = Twin::new(buffers, processor, random_drawing(random));
    twin.put_code(0x0500_0000, &[code, NOP, NOP]);
    twin
}

/// The record after an acceptance, by the request's sentences.
fn accepted(before: &Processor, level: u32) -> Processor {
    Processor {
        eipc: before.pc,
        eipsw: before.psw,
        ecr: before.ecr & 0xFFFF_0000 | (0xFE00 + 16 * level),
        psw: before.psw & !0x000F_0000 & !AE | EP | ID | (level + 1) << 16,
        pc: 0xFFFF_FE00 + 16 * level,
        mode: Mode::Running,
        ..*before
    }
}

/// Every setting of the lines, of I, of NP, EP and ID, and every mode: whether an
/// interrupt is accepted, which, and the whole record afterwards; at an
/// instruction that is modelled and at one that isn't.
#[test]
fn every_line_level_mask_and_mode() {
    let mut random = Random::new(0x6001_0000);
    for code in [NOP, CAXI] {
        let mut twin = at_instruction(&mut random, code);
        let mut seen = [0; 6];
        for number in 0..32u32 * 16 * 8 * 3 {
            let (lines, rest) = ((number % 32) as u16, number / 32);
            let (least, rest) = (rest % 16, rest / 16);
            let (masks, mode) =
                (rest % 8, [Mode::Running, Mode::Halted, Mode::Fatal][rest as usize / 8]);
            let masks = [0, ID, EP, ID | EP, NP, NP | ID, NP | EP, NP | EP | ID][masks as usize];
            let before = Processor {
                pc: 0x0500_0000,
                psw: random.word() & 0x0000_23FF | masks | least << 16,
                mode,
                hardware: Hardware { lines, ..random_hardware(&mut random) },
                ..random_processor(&mut random)
            };
            let what = || format!("lines {lines:X}, I {least}, masks {masks:X}, {mode:?}");
            let level = (0..5).rev().find(|&level| lines >> level & 1 == 1);
            let level = level.filter(|&level| level >= least && masks == 0 && mode != Mode::Fatal);
            twin.processor = before;
            let answer = twin.step(&what);
            seen[level.map_or(5, |level| level as usize)] += 1;
            match (level, mode) {
                (Some(level), _) => {
                    assert_eq!(answer, Ok(StepAnswer::Interrupted(level)), "{}", what());
                    assert_eq!(twin.processor, accepted(&before, level), "{}", what());
                }
                (None, Mode::Halted) => assert_eq!(answer, Ok(StepAnswer::WasHalted)),
                (None, Mode::Fatal) => assert_eq!(answer, Ok(StepAnswer::WasFatal)),
                (None, Mode::Running) if code == CAXI => {
                    assert_eq!(answer, Err(Refusal::NotModelled), "{}", what());
                }
                (None, Mode::Running) => assert_eq!(answer, Ok(StepAnswer::Ended)),
            }
            for budget in [0, 1, 2] {
                twin.processor = before;
                let ran = twin.run(budget, &what);
                let counted = match level {
                    // the handler's first instruction is a NOP
                    Some(_) => budget,
                    None if mode == Mode::Running && code == NOP => budget,
                    None => 0,
                };
                assert_eq!(ran.count, counted, "budget {budget}, {}", what());
                let refused =
                    budget > 0 && level.is_none() && code == CAXI && mode == Mode::Running;
                assert_eq!(ran.refusal, refused.then_some(Refusal::NotModelled), "{}", what());
            }
            if number % 64 == 0 {
                twin.expect_equal(&what);
            }
        }
        twin.expect_equal(&|| format!("after {code:04X}"));
        assert!(seen.iter().all(|&times| times > 0), "{seen:?}");
    }
}

/// A step of the library from a machine whose program is `code`.
fn library_step(psw: u32, lines: u16, mode: u32, pc: u32, code: u16) -> vbsys::Stepped {
    let mut buffers = Buffers::zeroed(1_024, 65_536, 262_144, 0);
    buffers.wram[..2].copy_from_slice(&code.to_le_bytes());
    let hardware = vbsys::Hardware { lines, ..Default::default() };
    let processor = vbsys::Processor { pc, psw, mode, hardware, ..Default::default() };
    vbsys::step(&mut buffers.for_library(), processor, Default::default())
}

/// The request's worked steps.
#[test]
fn worked_steps() {
    let (running, halted, wram) = (vbsys::RUNNING, vbsys::HALTED, 0x0500_0000);
    for (psw, lines, mode, pc, code, level, psw_after) in [
        (0, 0x12, running, 0x0700_0100, NOP, 4, 0x0005_5000),
        (0x2_0000, 0x06, running, wram, NOP, 2, 0x0003_5000),
        (0x2000, 0x01, halted, wram, NOP, 0, 0x0001_5000),
        (0, 0x10, running, wram, CAXI, 4, 0x0005_5000),
        (0x4_0000, 0x1F, halted, wram, CAXI, 4, 0x0005_5000),
    ] {
        let stepped = library_step(psw, lines, mode, pc, code);
        let found = (stepped.refusal, stepped.answer, stepped.code);
        assert_eq!(found, (0, 5, 0xFE00 + 16 * level), "{psw:X} {lines:X}");
        let after = stepped.processor;
        assert_eq!((after.pc, after.psw), (0xFFFF_FE00 + 16 * level, psw_after));
        assert_eq!((after.eipc, after.eipsw, after.ecr), (pc, psw, 0xFE00 + 16 * level));
        assert_eq!((after.mode, after.hardware.lines), (running, lines));
        assert_eq!(stepped.undefined, vbsys::Undefined::default());
    }
    for (psw, lines) in
        [(0x2_0000, 0x02), (ID, 0x1F), (EP, 0x1F), (NP, 0x1F), (0x5_0000, 0x1F), (0xF_0000, 0x1F)]
    {
        assert_eq!(library_step(psw, lines, running, wram, NOP).answer, vbsys::ENDED);
        assert_eq!(library_step(psw, lines, halted, wram, NOP).answer, vbsys::WAS_HALTED);
        assert_eq!(library_step(psw, lines, running, wram, CAXI).refusal, 6);
    }
    assert_eq!(library_step(0, 0x1F, vbsys::FATAL, wram, NOP).answer, vbsys::WAS_FATAL);
}

/// The request's worked runs.
#[test]
fn worked_runs() {
    let mut random = Random::new(0x6002_0000);
    let mut twin = at_instruction(&mut random, NOP);
    let halted = Processor {
        pc: 0x0500_0000,
        mode: Mode::Halted,
        hardware: hardware(0x10, 0, 0, 0),
        ..Processor::default()
    };
    let what = || "worked runs".into();
    twin.processor = halted;
    assert_eq!(twin.run(2, &what).count, 2);
    assert_eq!((twin.processor.mode, twin.processor.pc), (Mode::Running, 0xFFFF_FE42));
    for mode in [Mode::Running, Mode::Halted] {
        twin.processor = Processor { mode, ..halted };
        assert_eq!(twin.run(0, &what).count, 0);
        assert_eq!(twin.processor, Processor { mode, ..halted });
    }
    let mut twin = at_instruction(&mut random, HALT);
    twin.processor = Processor { pc: 0x0500_0000, ..Processor::default() };
    assert_eq!(twin.run(1, &what).count, 1);
    assert_eq!(twin.processor.mode, Mode::Halted);
    assert_eq!(twin.run(1_000, &what).count, 0);
    // HALT, the acceptance, then the handler; the restore PC is the one after HALT
    twin.processor.hardware.lines = 0x01;
    assert_eq!(twin.run(1, &what).count, 1);
    assert_eq!((twin.processor.eipc, twin.processor.pc), (0x0500_0002, 0xFFFF_FE00));
    assert_eq!(twin.processor.mode, Mode::Running);
}

/// Makes the tick on both sides; gives the model's record.
fn tick(before: &Hardware) -> Hardware {
    let library = vbsys::tick(hardware_to_library(before));
    let mut after = *before;
    let answer = model::hardware::tick(&mut after);
    let expected =
        vbsys::Ticked { refusal: number_of(&answer), hardware: hardware_to_library(&after) };
    assert_eq!(library, expected, "a tick of {before:X?}");
    after
}

/// Every control with counts and reloads at which the timer turns.
#[test]
fn every_tick() {
    for control in controls() {
        for (count, reload) in COUNTS.into_iter().flat_map(|c| COUNTS.map(|r| (c, r))) {
            for lines in 0..32 {
                let before = hardware(lines, count, reload, control);
                let after = tick(&before);
                if control & 1 == 0 {
                    assert_eq!(after, before);
                    continue;
                }
                let from = if count == 0 { reload } else { count };
                assert_eq!(after.count, from.saturating_sub(1), "{before:X?}");
                let zero = after.count == 0;
                assert_eq!(after.reload, reload);
                assert_eq!(after.control, control | if zero { 2 } else { 0 }, "{before:X?}");
                let raised = zero && control & 8 != 0;
                assert_eq!(after.lines, lines | if raised { 2 } else { 0 }, "{before:X?}");
            }
        }
    }
}

/// Z-Stat is set at the n-th tick and not before; the interval has no say.
#[test]
fn the_period() {
    for reload in [1u16, 2, 3, 20, 255, 256, 65_535] {
        for clock in [0, 0x10] {
            let mut timer = hardware(0, reload, reload, 0x09 | clock);
            for number in 1..=u32::from(reload) {
                timer = tick(&timer);
                let zero = number == u32::from(reload);
                assert_eq!((timer.control & 2 != 0, timer.lines), (zero, u16::from(zero) * 2));
            }
        }
    }
}

/// Of a worked row.
fn hardware_of([lines, count, reload, control]: [u16; 4]) -> Hardware {
    hardware(lines, count, reload, control)
}

/// The request's worked ticks and writes, by the library.
#[test]
fn worked_timers() {
    for row in worked::TICKS {
        let [before, after] = row.map(hardware_of);
        let ticked = vbsys::tick(hardware_to_library(&before));
        assert_eq!((ticked.refusal, hardware_to_model(&ticked.hardware)), (0, after));
    }
    let mut buffers = Buffers::zeroed(1_024, 65_536, 262_144, 0);
    for (before, offset, value, after) in worked::TIMER_WRITES {
        let (before, after) = (hardware_of(before), hardware_of(after));
        let address = 0x0200_0000 + offset;
        let registers = Registers { hardware: before, ..Registers::default() };
        let stored = by_library(Call::StoreByte, &mut buffers, registers, address, value);
        assert_eq!((stored.refusal, stored.hardware), (0, after), "{value:X} over {before:X?}");
    }
    let reset = DrawingRegisters::default();
    let loaded = by_library(Call::LoadByte, &mut buffers, &reset, 0x0200_0020, 0);
    assert_eq!((loaded.refusal, loaded.value, loaded.undefined), (0, 0xE4, 0));
}

/// Memories held twice, and the accesses made on both.
struct Pair {
    library: Buffers,
    model: Buffers,
}

impl Pair {
    fn random(random: &mut Random) -> Pair {
        let library = Buffers::random(random, 1_024, 2);
        Pair { model: library.clone(), library }
    }

    /// Makes the access on both sides; gives the registers afterwards.
    fn access(&mut self, call: Call, before: &Registers, address: u32, value: u32) -> Registers {
        let library = by_library(call, &mut self.library, *before, address, value);
        let model = by_model(call, &mut self.model, *before, address, value);
        assert_eq!(library, model, "{call:?} 0x{address:08X} value 0x{value:X}, {before:X?}");
        assert_eq!(library.refusal, 0);
        library.registers()
    }

    fn expect_equal(&self, what: &str) {
        self.library.expect_equal(&self.model, &|| what.into());
    }
}

/// Every byte written to TCR, by each width, over every control and the counts at
/// which the timer turns; and every byte written to TLR and THR.
#[test]
fn every_byte_written_to_the_timer() {
    let mut random = Random::new(0x6003_0000);
    let mut pair = Pair::random(&mut random);
    let drawing = random_drawing(&mut random);
    for control in controls() {
        for (count, reload) in COUNTS.into_iter().flat_map(|c| COUNTS.map(|r| (c, r))) {
            for lines in [0, 2, 31] {
                let hardware = hardware(lines, count, reload, control);
                let before = Registers { drawing, hardware };
                for value in 0..256u32 {
                    let high = random.word() & 0xFFFF_FF00;
                    let call = random.pick(&STORES);
                    let after = pair.access(call, &before, 0x0200_0020, high | value);
                    let status = if value & 4 != 0 { 0 } else { control & 2 };
                    let kept = value & 4 == 0 && value & 8 != 0;
                    let expected = Hardware {
                        lines: if kept { lines } else { lines & !2 },
                        control: value as u16 & 0x19 | status,
                        ..hardware
                    };
                    assert_eq!(after, Registers { drawing, hardware: expected });
                }
            }
        }
        let before =
            Registers { hardware: Hardware { control, ..random_hardware(&mut random) }, drawing };
        let reload = before.hardware.reload;
        for value in 0..256u32 {
            for (address, written) in [
                (0x0200_0018, reload & 0xFF00 | value as u16),
                (0x0200_001C, reload & 0x00FF | (value as u16) << 8),
            ] {
                for call in STORES {
                    let source = random.word() & 0xFFFF_FF00 | value;
                    let after = pair.access(call, &before, address, source);
                    let hardware = Hardware { count: written, reload: written, ..before.hardware };
                    assert_eq!(after, Registers { drawing, hardware });
                }
            }
        }
    }
    pair.expect_equal("the timer written");
}

/// Where region 2 is looked at: itself, where mirrors inside it would be, and the
/// copies that the 27-bit map gives.
const BASES: [u32; 8] = [
    0x0200_0000,
    0x0200_0100,
    0x0201_0000,
    0x02FF_FF00,
    0x0A00_0000,
    0xFA00_0000,
    0x8201_0000,
    0x0100_0000,
];

/// Every address of the first 256 bytes, by each width, loaded and stored: the
/// registers and nothing else.
#[test]
fn every_address_of_region_2() {
    let mut random = Random::new(0x6004_0000);
    let mut pair = Pair::random(&mut random);
    let lists = [0, 0xFFFF_FFFF, 0x0000_000D, 0xFFFF_FF09];
    for base in BASES {
        for low in 0..0x100u32 {
            let address = base + low;
            let before = Registers::random(&mut random);
            for (call, size) in LOADS.into_iter().zip([1, 2, 4]) {
                let after = pair.access(call, &before, address, 0);
                assert_eq!(after, before);
                let value = by_library(call, &mut pair.library, before, address, 0).value;
                let here = base & 0x07FF_FFFF == 0x0200_0000;
                let expected = match low & !(size - 1) {
                    0x18 if here => u32::from(before.hardware.count & 0xFF),
                    0x1C if here => u32::from(before.hardware.count >> 8),
                    0x20 if here => 0xE4 + u32::from(before.hardware.control),
                    _ => 0,
                };
                assert_eq!(value, expected, "{call:?} 0x{address:08X}");
            }
            for (call, size) in STORES.into_iter().zip([1, 2, 4]) {
                for value in lists.into_iter().chain([random.word()]) {
                    let after = pair.access(call, &before, address, value);
                    let first = low & !(size - 1);
                    let here = base & 0x07FF_FFFF == 0x0200_0000;
                    if !here || ![0x18, 0x1C, 0x20].contains(&first) {
                        assert_eq!(after, before, "{call:?} 0x{address:08X}");
                    }
                    assert_eq!(after.hardware.lines & !2, before.hardware.lines & !2);
                }
            }
        }
        pair.expect_equal("region 2");
    }
}

/// The same by instructions: LD, IN, ST and OUT of each width.
#[test]
fn every_address_of_region_2_by_instruction() {
    const OPCODES: [u16; 12] =
        [0x30, 0x31, 0x33, 0x38, 0x39, 0x3B, 0x34, 0x35, 0x37, 0x3C, 0x3D, 0x3F];
    let mut random = Random::new(0x6005_0000);
    let mut twin = at_instruction(&mut random, NOP);
    for base in BASES {
        for low in 0..0x100u32 {
            for opcode in OPCODES {
                let displacement = random.half();
                twin.put_code(0x0500_0000, &[half(opcode, 5, 6), displacement]);
                twin.processor = random_processor(&mut random);
                twin.processor.pc = 0x0500_0000;
                // lines are raised and masked
                twin.processor.psw |= ID;
                twin.processor.hardware = random_hardware(&mut random);
                let signed = displacement as i16 as u32;
                twin.processor.registers[6] = (base + low).wrapping_sub(signed);
                let what = || format!("opcode {opcode:06b} at 0x{:08X}", base + low);
                assert_eq!(twin.step(&what), Ok(StepAnswer::Ended));
            }
        }
        twin.expect_equal(&|| format!("region 2 at {base:08X}"));
    }
}

/// Instructions fetched from region 2: the timer's bytes are code.
#[test]
fn code_in_region_2() {
    let mut random = Random::new(0x6006_0000);
    let mut twin = at_instruction(&mut random, NOP);
    for number in 0..20_000 {
        let low =
            if number % 4 == 0 { timer_address(&mut random) } else { 0x14 + random.below(16) };
        twin.processor = random_processor(&mut random);
        twin.processor.pc = (0x0200_0000 | random.below(32) << 27) + (low & 0xFF_FFFE);
        twin.processor.psw |= ID;
        twin.processor.hardware = random_hardware(&mut random);
        let what = || format!("code in region 2, number {number}");
        for _ in 0..3 {
            let _ = twin.step(&what);
        }
    }
    twin.expect_equal(&|| "code in region 2".into());
}

/// Writes and ticks mixed, from any record on.
#[test]
fn random_timers() {
    let mut random = Random::new(0x6007_0000);
    let mut pair = Pair::random(&mut random);
    for _ in 0..4_000 {
        let mut registers = Registers::random(&mut random);
        for _ in 0..50 {
            if random.one_in(3) {
                let call = random.pick(&CALLS);
                let address = 0x0200_0000 + timer_address(&mut random);
                let value = random.word() >> random.below(32);
                registers = pair.access(call, &registers, address, value);
            } else {
                let before = registers.hardware;
                registers.hardware = tick(&before);
                assert_eq!(registers.hardware.lines & !2, before.lines & !2);
                assert!(registers.hardware.lines & 2 >= before.lines & 2, "a tick lowers a line");
            }
        }
    }
    pair.expect_equal("random timers");
}

/// What the programs met, so that a test that no longer reaches something says so.
#[derive(Debug, Default)]
struct Tally {
    levels: [u32; 5],
    awakened: u32,
    before_refusal_6: u32,
    nested: u32,
    halted_under_a_line: u32,
    lowered: u32,
}

impl Tally {
    fn add(&mut self, before: &Processor, after: &Processor, answer: &Result<StepAnswer, Refusal>) {
        match answer {
            Ok(StepAnswer::Interrupted(level)) => {
                self.levels[*level as usize] += 1;
                self.awakened += u32::from(before.mode == Mode::Halted);
                self.nested += u32::from(before.pc >= 0xFFFF_FE00);
            }
            Ok(StepAnswer::WasHalted) => {
                self.halted_under_a_line += u32::from(before.hardware.lines != 0);
            }
            _ => {}
        }
        self.lowered += u32::from(before.hardware.lines & !after.hardware.lines & 2 != 0);
        assert_eq!(before.hardware.lines & !2, after.hardware.lines & !2);
        assert!(after.hardware.lines & 2 <= before.hardware.lines & 2, "a step raises line 1");
    }

    fn expect_all_reached(&self) {
        let Tally { levels, awakened, nested, halted_under_a_line, lowered, .. } = self;
        let least = levels.iter().chain([awakened, nested, halted_under_a_line, lowered]).min();
        assert!(least > Some(&100), "the programs no longer reach everything: {self:?}");
        assert!(self.before_refusal_6 > 20, "{self:?}");
    }
}

/// Programs stepped on both sides; between steps the bench raises and lowers lines
/// and ticks.
#[test]
fn programs_step_by_step() {
    let mut random = Random::new(0x6008_0000);
    let buffers = Buffers::random(&mut random, 2_048, 64);
    let mut twin = Twin::new(buffers, Processor::default(), DrawingRegisters::default());
    let mut tally = Tally::default();
    for number in 0..3_000 {
        load_interrupt_program(&mut random, &mut twin);
        let what = || format!("program {number}, seed 60080000");
        for _ in 0..150 {
            let before = twin.processor;
            let answer = twin.step(&what);
            tally.add(&before, &twin.processor, &answer);
            let stopped = answer.is_err() || twin.processor.mode == Mode::Fatal;
            if stopped {
                twin.processor.mode = Mode::Running;
                twin.processor.psw &= !(NP | EP | ID);
                // a raised line comes before the instruction that isn't modelled
                twin.processor.hardware.lines |= 0x10;
                twin.processor.psw &= 0x3FFF;
                let before = twin.processor;
                let again = twin.step(&what);
                assert_eq!(again, Ok(StepAnswer::Interrupted(4)));
                tally.before_refusal_6 += u32::from(answer.is_err());
                tally.add(&before, &twin.processor, &again);
            }
            if random.one_in(8) {
                twin.processor.hardware.lines = random.half() & 0x1F & random.half();
            }
            if random.one_in(4) {
                twin.processor.hardware = tick(&twin.processor.hardware);
            }
            if random.one_in(64) {
                let pc = twin.processor.pc;
                aim_pointers(&mut random, &mut twin.processor, pc);
                twin.processor.registers[18] = 0x0200_0018;
            }
        }
        twin.expect_equal(&what);
    }
    tally.expect_all_reached();
}

/// A run against the same number of steps, and against runs of one: count, records
/// and memories. Acceptances count.
#[test]
fn runs_and_steps() {
    let mut random = Random::new(0x6009_0000);
    let buffers = Buffers::random(&mut random, 1_024, 0);
    let mut twin = Twin::new(buffers, Processor::default(), DrawingRegisters::default());
    let (mut midway, mut first, mut halted, mut refused) = (0, 0, 0, 0);
    for number in 0..1_500 {
        load_interrupt_program(&mut random, &mut twin);
        let what = || format!("run {number}, seed 60090000");
        let (mut stepped, mut by_ones) = (twin.clone(), twin.clone());
        let budget = u64::from(random.below(200));
        let ran = twin.run(budget, &what);
        let (mut count, mut refusal) = (0, None);
        while count < budget {
            match stepped.step(&what) {
                Ok(StepAnswer::Interrupted(_)) => {
                    midway += u32::from(count > 0);
                    first += u32::from(count == 0);
                    count += 1;
                }
                Ok(StepAnswer::Ended | StepAnswer::Trapped(_)) => count += 1,
                Ok(_) => break,
                Err(number) => {
                    refusal = Some(number);
                    break;
                }
            }
        }
        assert_eq!((ran.count, ran.refusal), (count, refusal), "{}", what());
        assert_eq!((twin.processor, twin.drawing), (stepped.processor, stepped.drawing));
        twin.library.expect_equal(&stepped.library, &what);
        twin.expect_equal(&what);
        let mut ones = 0;
        while ones < budget {
            let ran = by_ones.run(1, &what);
            ones += ran.count;
            if ran.count == 0 {
                break;
            }
        }
        assert_eq!(ones, count, "runs of one, {}", what());
        assert_eq!((twin.processor, twin.drawing), (by_ones.processor, by_ones.drawing));
        twin.library.expect_equal(&by_ones.library, &what);
        let waits = count < budget && twin.processor.mode == Mode::Halted;
        halted += u32::from(waits && twin.processor.hardware.lines != 0);
        refused += u32::from(refusal.is_some());
    }
    let least = [midway, first, halted, refused].into_iter().min();
    assert!(least > Some(20), "{midway} midway, {first} first, {halted} halted, {refused} refused");
}

/// No byte outside the caller's buffers is touched; ROM may not be written; pak RAM may be
/// empty.
#[cfg(target_os = "linux")]
#[test]
fn between_fences() {
    use difftests::fence::{sides_and_paks, FencedMemories};
    let mut random = Random::new(0x600A_0000);
    for (side, pak) in sides_and_paks() {
        for _ in 0..40 {
            let buffers = Buffers::random(&mut random, 1_024, pak);
            let mut twin = Twin::new(buffers, Processor::default(), DrawingRegisters::default());
            load_interrupt_program(&mut random, &mut twin);
            let mut fenced = FencedMemories::new(&twin.model, side);
            let processor = processor_to_library(&twin.processor);
            let ran = vbsys::run(&mut fenced.write(), processor, to_library(&twin.drawing), 200);
            let expected = twin.run(200, &|| "between fences".into());
            assert_eq!(ran.count, expected.count);
            assert_eq!(ran.processor, processor_to_library(&twin.processor));
            fenced.expect_equal(&twin.model);
        }
    }
}

/// Records on both sides of refusal 5's new limits.
fn limits() -> Vec<(Hardware, bool)> {
    let most = hardware(0x1F, 0xFFFF, 0xFFFF, 0x1B);
    let mut limits = vec![
        (most, true),
        (hardware(0, 0, 0, 0), true),
        (Hardware { lines: 0x20, ..most }, false),
        (Hardware { lines: 0xFFFF, ..most }, false),
        (Hardware { control: 0x1F, ..most }, false),
        (Hardware { control: 0xFFFF, ..most }, false),
    ];
    for bit in 0..16 {
        limits.push((hardware(1 << bit, 3, 4, 0), bit < 5));
        limits.push((hardware(0, 3, 4, 1 << bit), 0x1B >> bit & 1 == 1));
        limits.push((hardware(0, 1 << bit, 0, 0), true));
        limits.push((hardware(0, 0, 1 << bit, 0), true));
    }
    limits
}

/// Step and run at several budgets are refused by `number` and change nothing.
fn expect_refused(
    buffers: &Buffers,
    processor: &vbsys::Processor,
    drawing: &vbsys::Drawing,
    number: u32,
) {
    let mut after = buffers.clone();
    let what = format!("refused by {number}: {:X?}", processor.hardware);
    let stepped = vbsys::step(&mut after.for_library(), *processor, *drawing);
    let expected = vbsys::Stepped {
        refusal: number,
        processor: *processor,
        drawing: *drawing,
        ..Default::default()
    };
    assert_eq!(stepped, expected, "{what}");
    for budget in [0, 1, 100] {
        let ran = vbsys::run(&mut after.for_library(), *processor, *drawing, budget);
        let expected =
            vbsys::Ran { refusal: number, count: 0, processor: *processor, drawing: *drawing };
        assert_eq!(ran, expected, "budget {budget}, {what}");
    }
    after.expect_equal(buffers, &|| what.clone());
}

/// Each limit in each call that is given the record, and in every mode.
#[test]
fn limits_of_lines_and_control() {
    let mut random = Random::new(0x600B_0000);
    let twin = at_instruction(&mut random, NOP);
    let mut buffers = twin.library.clone();
    for (hardware, legal) in limits() {
        let number = if legal { 0 } else { 5 };
        let ticked = vbsys::tick(hardware_to_library(&hardware));
        assert_eq!(ticked.refusal, number, "tick {hardware:X?}");
        assert!(legal || hardware_to_model(&ticked.hardware) == hardware);
        let mut after = hardware;
        assert_eq!(number_of(&model::hardware::tick(&mut after)), number);
        let registers = Registers { hardware, drawing: twin.drawing };
        for call in CALLS {
            let address = 0x0500_0010;
            let answer = by_library(call, &mut buffers, registers, address, 0x55);
            assert_eq!(answer, by_model(call, &mut buffers.clone(), registers, address, 0x55));
            assert_eq!((answer.refusal, answer.hardware), (number, hardware), "{call:?}");
        }
        for (mode, psw) in [0, 1, 2].into_iter().flat_map(|mode| [(mode, 0), (mode, ID)]) {
            let mut processor = processor_to_library(&twin.processor);
            (processor.mode, processor.psw) = (mode, psw);
            processor.hardware = hardware_to_library(&hardware);
            let drawing = to_library(&twin.drawing);
            if legal {
                let mut after = buffers.clone();
                let stepped = vbsys::step(&mut after.for_library(), processor, drawing);
                assert_eq!(stepped.refusal, 0, "{hardware:X?}");
                let ran = vbsys::run(&mut after.for_library(), processor, drawing, 1);
                assert_eq!(ran.refusal, 0, "{hardware:X?}");
            } else {
                expect_refused(&buffers, &processor, &drawing, 5);
            }
        }
    }
}

/// Every set of broken conditions 1 to 5, the last by lines or by control, and the
/// mode: an interrupt that could be accepted, or an instruction that isn't
/// modelled, is never looked at before.
#[test]
fn the_order_of_refusals() {
    let mut random = Random::new(0x600C_0000);
    let drawing = random_drawing(&mut random);
    for broken in Broken::sets(6) {
        let mut buffers = broken.buffers();
        buffers.rom.fill(0x11);
        buffers.pak.fill(0x22);
        if buffers.wram.len() > 1 {
            buffers.wram[..2].copy_from_slice(&BIT_STRING.to_le_bytes());
        }
        let mut hardware = hardware(0x10, 1, 2, 0x09);
        match (broken.has(4), broken.way) {
            (true, 0) => hardware.lines |= 0x20,
            (true, _) => hardware.control |= 0x04,
            _ => {}
        }
        let mode = if broken.has(5) { 3 + broken.way as u32 } else { vbsys::RUNNING };
        let processor = vbsys::Processor {
            pc: 0x0500_0000,
            mode,
            hardware: hardware_to_library(&hardware),
            ..Default::default()
        };
        let first = broken.first(&[1, 2, 3, 4, 5]);
        let registers = Registers { drawing, hardware };
        for call in CALLS {
            let before = buffers.clone();
            let answer = by_library(call, &mut buffers, registers, 0x0200_0020, 0xFF);
            assert_eq!(answer.refusal, first.unwrap_or(0), "{call:?}, {broken}");
            assert_eq!(answer, by_model(call, &mut buffers.clone(), registers, 0x0200_0020, 0xFF));
            buffers.expect_equal(&before, &|| format!("{call:?}, {broken}"));
        }
        let number = first.or(broken.has(5).then_some(vbsys::MISUSE));
        let drawing = to_library(&drawing);
        match number {
            Some(number) => expect_refused(&buffers, &processor, &drawing, number),
            None => {
                let stepped = vbsys::step(&mut buffers.for_library(), processor, drawing);
                assert_eq!((stepped.refusal, stepped.answer, stepped.code), (0, 5, 0xFE40));
            }
        }
        let ticked = vbsys::tick(processor.hardware);
        assert_eq!(ticked.refusal, if broken.has(4) { 5 } else { 0 });
    }
}

/// Reset: no line is raised and the timer is at 0.
#[test]
fn reset() {
    let machine = vbsys::reset();
    assert_eq!(machine.processor.hardware, vbsys::Hardware::default());
    let hardware = hardware_to_model(&machine.processor.hardware);
    let registers = [TimerRegister::Low, TimerRegister::High, TimerRegister::Control];
    assert_eq!(registers.map(|register| hardware.read(register)), [0, 0, 0xE4]);
}
