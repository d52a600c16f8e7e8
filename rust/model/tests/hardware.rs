//! Request lines and timer (W6): the worked steps, ticks and writes, and region 2.

mod common;

use common::{Machine, NOP};
use model::bus::Place;
use model::bus::{load_byte, place_of};
use model::exception::{interrupt_code, interrupt_handler};
use model::hardware::{tick, timer_register_at, TimerRegister};
use model::processor::reset;
use model::{
    Hardware, Loaded, Mode, Processor, ReadMemories, Refusal, StepAnswer, Stepped, Undefined,
};

const fn hardware(lines: u16, count: u16, reload: u16, control: u16) -> Hardware {
    Hardware { lines, count, reload, control }
}

/// Of a worked row.
fn hardware_of([lines, count, reload, control]: [u16; 4]) -> Hardware {
    hardware(lines, count, reload, control)
}

const HALT: u16 = 0b011010 << 10;
const CLI: u16 = 0b010110 << 10;
const CAXI: u16 = 0b111010 << 10;

/// A machine whose program starts in WRAM; its handlers are NOPs.
fn machine_of(program: &[u16], psw: u32, lines: u16) -> Machine {
    let mut machine = Machine::with_handlers(program);
    machine.processor.psw = psw;
    machine.processor.hardware.lines = lines;
    machine
}

/// The step accepts this level: every field of the record afterwards, and nothing
/// of memory.
fn expect_accepted(mut machine: Machine, level: u32, psw: u32) {
    let (before, wram) = (machine.processor, machine.wram.clone());
    let stepped =
        Stepped { answer: StepAnswer::Interrupted(level), undefined: Undefined::default() };
    assert_eq!(machine.stepped(), Ok(stepped));
    let expected = Processor {
        pc: 0xFFFF_FE00 + 16 * level,
        eipc: before.pc,
        eipsw: before.psw,
        ecr: before.ecr & 0xFFFF_0000 | (0xFE00 + 16 * level),
        psw,
        mode: Mode::Running,
        ..before
    };
    assert_eq!(machine.processor, expected);
    assert!(machine.wram == wram);
}

#[test]
fn worked_steps() {
    let mut machine = machine_of(&[], 0, 0x12);
    machine.processor.pc = 0x0700_0100;
    machine.processor.ecr = 0x1234_5678;
    expect_accepted(machine, 4, 0x0005_5000);
    expect_accepted(machine_of(&[NOP], 0x2_0000, 0x06), 2, 0x0003_5000);
    let mut machine = machine_of(&[NOP], 0x2000, 0x01);
    machine.processor.mode = Mode::Halted;
    expect_accepted(machine, 0, 0x0001_5000);
    expect_accepted(machine_of(&[CAXI], 0, 0x10), 4, 0x0005_5000);
    for (psw, lines) in [
        (0x2_0000, 0x02),
        (0x1000, 0x1F),
        (0x4000, 0x1F),
        (0x8000, 0x1F),
        (0x5_0000, 0x1F),
        (0xF_0000, 0x1F),
        (0, 0),
    ] {
        let mut machine = machine_of(&[NOP], psw, lines);
        assert_eq!(machine.stepped().unwrap().answer, StepAnswer::Ended, "{psw:X} {lines:X}");
        let mut machine = machine_of(&[NOP], psw, lines);
        machine.processor.mode = Mode::Halted;
        assert_eq!(machine.stepped().unwrap().answer, StepAnswer::WasHalted, "{psw:X} {lines:X}");
    }
    let mut machine = machine_of(&[NOP], 0, 0x1F);
    machine.processor.mode = Mode::Fatal;
    assert_eq!(machine.stepped().unwrap().answer, StepAnswer::WasFatal);
}

#[test]
fn codes_and_handlers() {
    let codes: Vec<u32> = (0..5).map(interrupt_code).collect();
    assert_eq!(codes, [0xFE00, 0xFE10, 0xFE20, 0xFE30, 0xFE40]);
    let handlers: Vec<u32> = (0..5).map(interrupt_handler).collect();
    let listed = [0xFFFF_FE00, 0xFFFF_FE10, 0xFFFF_FE20, 0xFFFF_FE30, 0xFFFF_FE40];
    assert_eq!(handlers, listed);
}

#[test]
fn worked_runs() {
    let mut machine = machine_of(&[], 0, 0x10);
    machine.processor.mode = Mode::Halted;
    assert_eq!(machine.run(2), (2, None));
    assert_eq!(machine.processor.mode, Mode::Running);
    assert_eq!(machine.processor.pc, 0xFFFF_FE42);

    let mut machine = machine_of(&[HALT], 0, 0);
    assert_eq!(machine.run(1), (1, None));
    assert_eq!((machine.processor.mode, machine.processor.pc), (Mode::Halted, 0x0500_0002));
    assert_eq!(machine.run(5), (0, None));

    let mut machine = machine_of(&[CAXI], 0, 0x10);
    let before = machine.processor;
    assert_eq!(machine.run(0), (0, None));
    assert_eq!(machine.processor, before);
    // the handler is NOPs, so that 6 is not met
    assert_eq!(machine.run(3), (3, None));

    // a CLI lets the line in before the next instruction
    let mut machine = machine_of(&[CLI, CAXI], 0x1000, 0x04);
    assert_eq!(machine.run(2), (2, None));
    assert_eq!((machine.processor.eipc, machine.processor.pc), (0x0500_0002, 0xFFFF_FE20));
}

#[test]
fn worked_ticks() {
    for row in worked::TICKS {
        let [before, after] = row.map(hardware_of);
        let mut found = before;
        tick(&mut found).unwrap();
        assert_eq!(found, after, "{before:X?}");
    }
}

/// "reload n has period n".
#[test]
fn the_period() {
    for reload in [1, 2, 3, 255, 256, 65_535u16] {
        let mut timer = hardware(0, reload, reload, 0x01);
        for number in 1..=u32::from(reload) {
            tick(&mut timer).unwrap();
            assert_eq!(timer.control & 2 != 0, number == u32::from(reload), "{reload} {number}");
        }
    }
}

#[test]
fn worked_writes() {
    for (before, address, value, after) in worked::TIMER_WRITES {
        let (before, after) = (hardware_of(before), hardware_of(after));
        for region in [0x0200_0000, 0x0A00_0000, 0xFA00_0000] {
            let mut machine = machine_of(&[], 0, 0);
            machine.processor.hardware = before;
            machine.store(1, region + address, 0xAABB_CC00 | value);
            assert_eq!(machine.processor.hardware, after, "{value:X} at {address:X}");
        }
    }
}

/// W6.2: a halfword or word has the register in its low byte, and zeros; it
/// writes the low byte of the source.
#[test]
fn wide_accesses() {
    let mut machine = machine_of(&[], 0, 0);
    machine.processor.hardware = hardware(0x1F, 0x1234, 0x5678, 0x1B);
    for (address, value) in [(0x18, 0x34), (0x1C, 0x12), (0x20, 0xFF), (0x24, 0), (0x14, 0)] {
        for size in [1, 2, 4] {
            let loaded = machine.load(size, 0x0200_0000 + address);
            assert_eq!(loaded, Loaded { value, undefined: 0 });
            let loaded = machine.load(size, 0x0200_0000 + address + size - 1);
            let expected = if size == 1 || address % size == 0 { value } else { 0 };
            assert_eq!(loaded.value, expected, "{size} bytes at {address:X}");
        }
    }
    assert_eq!(machine.load(1, 0x0200_0019).value, 0);
    assert_eq!(machine.load(1, 0x0200_0021).value, 0);
    machine.store(4, 0x0200_001A, 0x1234_56AB);
    assert_eq!(machine.processor.hardware, hardware(0x1F, 0x56AB, 0x56AB, 0x1B));
    machine.store(2, 0x0200_001D, 0x1234_56CD);
    assert_eq!(machine.processor.hardware, hardware(0x1F, 0xCDAB, 0xCDAB, 0x1B));
    machine.store(4, 0x0200_0020, 0xFFFF_FF05);
    assert_eq!(machine.processor.hardware, hardware(0x1D, 0xCDAB, 0xCDAB, 0x01));
    assert_eq!(machine.load(4, 0x0200_0020).value, 0xE5);
}

#[test]
fn reset_timer() {
    let (processor, _) = reset();
    assert_eq!(processor.hardware, Hardware::default());
    let machine = machine_of(&[], 0, 0);
    assert_eq!(machine.load(1, 0x0200_0020).value, 0xE4);
}

/// The three registers, and nothing else, in all of region 2 below 0x400.
#[test]
fn places() {
    for offset in 0..0x400u32 {
        let register = match offset {
            0x18 => Some(TimerRegister::Low),
            0x1C => Some(TimerRegister::High),
            0x20 => Some(TimerRegister::Control),
            _ => None,
        };
        assert_eq!(timer_register_at(0x0200_0000 + offset), register);
        let place = register.map_or(Place::Absent, Place::Timer);
        assert_eq!(place_of(0xFA00_0000 + offset, 1_024, 0), place);
        for region in [1, 3, 4] {
            assert_eq!(place_of(region << 24 | offset, 1_024, 0), Place::Absent);
        }
    }
    for mirror in [0x0200_0120, 0x0201_0020, 0x0280_0020, 0x02FF_FF20] {
        assert_eq!(place_of(mirror, 1_024, 0), Place::Absent, "{mirror:X}");
    }
}

/// Both sides of lines 31 and 32, and the bits of control; 1 to 4 come first.
#[test]
fn refused_records() {
    for (lines, control, legal) in [
        (31, 0, true),
        (32, 0, false),
        (0x8000, 0, false),
        (0, 0x1B, true),
        (0, 0x04, false),
        (0, 0x20, false),
        (0, 0x8000, false),
    ] {
        let given = hardware(lines, 0xFFFF, 0xFFFF, control);
        let expected = if legal { Ok(()) } else { Err(Refusal::Register) };
        assert_eq!(given.check(), expected, "{given:X?}");
        assert_eq!(tick(&mut given.clone()), expected);
        // with ID set, so that nothing is accepted
        let mut machine = machine_of(&[NOP], 0x1000, 0);
        machine.processor.hardware = given;
        let before = machine.processor;
        assert_eq!(machine.stepped().map(|_| ()), expected);
        assert_eq!(machine.processor == before, !legal);
        let memories = ReadMemories { rom: &machine.rom, wram: &[], vram: &[], pak: &[] };
        let loaded = load_byte(&memories, &machine.drawing, &given, 0);
        assert_eq!(loaded, Err(Refusal::WramLength));
    }
}

/// A store in a program changes the timer, and the next step sees it.
#[test]
fn a_program_lowers_its_line() {
    // ST.B r1, 0x20[r2]: clears Tim-Z-Int, and with it line 1
    let store = 0b110100 << 10 | 1 << 5 | 2;
    let mut machine = machine_of(&[store, 0x20, CLI, NOP], 0x1000, 0x02);
    machine.processor.hardware.control = 0x0B;
    machine.processor.registers[1] = 0x01;
    machine.processor.registers[2] = 0x0200_0000;
    assert_eq!(machine.run(3), (3, None));
    assert_eq!(machine.processor.hardware, hardware(0, 0, 0, 0x03));
    assert_eq!((machine.processor.pc, machine.processor.ecr), (0x0500_0008, 0));
}
