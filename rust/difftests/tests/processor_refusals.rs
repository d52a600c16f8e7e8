//! Refusals 1 to 6 of the step and the run: each condition of 5 alone, both
//! sides of each limit, and every combination of broken conditions, where the
//! lowest number must win; and a mode that only the C boundary can express.

use difftests::machine::Buffers;
use difftests::program::{random_processor, BIT_STRING, NOP};
use difftests::random::Random;
use difftests::twin::processor_to_library;
use vbsys::{Drawing, Processor};

const BUDGETS: [u64; 4] = [0, 1, 2, 1_000];

/// One call's memories and records, as they pass the C boundary.
#[derive(Clone, Debug)]
struct Given {
    buffers: Buffers,
    processor: Processor,
    drawing: Drawing,
}

/// An accepted machine at an instruction that can be run, a HALT after it.
fn accepted(random: &mut Random) -> Given {
    let mut buffers = Buffers::zeroed(1_024, 65_536, 262_144, 8);
    random.fill(&mut buffers.rom);
    random.fill(&mut buffers.wram);
    put_instruction(&mut buffers, NOP);
    let mut processor = processor_to_library(&random_processor(random));
    processor.pc = 0x0500_0000;
    let drawing = Drawing { spt: [0x3FF; 4], gplt: [0xFF; 4], jplt: [0xFF; 4], bkcol: 3 };
    Given { buffers, processor, drawing }
}

/// Puts the next instruction and a HALT, where they fit into WRAM.
fn put_instruction(buffers: &mut Buffers, instruction: u16) {
    if buffers.wram.len() >= 4 {
        buffers.wram[..2].copy_from_slice(&instruction.to_le_bytes());
        buffers.wram[2..4].copy_from_slice(&difftests::program::HALT.to_le_bytes());
    }
}

/// Refused by `number`, 1 to 5 or 255, by step and by run at every budget:
/// nothing changes, and the other answers are 0.
fn expect_refused(given: &Given, number: u32, what: &str) {
    let mut after = given.clone();
    let stepped = vbsys::step(&mut after.buffers.for_library(), given.processor, given.drawing);
    let expected = vbsys::Stepped {
        refusal: number,
        answer: 0,
        code: 0,
        undefined: vbsys::Undefined::default(),
        processor: given.processor,
        drawing: given.drawing,
    };
    assert_eq!(stepped, expected, "step, {what}");
    after.buffers.expect_equal(&given.buffers, &|| format!("refused step, {what}"));
    for budget in BUDGETS {
        let memories = &mut after.buffers.for_library();
        let ran = vbsys::run(memories, given.processor, given.drawing, budget);
        let expected = vbsys::Ran {
            refusal: number,
            count: 0,
            processor: given.processor,
            drawing: given.drawing,
        };
        assert_eq!(ran, expected, "run of {budget}, {what}");
        after.buffers.expect_equal(&given.buffers, &|| format!("refused run, {what}"));
    }
}

/// Neither step nor run refuses.
fn expect_accepted(given: &Given, what: &str) {
    let mut after = given.clone();
    let stepped = vbsys::step(&mut after.buffers.for_library(), given.processor, given.drawing);
    assert_eq!(stepped.refusal, 0, "step, {what}");
    for budget in BUDGETS {
        let mut after = given.clone();
        let memories = &mut after.buffers.for_library();
        let ran = vbsys::run(memories, given.processor, given.drawing, budget);
        assert_eq!(ran.refusal, 0, "run of {budget}, {what}");
    }
}

fn expect(given: &Given, number: u32, what: &str) {
    if number == 0 {
        expect_accepted(given, what);
    } else {
        expect_refused(given, number, what);
    }
}

#[test]
fn lengths() {
    let mut random = Random::new(0xFA_0001);
    let given = accepted(&mut random);
    let with = |rom, wram, vram, pak, number| {
        let mut given = given.clone();
        given.buffers = Buffers::zeroed(rom, wram, vram, pak);
        expect(&given, number, &format!("ROM {rom}, WRAM {wram}, VRAM {vram}, pak RAM {pak}"));
    };
    let (wram, vram) = (65_536, 262_144);
    for (rom, number) in [(0, 1), (512, 1), (1_024, 0), (1_025, 1), (1 << 24, 0), (1 << 25, 1)] {
        with(rom, wram, vram, 0, number);
    }
    for (wram, number) in [(0, 2), (65_535, 2), (65_537, 2), (131_072, 2)] {
        with(1_024, wram, vram, 0, number);
    }
    for (vram, number) in [(0, 3), (262_143, 3), (262_145, 3), (524_288, 3)] {
        with(1_024, wram, vram, 0, number);
    }
    for (pak, number) in [(0, 0), (1, 0), (2, 0), (3, 4), (4, 0), (1 << 24, 0), (1 << 25, 4)] {
        with(1_024, wram, vram, pak, number);
    }
}

/// Each condition of 5 alone, from both sides, in every mode.
#[test]
fn conditions_of_the_processor_record() {
    type Field = fn(&mut Processor) -> &mut u32;
    let even: [(&str, Field); 4] = [
        ("PC", |processor| &mut processor.pc),
        ("EIPC", |processor| &mut processor.eipc),
        ("FEPC", |processor| &mut processor.fepc),
        ("system register 25", |processor| &mut processor.sr25),
    ];
    let formats: [(&str, Field); 3] = [
        ("PSW", |processor| &mut processor.psw),
        ("EIPSW", |processor| &mut processor.eipsw),
        ("FEPSW", |processor| &mut processor.fepsw),
    ];
    let mut cases: Vec<(&str, Field, u32, u32)> = Vec::new();
    for (name, field) in even {
        for value in [0x0500_0001, 1, 0xFFFF_FFFF, 0x8000_0001] {
            cases.push((name, field, value, 5));
        }
    }
    for (name, field) in formats {
        cases.push((name, field, 0x000F_F3FF & !0xC000, 0));
        for bit in (0..32).filter(|bit| 0x000F_F3FF >> bit & 1 == 0) {
            cases.push((name, field, 1 << bit, 5));
        }
        cases.push((name, field, 0xFFFF_FFFF, 5));
    }
    let register0: Field = |processor| &mut processor.regs[0];
    let register31: Field = |processor| &mut processor.sr31;
    for value in [1, 0x8000_0000, 0xFFFF_FFFF] {
        cases.push(("general register 0", register0, value, 5));
    }
    for (value, number) in [(0, 0), (0x8000_0000, 0), (0x8000_0001, 5), (0xFFFF_FFFF, 5)] {
        cases.push(("system register 31", register31, value, number));
    }
    let free: [(&str, Field); 3] = [
        ("general register 31", |processor| &mut processor.regs[31]),
        ("ECR", |processor| &mut processor.ecr),
        ("system register 29", |processor| &mut processor.sr29),
    ];
    for (name, field) in free {
        cases.push((name, field, 0xFFFF_FFFF, 0));
    }
    let mut random = Random::new(0xFA_0002);
    let given = accepted(&mut random);
    for (name, field, value, number) in cases {
        for mode in [vbsys::RUNNING, vbsys::HALTED, vbsys::FATAL] {
            let mut given = given.clone();
            *field(&mut given.processor) = value;
            given.processor.mode = mode;
            expect(&given, number, &format!("{name} 0x{value:X}, mode {mode}"));
        }
    }
}

/// Each drawing register's largest value and one more, in every mode.
#[test]
fn drawing_register_widths() {
    let mut random = Random::new(0xFA_0003);
    let given = accepted(&mut random);
    expect(&given, 0, "every register at its largest");
    for number in 0..13 {
        for mode in [vbsys::RUNNING, vbsys::HALTED, vbsys::FATAL] {
            let mut given = given.clone();
            given.processor.mode = mode;
            widen(&mut given.drawing, number);
            expect(&given, 5, &format!("drawing register {number} too wide, mode {mode}"));
        }
    }
}

/// Makes register `number` of 13 one more than its largest value.
fn widen(drawing: &mut Drawing, number: usize) {
    match number {
        0..=3 => drawing.spt[number] = 0x400,
        4..=7 => drawing.gplt[number - 4] = 0x100,
        8..=11 => drawing.jplt[number - 8] = 0x100,
        _ => drawing.bkcol = 4,
    }
}

/// A mode above 2 gets VB_MISUSE and changes nothing, whatever comes next.
#[test]
fn modes_that_are_none() {
    let mut random = Random::new(0xFA_0004);
    for mode in [3, 4, 255, 256, 0x8000_0000, 0xFFFF_FFFF] {
        for instruction in [NOP, BIT_STRING] {
            let mut given = accepted(&mut random);
            put_instruction(&mut given.buffers, instruction);
            given.processor.mode = mode;
            expect_refused(&given, vbsys::MISUSE, &format!("mode {mode}"));
        }
    }
}

/// Refusal 6 alone: the step changes nothing; a run counts nothing here, and
/// with budget 0 it never meets it.
fn expect_not_modelled(given: &Given) {
    let mut after = given.clone();
    let stepped = vbsys::step(&mut after.buffers.for_library(), given.processor, given.drawing);
    assert_eq!((stepped.refusal, stepped.answer, stepped.code), (6, 0, 0));
    assert_eq!(stepped.undefined, vbsys::Undefined::default());
    assert_eq!((stepped.processor, stepped.drawing), (given.processor, given.drawing));
    for budget in BUDGETS {
        let memories = &mut after.buffers.for_library();
        let ran = vbsys::run(memories, given.processor, given.drawing, budget);
        assert_eq!((ran.refusal, ran.count), (if budget == 0 { 0 } else { 6 }, 0));
        assert_eq!((ran.processor, ran.drawing), (given.processor, given.drawing));
    }
    after.buffers.expect_equal(&given.buffers, &|| "refusal 6".into());
}

/// Every set of broken conditions among 1 to 5, the mode and 6.
#[test]
fn the_lowest_number_wins() {
    let mut random = Random::new(0xFA_0005);
    for set in 0..128u32 {
        let broken = |bit: u32| set >> bit & 1 == 1;
        let mut given = accepted(&mut random);
        let length = |bit: u32, good: usize, bad: usize| if broken(bit) { bad } else { good };
        given.buffers = Buffers::zeroed(
            length(0, 1_024, 512),
            length(1, 65_536, 65_537),
            length(2, 262_144, 262_143),
            length(3, 8, 3),
        );
        put_instruction(&mut given.buffers, if broken(6) { BIT_STRING } else { NOP });
        given.processor.mode = if broken(5) { 3 } else { vbsys::RUNNING };
        let what = format!("broken: {set:07b}");
        if broken(4) {
            let mut by_processor = given.clone();
            by_processor.processor.psw = 0x400;
            let number = (1..=5).find(|&number| broken(number - 1)).unwrap();
            expect_refused(&by_processor, number, &what);
            widen(&mut given.drawing, 12);
            expect_refused(&given, number, &what);
        } else if let Some(number) = (1..=4).find(|&number| broken(number - 1)) {
            expect_refused(&given, number, &what);
        } else if broken(5) {
            expect_refused(&given, vbsys::MISUSE, &what);
        } else if broken(6) {
            expect_not_modelled(&given);
        } else {
            expect_accepted(&given, &what);
        }
    }
}

/// Refusal 6 is met only in running mode.
#[test]
fn not_modelled_is_met_only_running() {
    let mut random = Random::new(0xFA_0006);
    for mode in [vbsys::HALTED, vbsys::FATAL] {
        let mut given = accepted(&mut random);
        put_instruction(&mut given.buffers, BIT_STRING);
        given.processor.mode = mode;
        expect_accepted(&given, &format!("mode {mode} at an instruction that isn't modelled"));
    }
}
