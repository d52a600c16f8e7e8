//! Runs that enter and leave the loop of the common instructions, against the
//! model's runs: at every kind of instruction, at the ends of ROM and WRAM,
//! and at every length of ROM.

use difftests::machine::{random_drawing, Buffers};
use difftests::program::{
    aim_pointers, biased_register, half, instruction, program, put_handlers, random_processor, CLI,
    FLOATING, LDSR, NOP, RETI, SEI, STSR,
};
use difftests::random::Random;
use difftests::twin::Twin;

/// Registers that no instruction of the surroundings below writes.
const SAFE: u16 = 9;

fn random_twin(random: &mut Random, rom: usize, pak: usize) -> Twin {
    let buffers = Buffers::random(random, rom, pak);
    let processor = random_processor(random);
    Twin::new(buffers, processor, random_drawing(random))
}

/// A common instruction that goes on to the next: MOV, ADD, MOVEA or XORI.
fn common(random: &mut Random) -> Vec<u16> {
    match random.below(4) {
        0 => vec![half(0b000000, SAFE, biased_register(random))],
        1 => vec![half(0b010001, SAFE, random.below(32) as u16)],
        2 => vec![half(0b101000, SAFE, biased_register(random)), random.half()],
        _ => vec![half(0b101110, SAFE, biased_register(random)), random.half()],
    }
}

/// The halfwords of an opcode with random fields, after common instructions and before others.
fn among_common(random: &mut Random, middle: &[u16]) -> Vec<u16> {
    let mut code: Vec<u16> = (0..random.below(4)).flat_map(|_| common(random)).collect();
    code.extend(middle);
    for _ in 0..4 {
        code.extend(common(random));
    }
    code
}

/// A state at the start of code, with or without flags that no result leaves: S and Z both set.
fn start(random: &mut Random, twin: &mut Twin, code: u32) {
    twin.processor = random_processor(random);
    twin.processor.pc = code;
    if random.one_in(8) {
        twin.processor.psw |= 3;
    }
    aim_pointers(random, &mut twin.processor, code);
}

/// Budgets that end before, at and after each instruction of a short program.
fn runs(random: &mut Random, twin: &mut Twin, what: &dyn Fn() -> String) {
    let budget = u64::from(random.below(10));
    twin.run(budget, what);
    twin.run(1 + u64::from(random.below(4)), what);
}

/// Each opcode in the middle of common instructions, in ROM, WRAM and elsewhere.
#[test]
fn every_opcode_among_common_ones() {
    let mut random = Random::new(0x100B_0001);
    let mut twin = random_twin(&mut random, 4_096, 1_024);
    put_handlers(&mut random, &mut twin);
    for opcode in 0..64u16 {
        for number in 0..3_000 {
            let low = biased_register(&mut random) << 5 | biased_register(&mut random);
            let middle = [opcode << 10 | low, random.half()];
            let code = among_common(&mut random, &middle);
            let region =
                random.pick(&[0x0700_0100u32, 0xFFF0_0200, 0x0500_0300, 0x0600_0040, 0x2000]);
            twin.put_code(region, &code);
            start(&mut random, &mut twin, region);
            let what = || format!("opcode {opcode:06b}, code {code:04X?} at 0x{region:08X}");
            runs(&mut random, &mut twin, &what);
            if number % 64 == 0 {
                twin.expect_equal(&what);
            }
        }
        twin.expect_equal(&|| format!("after opcode {opcode:06b}"));
    }
}

/// Each sub-opcode of 111110 in the same way, with operands of every class.
#[test]
fn every_sub_opcode_among_common_ones() {
    let mut random = Random::new(0x100B_0002);
    let mut twin = random_twin(&mut random, 4_096, 16);
    put_handlers(&mut random, &mut twin);
    for sub_opcode in 0..64u16 {
        for _ in 0..3_000 {
            let middle = [half(FLOATING, 6, 7), sub_opcode << 10 | random.half() & 0x3FF];
            let code = among_common(&mut random, &middle);
            twin.put_code(0x0700_0100, &code);
            start(&mut random, &mut twin, 0x0700_0100);
            for register in [6, 7] {
                let exponent = random.pick(&[0, 1, 64, 126, 127, 128, 157, 158, 254, 255]);
                let word = random.word() & 0x807F_FFFF | exponent << 23;
                twin.processor.registers[register] = random.pick(&[word, word & !0x7F_FFFF]);
            }
            let what = || format!("sub-opcode {sub_opcode:06b}, code {code:04X?}");
            runs(&mut random, &mut twin, &what);
        }
        twin.expect_equal(&|| format!("after sub-opcode {sub_opcode:06b}"));
    }
}

/// CLI, SEI, STSR, or LDSR of any number; PSW's is likely.
fn system_instruction(random: &mut Random) -> u16 {
    let number = match random.below(4) {
        0 => 5,
        1 => random.below(32) as u16,
        _ => random.pick(&[0, 1, 2, 3, 4, 25, 29, 31]),
    };
    match random.below(4) {
        0 => CLI,
        1 => SEI,
        2 => half(STSR, biased_register(random), number),
        _ => half(LDSR, biased_register(random), number),
    }
}

/// The system instructions, one after another and among common ones, with lines raised and lowered, masked and let
/// through by I, ID, EP and NP: where CLI or LDSR lets a line through, its interrupt comes before the next instruction.
#[test]
fn system_instructions_with_lines() {
    let mut random = Random::new(0x100B_0006);
    let mut twin = random_twin(&mut random, 4_096, 16);
    put_handlers(&mut random, &mut twin);
    for level in 0..5 {
        twin.put_code(0xFFFF_FE00 + 16 * level, &[NOP, NOP, RETI]);
    }
    let (mut entered, mut passed) = (0, 0);
    for number in 0..60_000 {
        let mut code: Vec<u16> = Vec::new();
        for _ in 0..8 {
            if random.one_in(3) {
                code.extend(common(&mut random));
            }
            code.push(system_instruction(&mut random));
        }
        let place = random.pick(&[0x0700_0100u32, 0x0500_0300, 0x0600_0000]);
        twin.put_code(place, &code);
        start(&mut random, &mut twin, place);
        let processor = &mut twin.processor;
        let (one, any) = (1 << random.below(5), random.half() & 0x1F);
        processor.hardware.lines = random.pick(&[0, one, any]);
        let masks = random.pick(&[0, 0x1000, 0x1000, 0x1000, 0x4000, 0x8000, 0x5000]);
        processor.psw = processor.psw & 0x23FF | random.below(7) << 16 | masks;
        // a PSW for LDSR that lets some lines through, and one that masks all
        processor.registers[2] = random.below(6) << 16;
        processor.registers[3] = 0x1000;
        let what = || format!("code {code:04X?} at 0x{place:08X}, number {number}, seed 100B0006");
        let raised = processor.hardware.lines != 0;
        runs(&mut random, &mut twin, &what);
        if raised {
            let handler = (0xFFFF_FE00..0xFFFF_FE50).contains(&twin.processor.pc);
            *(if handler { &mut entered } else { &mut passed }) += 1;
        }
        if number % 64 == 0 {
            twin.expect_equal(&what);
        }
    }
    assert!(entered > 1_000 && passed > 1_000, "{entered} in a handler, {passed} not");
}

/// Code that lies across the end of ROM and of WRAM, where the next byte is the first one.
#[test]
fn across_the_ends() {
    let mut random = Random::new(0x100B_0003);
    for (rom, rounds) in [(1_024u32, 20_000), (65_536, 4_000), (16_777_216, 400)] {
        let mut twin = random_twin(&mut random, rom as usize, 2);
        for number in 0..rounds {
            let end = random.pick(&[
                0x0700_0000 + rom,
                0x0501_0000,
                0x0800_0000,
                0xFFFF_0000 + rom.min(0x1_0000),
            ]);
            let code: Vec<u16> = (0..8).flat_map(|_| instruction(&mut random)).collect();
            let first = end.wrapping_sub(2 * random.below(8));
            twin.put_code(first, &code);
            start(&mut random, &mut twin, first);
            let what = || format!("ROM {rom}, code {code:04X?} at 0x{first:08X}, number {number}");
            runs(&mut random, &mut twin, &what);
            if rom == 1_024 || number % 100 == 0 {
                twin.expect_equal(&what);
            }
        }
    }
}

/// Random programs in ROM at every length of ROM, at an address that leads there or to a mirror.
#[test]
fn every_length_of_rom() {
    let mut random = Random::new(0x100B_0004);
    for power in 10..=24u32 {
        let rom = 1u32 << power;
        let mut twin = random_twin(&mut random, rom as usize, 64);
        for number in 0..60 {
            let code = (0x0700_0000 | random.word() & 0xFF_FFFF | random.below(32) << 27) & !1;
            let halves = program(&mut random, 120);
            twin.put_code(code, &halves);
            put_handlers(&mut random, &mut twin);
            start(&mut random, &mut twin, code);
            twin.processor.psw &= !0xC000;
            let what = || format!("ROM {rom}, program {number} at 0x{code:08X}, seed 100B0004");
            for _ in 0..4 {
                twin.run(u64::from(random.below(300)), &what);
            }
            if power <= 16 || number == 59 {
                twin.expect_equal(&what);
            }
        }
    }
}

/// Jumps from ROM to WRAM, to the other regions and back, by JMP, and into a mirror of the same code.
#[test]
fn jumps_between_memories() {
    let mut random = Random::new(0x100B_0005);
    let mut twin = random_twin(&mut random, 2_048, 256);
    let places = [
        0x0700_0010u32,
        0x0700_0810,
        0xFF00_0410,
        0x0500_0010,
        0x0501_0010,
        0x0600_0010,
        0x0000_6010,
    ];
    for number in 0..20_000 {
        for &place in &places {
            let mut code: Vec<u16> = common(&mut random);
            code.push(half(0b000110, 0, 1 + random.below(7) as u16));
            twin.put_code(place, &code);
        }
        let place = random.pick(&places);
        start(&mut random, &mut twin, place);
        for register in 1..8 {
            twin.processor.registers[register] = random.pick(&places) | random.below(2);
        }
        let what = || format!("jumps {number}, seed 100B0005");
        twin.run(u64::from(random.below(24)), &what);
        if number % 16 == 0 {
            twin.expect_equal(&what);
        }
    }
}
