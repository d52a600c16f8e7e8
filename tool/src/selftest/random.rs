//! Random inputs, given to the library and to the independent model. A difference panics.

use difftests::access::{biased_address, biased_value, by_library, by_model, CALLS};
use difftests::machine::{random_drawing, to_library, Buffers, Registers};
use difftests::program::{
    biased_register, biased_word, half, load_interrupt_program, load_program, random_processor,
    FLOATING, SUB_OPCODES,
};
use difftests::random::Random;
use difftests::scene::{crowded, expect_same_drawing, Draw};
use difftests::state::State;
use difftests::twin::Twin;
use model::answers::answers;
use model::saved::Form;
use model::world::Eye;

/// Loads and stores at the edges of every region, all memories compared afterwards.
pub fn accesses(random: &mut Random) -> u64 {
    const COUNT: u64 = 20_000;
    let pak = random.pick(&[0, 1, 2, 4, 256, 8_192]);
    let rom = 1_024 << random.below(4);
    let mut library = Buffers::random(random, rom, pak);
    let mut model = library.clone();
    let mut registers = Registers::random(random);
    for _ in 0..COUNT {
        let call = random.pick(&CALLS);
        let address = biased_address(random, library.rom.len(), pak);
        let value = biased_value(random);
        let by_library = by_library(call, &mut library, registers, address, value);
        let by_model = by_model(call, &mut model, registers, address, value);
        assert_eq!(by_library, by_model, "{call:?} at 0x{address:08X} of 0x{value:08X}");
        registers = by_model.registers();
    }
    library.expect_equal(&model, &|| "after loads and stores".to_string());
    COUNT
}

/// A random program, stepped and run.
pub fn programs(random: &mut Random) -> u64 {
    let mut twin = twin(random);
    let code = load_program(random, &mut twin, 40);
    let what = || format!("a program at 0x{code:08X}");
    stepped_and_run(random, &mut twin, &what)
}

/// A random program with request lines, handlers and the timer.
pub fn interrupts(random: &mut Random) -> u64 {
    let mut twin = twin(random);
    load_interrupt_program(random, &mut twin);
    stepped_and_run(random, &mut twin, &|| "a program with interrupts".to_string())
}

/// Each floating and Nintendo instruction on special and random operands.
pub fn floats(random: &mut Random) -> u64 {
    const COUNT: u64 = 4_000;
    const SPECIAL: [u32; 12] = [
        0,
        0x8000_0000,
        1,
        0x007F_FFFF,
        0x0080_0000,
        0x00FF_FFFF,
        0x3F00_0000,
        0x3F80_0000,
        0x4B00_0001,
        0x7F7F_FFFF,
        0x7F80_0000,
        0xFFC0_0000,
    ];
    let operand = |random: &mut Random| match random.below(3) {
        0 => random.pick(&SPECIAL) ^ random.below(2) << 31,
        1 => biased_word(random),
        _ => ((random.below(254) + 1) << 23) | random.word() & 0x807F_FFFF,
    };
    let mut twin = twin(random);
    for number in 0..COUNT {
        let sub_opcode = SUB_OPCODES[number as usize % SUB_OPCODES.len()];
        let (reg2, reg1) = (biased_register(random), biased_register(random));
        twin.put_code(0x0500_0100, &[half(FLOATING, reg2, reg1), sub_opcode << 10]);
        twin.processor = random_processor(random);
        twin.processor.pc = 0x0500_0100;
        for register in [reg2, reg1].into_iter().filter(|&register| register != 0) {
            twin.processor.registers[usize::from(register)] = operand(random);
        }
        let what = || format!("sub-opcode {sub_opcode:06b}, r{reg2}, r{reg1}");
        if number % 2 == 0 {
            let _ = twin.step(&what);
        } else {
            let _ = twin.run(1, &what);
        }
    }
    COUNT
}

/// A picture of many worlds and objects, drawn whole and by a strip.
pub fn frames(random: &mut Random) -> u64 {
    let scene = crowded(random, 12);
    let (frame, strip) = (random.below(2), random.below(28));
    for draw in [Draw::Frame { frame }, Draw::Strip { frame, strip }] {
        expect_same_drawing(&scene, draw, &|| format!("worlds and objects, {draw:?}"));
    }
    2
}

/// Pixels of such a picture: the bytes that each depends on.
pub fn byte_lists(random: &mut Random) -> u64 {
    const COUNT: u64 = 40;
    let scene = crowded(random, 12);
    let mut output = [0; 2_600];
    for _ in 0..COUNT {
        let eye = random.pick(&[Eye::Left, Eye::Right]);
        let (x, y) = (random.below(384), random.below(224));
        let list = answers(&scene.vram, &scene.drawing, eye, x, y).expect("a pixel").listed();
        let drawing = to_library(&scene.drawing);
        let listed = vbsys::pixel_bytes(&scene.vram, drawing, eye.number(), x, y, &mut output);
        let what = format!("the bytes of column {x}, row {y}, {eye:?} eye");
        assert_eq!((listed.refusal, listed.count), (0, list.len() as u64), "{what}");
        assert!(output.iter().zip(&list).all(|(&seen, &listed)| seen as usize == listed), "{what}");
    }
    COUNT
}

/// A machine written and read back in both forms.
pub fn saved_states(random: &mut Random) -> u64 {
    let pak = random.pick(&[0, 1, 64, 8_192]);
    let other = State::random(random, pak);
    State::random(random, pak).expect_kept(Form::Two, &other, "form 2");
    State::at_reset(random, pak).expect_kept(Form::One, &other, "form 1");
    2
}

fn twin(random: &mut Random) -> Twin {
    let buffers = Buffers::random(random, 2_048, 4_096);
    Twin::new(buffers, random_processor(random), random_drawing(random))
}

/// Some steps, then runs; everything compared.
fn stepped_and_run(random: &mut Random, twin: &mut Twin, what: &dyn Fn() -> String) -> u64 {
    let mut count = 0;
    for _ in 0..40 {
        if twin.step(what).is_err() {
            break;
        }
        count += 1;
    }
    for _ in 0..8 {
        count += twin.run(u64::from(random.below(400)), what).count;
    }
    twin.expect_equal(what);
    count
}
