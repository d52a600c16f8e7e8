//! Random programs: mostly legal code that touches every region, with handlers
//! that return, and states biased to the edges of the arithmetic.

use crate::access::timer_address;
use crate::machine::{random_drawing, random_hardware};
use crate::random::Random;
use crate::twin::Twin;
use model::{Hardware, Mode, Processor};

/// Registers that programs use as addresses.
const POINTERS: std::ops::RangeInclusive<u32> = 10..=17;

/// Halfwords of formats I and II.
pub const fn half(opcode: u16, reg2: u16, low: u16) -> u16 {
    opcode << 10 | reg2 << 5 | low
}

pub const ADD_IMMEDIATE: u16 = 0b010001;
pub const TRAP: u16 = 0b011000;
pub const RETI: u16 = half(0b011001, 0, 0);
pub const HALT: u16 = half(0b011010, 0, 0);
pub const ILLEGAL: u16 = half(0b011011, 0, 0);
pub const BIT_STRING: u16 = half(0b011111, 0, 0);
pub const NOP: u16 = 0x9A00;
pub const CAXI: u16 = half(0b111010, 1, 2);
pub const CLI: u16 = half(0b010110, 0, 0);
pub const SEI: u16 = half(0b011110, 0, 0);
pub const FLOATING: u16 = 0b111110;
pub const LDSR: u16 = 0b011100;
pub const STSR: u16 = 0b011101;
/// The system registers EIPSW and PSW.
const EIPSW: u16 = 1;
const PSW: u16 = 5;

/// A word at an edge of the arithmetic, or any.
pub fn biased_word(random: &mut Random) -> u32 {
    match random.below(12) {
        0 => 0,
        1 => 1,
        2 => 0x7FFF_FFFF,
        3 => 0x8000_0000,
        4 => 0xFFFF_FFFF,
        5 => random.below(64),
        6 => random.below(64).wrapping_neg(),
        7 => 1 << random.below(32),
        8 => random.word() >> random.below(32),
        _ => random.word(),
    }
}

/// A general register; 0, 30 and 31 are likely.
pub fn biased_register(random: &mut Random) -> u16 {
    match random.below(8) {
        0 => 30,
        1 => random.pick(&[0, 31]),
        _ => random.below(32) as u16,
    }
}

/// A word that PSW's formats can hold.
pub fn biased_psw(random: &mut Random) -> u32 {
    let any = random.word() & 0x000F_F3FF;
    match random.below(4) {
        0 => any & 0xF,
        1 => any & !0x8000,
        2 => any & !0xC000,
        _ => any,
    }
}

/// A processor that passes refusal 5. No line is raised.
pub fn random_processor(random: &mut Random) -> Processor {
    let mut registers = [0; 32].map(|_: u32| biased_word(random));
    registers[0] = 0;
    Processor {
        registers,
        pc: random.word() & !1,
        eipc: random.word() & !1,
        eipsw: biased_psw(random),
        fepc: random.word() & !1,
        fepsw: biased_psw(random),
        ecr: random.word(),
        psw: biased_psw(random),
        adtre: random.word() & !1,
        system29: random.word(),
        system31: biased_word(random).min(0x8000_0000),
        mode: Mode::Running,
        hardware: Hardware { lines: 0, ..random_hardware(random) },
    }
}

/// An address in some region where accesses matter.
fn region_address(random: &mut Random, code: u32) -> u32 {
    let low = random.word();
    let address = match random.below(10) {
        0 => low & 0x3_FFFF,
        1 => 0x0005_F840 + random.below(0x40),
        2 => 0x0007_8000 + random.below(0x8000),
        3 => 0x0500_0000 | low & 0xFF_FFFF,
        4 => 0x0600_0000 | low & 0xFF_FFFF,
        5 => 0x0700_0000 | low & 0xFF_FFFF,
        6 => code.wrapping_add(random.below(0x200)),
        7 => random.below(0x10).wrapping_sub(8),
        8 => 0x0200_0000 + timer_address(random),
        _ => low,
    };
    if random.one_in(4) {
        address | random.below(32) << 27
    } else {
        address
    }
}

/// The pointers of a program whose code lies at `code`.
pub fn aim_pointers(random: &mut Random, processor: &mut Processor, code: u32) {
    for pointer in POINTERS {
        processor.registers[pointer as usize] = region_address(random, code);
    }
    processor.registers[10] = code;
}

/// A base register of a load, a store or a jump.
fn base_register(random: &mut Random) -> u16 {
    if random.one_in(8) {
        biased_register(random)
    } else {
        random.pick(&[10, 11, 12, 13, 14, 15, 16, 17])
    }
}

/// A register to write; the pointers are mostly left alone.
fn target_register(random: &mut Random) -> u16 {
    let register = biased_register(random);
    if POINTERS.contains(&u32::from(register)) && !random.one_in(8) {
        random.pick(&[1, 2, 3, 30])
    } else {
        register
    }
}

/// The displacement of a load or a store.
fn displacement(random: &mut Random) -> u16 {
    match random.below(4) {
        0 => random.half(),
        1 => random.below(16) as u16,
        2 => (random.below(16) as u16).wrapping_neg(),
        _ => random.below(0x100) as u16,
    }
}

/// A branch or a relative jump that stays near.
fn near_branch(random: &mut Random) -> Vec<u16> {
    let offset = random.between(-60, 120) as u32;
    if random.one_in(4) {
        let opcode = random.pick(&[0b101010, 0b101011]);
        let offset = offset & 0x3FF_FFFF;
        vec![opcode << 10 | (offset >> 16) as u16, offset as u16]
    } else {
        vec![0x8000 | (random.below(16) as u16) << 9 | (offset & 0x1FF) as u16]
    }
}

/// One instruction, legal but now and then.
pub fn instruction(random: &mut Random) -> Vec<u16> {
    let target = target_register(random);
    match random.below(64) {
        0..=15 => {
            let opcode = random.pick(&[0, 1, 2, 3, 4, 5, 7, 8, 9, 10, 11, 12, 13, 14, 15]);
            vec![half(opcode, target, biased_register(random))]
        }
        16..=25 => {
            let opcode = random.pick(&[0x10, 0x11, 0x12, 0x13, 0x14, 0x15, 0x17]);
            vec![half(opcode, target, random.below(32) as u16)]
        }
        26..=33 => {
            let opcode = random.pick(&[0x28, 0x29, 0x2C, 0x2D, 0x2E, 0x2F]);
            vec![half(opcode, target, biased_register(random)), random.half()]
        }
        34..=41 => {
            let opcode = random.pick(&[0x30, 0x31, 0x33, 0x38, 0x39, 0x3B]);
            vec![half(opcode, target, base_register(random)), displacement(random)]
        }
        42..=49 => {
            let opcode = random.pick(&[0x34, 0x35, 0x37, 0x3C, 0x3D, 0x3F]);
            let source = biased_register(random);
            vec![half(opcode, source, base_register(random)), displacement(random)]
        }
        50..=57 => near_branch(random),
        58 => system_access(random, target),
        59 => vec![half(FLOATING, target, biased_register(random)), sub_opcode(random)],
        60 => vec![random.pick(&[CLI, SEI])],
        61 => vec![half(0b000110, random.below(32) as u16, 10)],
        62 => rare(random),
        _ => vec![half(random.pick(&[8, 9, 10, 11]), target, biased_register(random))],
    }
}

/// The second halfword of a 111110 instruction, mostly a listed one; the bits
/// after the sub-opcode are random.
fn sub_opcode(random: &mut Random) -> u16 {
    let sub_opcode =
        if random.one_in(16) { random.below(64) } else { random.pick(&SUB_OPCODES).into() };
    (sub_opcode as u16) << 10 | random.half() & 0x3FF
}

/// The sub-opcodes that 000 lists.
pub const SUB_OPCODES: [u16; 12] = [0, 2, 3, 4, 5, 6, 7, 8, 9, 10, 11, 12];

/// LDSR or STSR; register 24 now and then.
fn system_access(random: &mut Random, target: u16) -> Vec<u16> {
    let system = match random.below(32) {
        0..=30 if random.one_in(2) => random.pick(&[0, 1, 2, 3, 4, 5, 25, 29, 30, 31]),
        31 => 24,
        _ => random.pick(&[6, 7, 8, 16, 23, 26, 27, 28, 31]),
    };
    if random.one_in(3) && system != 5 {
        vec![half(LDSR, biased_register(random), system)]
    } else {
        vec![half(STSR, target, system)]
    }
}

/// What leaves the straight path: exceptions, HALT, PSW, any halfword at all.
fn rare(random: &mut Random) -> Vec<u16> {
    match random.below(10) {
        0..=2 => vec![half(TRAP, 0, random.below(32) as u16)],
        3 => vec![random.pick(&[ILLEGAL, half(0b110010, 3, 4), half(0b110110, 5, 6)])],
        4 => vec![RETI],
        5 => vec![HALT],
        6 => vec![half(LDSR, biased_register(random), 5)],
        7 => vec![half(0b001001, 1, 0)],
        8 => vec![random.pick(&[BIT_STRING, CAXI])],
        _ => vec![random.half(), random.half()],
    }
}

/// A program of `length` instructions or a few halfwords more.
pub fn program(random: &mut Random, length: usize) -> Vec<u16> {
    (0..length).flat_map(|_| instruction(random)).collect()
}

/// Sixteen bytes of handler: one that skips the instruction, one that returns,
/// or any code.
fn handler(random: &mut Random, saved_pc: u16) -> Vec<u16> {
    match random.below(8) {
        0..=3 => {
            vec![
                half(STSR, 20, saved_pc),
                half(ADD_IMMEDIATE, 20, 2),
                half(LDSR, 20, saved_pc),
                RETI,
            ]
        }
        4 | 5 => vec![RETI],
        6 => vec![half(TRAP, 0, random.below(32) as u16), RETI],
        _ => instruction(random),
    }
}

/// Puts handlers at the exceptions' addresses and code at the reset address.
pub fn put_handlers(random: &mut Random, twin: &mut Twin) {
    for address in [0xFFFF_FF60, 0xFFFF_FF80, 0xFFFF_FF90, 0xFFFF_FFA0, 0xFFFF_FFB0] {
        let code = handler(random, 0);
        twin.put_code(address, &code);
    }
    let code = handler(random, 2);
    twin.put_code(0xFFFF_FFD0, &code);
    let code = program(random, 4);
    twin.put_code(0xFFFF_FFF0, &code);
}

/// Where a program may lie: WRAM and its mirrors, ROM, pak RAM, VRAM.
pub fn code_address(random: &mut Random) -> u32 {
    let low = random.word();
    let address = match random.below(8) {
        0..=3 => 0x0500_0000 | low & 0xFF_FFFF,
        4 | 5 => 0x0700_0000 | low & 0xFF_FFFF,
        6 => 0x0600_0000 | low & 0xFF_FFFF,
        _ => low & 0x3_FFFF,
    };
    (address | random.below(32) << 27) & !1
}

/// A new program in the twin's memories and a state at its start.
pub fn load_program(random: &mut Random, twin: &mut Twin, length: usize) -> u32 {
    let code = code_address(random);
    let halves = program(random, length);
    twin.put_code(code, &halves);
    put_handlers(random, twin);
    twin.processor = random_processor(random);
    twin.processor.pc = code;
    twin.processor.psw &= !0xC000;
    aim_pointers(random, &mut twin.processor, code);
    twin.drawing = random_drawing(random);
    code
}

/// A handler for an interrupt: it returns at once, or masks its line first, or
/// lowers the timer's, or lets others in, or halts.
fn interrupt_handler(random: &mut Random) -> Vec<u16> {
    let store_control = [half(0b110100, 19, 18), 0x0008];
    match random.below(10) {
        0 | 1 => vec![RETI],
        // the interrupted program goes on with ID set
        2 | 3 => {
            vec![half(STSR, 20, EIPSW), half(0b101100, 20, 20), 0x1000, half(LDSR, 20, EIPSW), RETI]
        }
        // or with a higher I
        4 | 5 => {
            vec![half(STSR, 20, EIPSW), half(0b101111, 20, 20), 0x0001, half(LDSR, 20, EIPSW), RETI]
        }
        6 => [&store_control[..], &[RETI]].concat(),
        // EP and ID are cleared inside the handler
        7 => vec![half(LDSR, 21, PSW), NOP, RETI],
        8 => vec![HALT, RETI],
        _ => vec![half(TRAP, 0, random.below(32) as u16), RETI],
    }
}

/// One or a few instructions of a program that has to do with interrupts.
fn interrupt_code(random: &mut Random) -> Vec<u16> {
    match random.below(12) {
        0 => vec![HALT],
        1 | 2 => vec![CLI],
        3 => vec![SEI],
        // PSW from one of the registers that hold one
        4 | 5 => vec![half(LDSR, random.pick(&[21, 22, 23]), PSW)],
        6 | 7 => {
            let opcode = random.pick(&[0b110100, 0b110101, 0b110111]);
            let displacement = random.pick(&[0, 4, 8, 8, 8]);
            vec![half(opcode, random.pick(&[19, 24, 25]), 18), displacement]
        }
        8 => vec![half(0b111000, 26, 18), random.pick(&[0, 4, 8])],
        9 if random.one_in(4) => vec![random.pick(&[CAXI, BIT_STRING])],
        9 => vec![RETI],
        _ => instruction(random),
    }
}

/// A machine with such a program, its handlers, and any lines and timer.
pub fn load_interrupt_program(random: &mut Random, twin: &mut Twin) {
    let code = load_program(random, twin, 20);
    let halves: Vec<u16> = (0..60).flat_map(|_| interrupt_code(random)).collect();
    twin.put_code(code, &halves);
    for level in 0..5 {
        let halves = interrupt_handler(random);
        twin.put_code(0xFFFF_FE00 + 16 * level, &halves);
    }
    let psw = |random: &mut Random| random.below(6) << 16 | random.word() & 0x103F;
    let registers = &mut twin.processor.registers;
    registers[18] = 0x0200_0018;
    registers[19] = random.pick(&[0x05, 0x04, 0x01, 0x0D]);
    registers[24] = random.word();
    registers[25] = random.pick(&[0x09, 0x19, 0x0D]);
    registers[21..=23].fill_with(|| psw(random));
    twin.processor.eipsw = psw(random);
    twin.processor.psw = psw(random);
    twin.processor.eipc = code.wrapping_add(2 * random.below(20));
    twin.processor.hardware = random_hardware(random);
    twin.processor.mode = random.pick(&[Mode::Running, Mode::Running, Mode::Halted]);
}
