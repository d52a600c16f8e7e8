//! Endless loops; one run of 100,000 instructions at a time (the model: 20,000).
//! r10 counts the turns, r12 points to WRAM.

use crate::{least, Row};

const BUDGET: u64 = 100_000;
const MODEL_BUDGET: u64 = 20_000;

pub struct Loop {
    pub what: &'static str,
    pub code: Vec<u16>,
}

/// The first halfword of formats I, II, V and VI.
fn packed(opcode: u16, reg2: u16, low: u16) -> u16 {
    opcode << 10 | reg2 << 5 | low
}

/// A branch from the end of `code` back to its start.
fn back(code: &[u16], condition: u16) -> u16 {
    0x8000 | condition << 9 | (0x200 - 2 * code.len() as u16) & 0x1FF
}

const ADD_1_R10: u16 = 0x4541;
const ALWAYS: u16 = 5;
const NOT_ZERO: u16 = 10;

pub fn loops() -> Vec<Loop> {
    let add_r10_r13 = packed(0b000001, 13, 10);
    let cmp_r11_r10 = packed(0b000011, 10, 11);
    let load = |disp: u16| [packed(0b110011, 13, 12), disp];
    let store = |disp: u16| [packed(0b110111, 13, 12), disp];
    let mut all = vec![
        Loop { what: "ADD, BR", code: vec![ADD_1_R10] },
        Loop { what: "ADD, CMP, BNZ", code: vec![ADD_1_R10, cmp_r11_r10] },
        Loop {
            what: "ADD, LD.W, ADD, ST.W, BR in WRAM",
            code: [&[ADD_1_R10][..], &load(0), &[add_r10_r13], &store(4)].concat(),
        },
        Loop { what: "ADD, 8 x (LD.W, ST.W), BR in WRAM", code: vec![ADD_1_R10] },
        Loop {
            what: "ADD, MOVHI, MOVEA, MUL, DIV, BR",
            code: vec![
                ADD_1_R10,
                packed(0b101111, 14, 0),
                2,
                packed(0b101000, 14, 14),
                0x81CD,
                packed(0b001000, 14, 15),
                packed(0b001001, 14, 16),
            ],
        },
        Loop {
            what: "ADD, CVT.WS, ADDF.S, MULF.S, SUBF.S, DIVF.S, CMPF.S, TRNC.SW, BR",
            code: vec![ADD_1_R10],
        },
    ];
    for i in 0..8 {
        all[3].code.extend(load(4 * i));
        all[3].code.extend(store(64 + 4 * i));
    }
    let floating = [
        (2, 14, 10),
        (4, 14, 17),
        (6, 14, 18),
        (5, 14, 17),
        (7, 14, 18),
        (0, 14, 17),
        (11, 19, 14),
    ];
    for (sub_opcode, reg2, reg1) in floating {
        all[5].code.extend([packed(0b111110, reg2, reg1), sub_opcode << 10]);
    }
    for (i, one) in all.iter_mut().enumerate() {
        let condition = if i == 1 { NOT_ZERO } else { ALWAYS };
        one.code.push(back(&one.code, condition));
    }
    all
}

pub fn rows() -> Vec<Row> {
    let mut rows = Vec::new();
    for Loop { what, code } in loops() {
        let bytes: Vec<u8> = code.iter().flat_map(|half| half.to_le_bytes()).collect();
        for (place, pc) in [("ROM", 0x0700_0000), ("WRAM", 0x0500_8000)] {
            let mut rom = vec![0; 1 << 20];
            let mut wram = vec![0; 65_536];
            rom[..bytes.len()].copy_from_slice(&bytes);
            wram[0x8000..0x8000 + bytes.len()].copy_from_slice(&bytes);
            let what = format!("{what}; code in {place}");
            rows.push(Row {
                what,
                library: library(&rom, &mut wram, pc),
                model: model(&rom, &mut wram, pc),
            });
        }
    }
    rows
}

/// What the loops find in the registers, by number.
pub const REGISTERS: [(usize, u32); 6] = [
    (11, u32::MAX),
    (12, 0x0500_0100),
    (15, 12_345),
    (16, 7),
    (17, 0x4049_0FDB),
    (18, 0x3F9E_0652),
];

fn library(rom: &[u8], wram: &mut [u8], pc: u32) -> f64 {
    let mut vram = vec![0; 262_144];
    let vbsys::Machine { mut processor, drawing } = vbsys::reset();
    processor.pc = pc;
    REGISTERS.iter().for_each(|&(register, value)| processor.regs[register] = value);
    let nanoseconds = least(|| {
        let mut memories = vbsys::Memories { rom, wram, vram: &mut vram, pak: &mut [] };
        let ran = vbsys::run(&mut memories, processor, drawing, BUDGET);
        assert_eq!((ran.refusal, ran.count), (0, BUDGET));
        processor = ran.processor;
        ran.count
    });
    1000.0 / nanoseconds
}

fn model(rom: &[u8], wram: &mut [u8], pc: u32) -> f64 {
    let mut vram = vec![0; 262_144];
    let (mut processor, mut drawing) = model::processor::reset();
    processor.pc = pc;
    REGISTERS.iter().for_each(|&(register, value)| processor.registers[register] = value);
    let nanoseconds = least(|| {
        let mut memories = model::Memories { rom, wram, vram: &mut vram, pak: &mut [] };
        let ran = model::processor::run(&mut memories, &mut processor, &mut drawing, MODEL_BUDGET);
        assert_eq!((ran.refusal, ran.count), (None, MODEL_BUDGET));
        ran.count
    });
    1000.0 / nanoseconds
}
