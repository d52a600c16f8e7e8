//! Loads and stores: where, how wide, at which bytes, through which repetition.

use vb::op;

use super::operands::called;
use super::table::{names, Table};
use super::Step;
use crate::programs::disassembly::access;

const OPERATIONS: [u32; 12] = [
    op::LD_B,
    op::LD_H,
    op::LD_W,
    op::IN_B,
    op::IN_H,
    op::IN_W,
    op::ST_B,
    op::ST_H,
    op::ST_W,
    op::OUT_B,
    op::OUT_H,
    op::OUT_W,
];

const REGIONS: [&str; 10] = [
    "VRAM",
    "VIP registers",
    "character mirror",
    "VIP unmapped",
    "sound",
    "hardware registers",
    "expansion and unused",
    "game pak RAM",
    "WRAM",
    "ROM",
];
/// SPT0 to BKCOL by their offset from 0x5F848.
const DRAWING: [(&str, u32); 14] = [
    ("SPT0", 0x48),
    ("SPT1", 0x4A),
    ("SPT2", 0x4C),
    ("SPT3", 0x4E),
    ("GPLT0", 0x60),
    ("GPLT1", 0x62),
    ("GPLT2", 0x64),
    ("GPLT3", 0x66),
    ("JPLT0", 0x68),
    ("JPLT1", 0x6A),
    ("JPLT2", 0x6C),
    ("JPLT3", 0x6E),
    ("BKCOL", 0x70),
    ("VER", 0x44),
];
const TIMER: [(&str, u32); 3] = [("TLR", 0x18), ("THR", 0x1C), ("TCR", 0x20)];

fn region(address: u32) -> usize {
    let low = address & 0x7FFFF;
    match address >> 24 & 7 {
        0 if low < 0x40000 => 0,
        0 if (0x5E000..0x60000).contains(&low) => 1,
        0 if low >= 0x78000 => 2,
        0 => 3,
        1 => 4,
        2 => 5,
        5 => 8,
        6 => 7,
        7 => 9,
        _ => 6,
    }
}

pub struct Accesses {
    regions: Table,
    bytes: Table,
    displacements: Table,
    repeats: Table,
    drawing: Table,
    timer: Table,
}

fn direction() -> Vec<String> {
    names(&["loaded", "stored"])
}

fn width() -> Vec<String> {
    names(&["as a byte", "as a halfword", "as a word"])
}

impl Accesses {
    pub fn new() -> Accesses {
        let operations = || OPERATIONS.iter().map(|&operation| called(operation)).collect();
        let offsets = names(&["at 0", "at 1", "at 2", "at 3"]);
        let signs = names(&["displacement 0", "positive", "negative"]);
        let repeats = names(&[
            "VRAM above 0x7FFFF",
            "registers above 0x7FFFF",
            "characters above 0x7FFFF",
            "WRAM above 0x0500FFFF",
            "ROM above its length",
            "bits 27 to 31 set",
        ]);
        let called = |rows: &[(&str, u32)]| rows.iter().map(|row| row.0.to_string()).collect();
        let table = Table::new;
        Accesses {
            regions: table("accesses by region", vec![operations(), names(&REGIONS)]),
            bytes: table("accesses by byte", vec![operations(), offsets]),
            displacements: table("displacements", vec![operations(), signs]),
            repeats: table("repetitions", vec![repeats, direction()]),
            drawing: table("drawing registers", vec![called(&DRAWING), direction(), width()]),
            timer: table("timer accesses", vec![called(&TIMER), direction(), width()]),
        }
    }

    pub fn step(&mut self, step: &Step) {
        let Some(instruction) = &step.instruction else { return };
        let Some(access) = access(instruction) else { return };
        let operation = instruction.operation;
        let Some(n) = OPERATIONS.iter().position(|&each| each == operation) else { return };
        let address = step.before.regs[access.base].wrapping_add(access.displacement);
        let region = region(address);
        self.regions.mark(&[n, region]);
        self.bytes.mark(&[n, address as usize & 3]);
        let sign = match access.displacement as i32 {
            0 => 0,
            displacement => 1 + usize::from(displacement < 0),
        };
        self.displacements.mark(&[n, sign]);
        let (stored, width) = (usize::from(access.store), [0, 0, 1, 1, 2][access.width as usize]);
        self.repeats(step, address, region, stored);
        let low = address & !(access.width - 1) & 0x7FFFF;
        if region == 1 {
            for (n, row) in DRAWING.iter().enumerate() {
                if (low..low + access.width).contains(&(0x5F800 + row.1)) {
                    self.drawing.mark(&[n, stored, width]);
                }
            }
        } else if region == 5 {
            let low = address & !(access.width - 1) & 0x3F;
            for (n, _) in TIMER.iter().enumerate().filter(|(_, row)| low == row.1) {
                self.timer.mark(&[n, stored, width]);
            }
        }
    }

    fn repeats(&mut self, step: &Step, address: u32, region: usize, stored: usize) {
        let offset = address & 0xFF_FFFF;
        let repeated = match region {
            0..=2 if offset > 0x7FFFF => Some(region),
            8 if offset > 0xFFFF => Some(3),
            9 if offset as usize >= step.rom => Some(4),
            _ => None,
        };
        let high = (address >> 27 != 0).then_some(5);
        for n in repeated.into_iter().chain(high) {
            self.repeats.mark(&[n, stored]);
        }
    }

    pub fn tables(&self) -> Vec<Table> {
        let all = [
            &self.regions,
            &self.bytes,
            &self.displacements,
            &self.repeats,
            &self.drawing,
            &self.timer,
        ];
        all.into_iter().cloned().collect()
    }
}
