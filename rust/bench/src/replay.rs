//! Traces of 100,000 records of the processor's loops (the model: 20,000), recorded by the library's steps.

use crate::cpu::{loops, Loop, REGISTERS};
use crate::{least, Row};

const RECORDS: usize = 100_000;
const MODEL_RECORDS: usize = 20_000;
const PC: u32 = 0x0700_0000;

struct Bench {
    rom: Vec<u8>,
    wram: Vec<u8>,
    vram: Vec<u8>,
}

impl Bench {
    fn of(code: &[u16]) -> Bench {
        let mut rom = vec![0; 1 << 20];
        let bytes: Vec<u8> = code.iter().flat_map(|half| half.to_le_bytes()).collect();
        rom[..bytes.len()].copy_from_slice(&bytes);
        Bench { rom, wram: vec![0; 65_536], vram: vec![0; 262_144] }
    }

    fn memories(&mut self) -> vbsys::Memories<'_> {
        vbsys::Memories { rom: &self.rom, wram: &mut self.wram, vram: &mut self.vram, pak: &mut [] }
    }
}

pub fn rows() -> Vec<Row> {
    loops().iter().map(|Loop { what, code }| row(what, code)).collect()
}

fn start() -> vbsys::Machine {
    let mut machine = vbsys::reset();
    machine.processor.pc = PC;
    REGISTERS.iter().for_each(|&(register, value)| machine.processor.regs[register] = value);
    machine
}

/// The trace from memories of zeros.
fn recorded(bench: &mut Bench) -> Vec<u8> {
    let vbsys::Machine { mut processor, drawing } = start();
    let mut memories = bench.memories();
    let mut trace = Vec::with_capacity(16 * RECORDS);
    for _ in 0..RECORDS {
        let before = processor.pc;
        processor = vbsys::step(&mut memories, processor, drawing).processor;
        let sum = processor.regs.iter().fold(0u32, |sum, value| sum.wrapping_add(*value));
        let words = [before, processor.pc, processor.psw, sum];
        trace.extend(words.iter().flat_map(|word| word.to_le_bytes()));
    }
    trace
}

fn row(what: &str, code: &[u16]) -> Row {
    let mut bench = Bench::of(code);
    let trace = recorded(&mut bench);
    let vbsys::Machine { processor, drawing } = start();
    let library = least(|| {
        bench.wram.fill(0);
        let replayed = vbsys::replay(&mut bench.memories(), processor, drawing, &trace);
        assert_eq!((replayed.answer, replayed.agreed), (vbsys::REPLAY_AGREED, RECORDS as u64));
        replayed.agreed
    });
    let trace = &trace[..16 * MODEL_RECORDS];
    let model = least(|| {
        bench.wram.fill(0);
        let (mut processor, mut drawing) = model::processor::reset();
        processor.pc = PC;
        REGISTERS.iter().for_each(|&(register, value)| processor.registers[register] = value);
        let Bench { rom, wram, vram } = &mut bench;
        let mut memories = model::Memories { rom, wram, vram, pak: &mut [] };
        let replayed = model::replay::replay(&mut memories, &mut processor, &mut drawing, trace);
        assert_eq!(replayed.agreed, MODEL_RECORDS as u64);
        replayed.agreed
    });
    Row { what: format!("{what}; code in ROM"), library: 1000.0 / library, model: 1000.0 / model }
}
