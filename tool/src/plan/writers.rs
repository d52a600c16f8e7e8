//! Which instruction of the model's run wrote a byte last. It is found by running the test again.

use std::collections::HashMap;
use std::ops::RangeInclusive;

use serde::{Deserialize, Serialize};
use vb::{image_offset, Decoded, Mode, Processor, ReadMemories, IMAGE_LENGTH};

use super::run::{again, Watch};
use super::Test;
use crate::eye::Eye;
use crate::failure::Failure;
use crate::files::FileRead;
use crate::inputs::setup::Bench;
use crate::programs::disassembly::{access, disassemble, Access};
use crate::running::follow::place::{at, At};

/// What wrote a byte last.
#[derive(Clone, Debug, PartialEq, Eq, Deserialize, Serialize)]
#[serde(rename_all = "lowercase")]
pub enum Writer {
    /// The instruction at an address, in the assembler's notation.
    Instruction { pc: u32, text: String },
    /// The drawing of a frame, by its number in the test.
    Frame(usize),
}

impl Writer {
    /// `0x07000018 ST.W r0, 0[r7]`
    pub fn text(&self) -> String {
        match self {
            Writer::Instruction { pc, text } => format!("0x{pc:08X} {text}"),
            Writer::Frame(number) => format!("the drawing of frame {number}"),
        }
    }
}

/// Bytes that are watched, by their addresses, and what wrote each place last.
pub struct Writers {
    addresses: Vec<u32>,
    watched: Vec<(u32, At)>,
    last: HashMap<At, Writer>,
}

/// A store that the next step would make.
pub struct Store {
    pc: u32,
    halfwords: [u16; 2],
    bytes: RangeInclusive<u32>,
}

/// What wrote each of these bytes last; a byte that the test's run never writes is left out.
pub fn writers(
    test: &Test,
    files: &[FileRead],
    addresses: &[u32],
) -> Result<HashMap<u32, Writer>, Failure> {
    let addresses = addresses.to_vec();
    let mut writers = Writers { addresses, watched: Vec::new(), last: HashMap::new() };
    again(test, files, Watch::Writes(&mut writers))?;
    let Writers { watched, last, .. } = writers;
    let written = watched.into_iter().filter_map(|(address, at)| Some((address, last.get(&at)?)));
    Ok(written.map(|(address, writer)| (address, writer.clone())).collect())
}

impl Writers {
    /// Finds the places of the addresses.
    pub fn begin(&mut self, bench: &Bench) {
        self.watched = self.addresses.iter().map(|&one| (one, at(bench, one))).collect();
    }

    /// The store that comes next, if one does and no interrupt is accepted first.
    pub fn next(&self, bench: &Bench) -> Option<Store> {
        let machine = &bench.machine;
        let Processor { mode: Mode::Running, pc, regs, .. } = machine.processor else {
            return None;
        };
        let Bench { rom, wram, vram, pak, .. } = bench;
        let memories = ReadMemories { rom, wram, vram, pak };
        let half = |address: u32| machine.load_half(&memories, address).ok();
        let halfwords = [half(pc)?, half(pc.wrapping_add(2))?];
        let Decoded::Instruction { instruction, .. } = vb::decode(halfwords[0], halfwords[1])
        else {
            return None;
        };
        let Access { base, displacement, width, .. } =
            access(&instruction).filter(|access| access.store)?;
        let address = regs[base].wrapping_add(displacement) & !(width - 1);
        Some(Store { pc, halfwords, bytes: address..=address + (width - 1) })
    }

    /// The store was made.
    pub fn made(&mut self, bench: &Bench, store: Store) {
        for place in store.bytes.map(|address| at(bench, address)) {
            if self.watched.iter().any(|(_, at)| *at == place) {
                let [first, second] = store.halfwords;
                let text = disassemble(store.pc, first, second).text;
                self.last.insert(place, Writer::Instruction { pc: store.pc, text });
            }
        }
    }

    /// A frame was drawn. Of each column, 64 bytes, it has 56: rows 0 to 223.
    pub fn frame(&mut self, number: usize, buffer: u32) {
        let images = Eye::BOTH.map(|eye| image_offset(buffer, eye.number()));
        let drawn = |offset: usize| {
            images.iter().any(|image| {
                (*image..image + IMAGE_LENGTH).contains(&offset) && (offset - image) % 64 < 56
            })
        };
        for (_, at) in &self.watched {
            if at.memory == "VRAM" && drawn(at.offset) {
                self.last.insert(*at, Writer::Frame(number));
            }
        }
    }
}
