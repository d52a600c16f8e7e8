//! One bus access made through the library and in the model, and addresses
//! that lie where a mistake would show.

use crate::machine::{
    hardware_to_library, hardware_to_model, number_of, to_library, to_model, Buffers, Registers,
};
use crate::random::Random;
use model::bus;
use model::{DrawingRegisters, Hardware, Loaded};

/// The six bus calls of vb.h.
#[derive(Clone, Copy, Debug, PartialEq, Eq)]
pub enum Call {
    LoadByte,
    LoadHalf,
    LoadWord,
    StoreByte,
    StoreHalf,
    StoreWord,
}

pub const LOADS: [Call; 3] = [Call::LoadByte, Call::LoadHalf, Call::LoadWord];
pub const STORES: [Call; 3] = [Call::StoreByte, Call::StoreHalf, Call::StoreWord];
pub const CALLS: [Call; 6] = [
    Call::LoadByte,
    Call::LoadHalf,
    Call::LoadWord,
    Call::StoreByte,
    Call::StoreHalf,
    Call::StoreWord,
];

/// What a bus call answers. A load gives the registers it was given; a store reads
/// nothing, so that nothing of it is undefined.
#[derive(Clone, Copy, Debug, PartialEq, Eq)]
pub struct Answer {
    pub refusal: u32,
    pub value: u32,
    pub undefined: u32,
    pub drawing: DrawingRegisters,
    pub hardware: Hardware,
}

impl Answer {
    pub fn registers(&self) -> Registers {
        Registers { drawing: self.drawing, hardware: self.hardware }
    }
}

/// The access made by the library.
pub fn by_library(
    call: Call,
    buffers: &mut Buffers,
    registers: impl Into<Registers>,
    address: u32,
    value: u32,
) -> Answer {
    let Registers { drawing, hardware } = registers.into();
    let (registers, timer) = (to_library(&drawing), hardware_to_library(&hardware));
    let load = |loaded: vbsys::Loaded| Answer {
        refusal: loaded.refusal,
        value: loaded.value,
        undefined: loaded.undefined,
        drawing,
        hardware,
    };
    let store = |stored: vbsys::Stored| Answer {
        refusal: stored.refusal,
        value: 0,
        undefined: 0,
        drawing: to_model(&stored.drawing),
        hardware: hardware_to_model(&stored.hardware),
    };
    let read = buffers.read_by_library();
    match call {
        Call::LoadByte => load(vbsys::load_byte(read, registers, timer, address)),
        Call::LoadHalf => load(vbsys::load_half(read, registers, timer, address)),
        Call::LoadWord => load(vbsys::load_word(read, registers, timer, address)),
        Call::StoreByte => {
            store(vbsys::store_byte(&mut buffers.for_library(), registers, timer, address, value))
        }
        Call::StoreHalf => {
            store(vbsys::store_half(&mut buffers.for_library(), registers, timer, address, value))
        }
        Call::StoreWord => {
            store(vbsys::store_word(&mut buffers.for_library(), registers, timer, address, value))
        }
    }
}

/// The access made by the model.
pub fn by_model(
    call: Call,
    buffers: &mut Buffers,
    registers: impl Into<Registers>,
    address: u32,
    value: u32,
) -> Answer {
    let Registers { mut drawing, mut hardware } = registers.into();
    let (d, h) = (&mut drawing, &mut hardware);
    let read = buffers.read_by_model();
    let answer = match call {
        Call::LoadByte => bus::load_byte(&read, d, h, address),
        Call::LoadHalf => bus::load_half(&read, d, h, address),
        Call::LoadWord => bus::load_word(&read, d, h, address),
        Call::StoreByte | Call::StoreHalf | Call::StoreWord => {
            let memories = &mut buffers.for_model();
            let stored = match call {
                Call::StoreByte => bus::store_byte(memories, d, h, address, value),
                Call::StoreHalf => bus::store_half(memories, d, h, address, value),
                _ => bus::store_word(memories, d, h, address, value),
            };
            stored.map(|()| Loaded::default())
        }
    };
    let refusal = number_of(&answer);
    let Loaded { value, undefined } = answer.unwrap_or_default();
    Answer { refusal, value, undefined, drawing, hardware }
}

/// Edges of the VIP's ranges and of its registers, within 19 bits.
const VIP_EDGES: [u32; 34] = [
    0, 0x6000, 0x8000, 0xE000, 0x10000, 0x16000, 0x18000, 0x1E000, 0x20000, 0x3D800, 0x3DC00,
    0x3E000, 0x3F000, 0x40000, 0x5E000, 0x5F800, 0x5F802, 0x5F820, 0x5F830, 0x5F842, 0x5F844,
    0x5F848, 0x5F850, 0x5F860, 0x5F868, 0x5F870, 0x5F872, 0x60000, 0x70000, 0x78000, 0x7A000,
    0x7C000, 0x7E000, 0x80000,
];

/// A few bytes to either side of `edge`.
fn near(random: &mut Random, edge: u32) -> u32 {
    edge.wrapping_add(random.below(16)).wrapping_sub(8)
}

/// An address of the VIP; all its mirrors are likely.
fn vip_address(random: &mut Random) -> u32 {
    let low = match random.below(8) {
        0 | 1 => {
            let edge = random.pick(&VIP_EDGES);
            near(random, edge)
        }
        2..=4 => 0x5F840 + random.below(0x40),
        5 => 0x78000 + random.below(0x8000),
        _ => random.word(),
    };
    (low & 0x7FFFF) + random.below(32) * 0x80000
}

/// An address in a region that repeats every `length` bytes.
fn repeating_address(random: &mut Random, length: usize) -> u32 {
    let length = (length as u32).max(1);
    let copy = random.word() & 0xFF_FFFF;
    match random.below(3) {
        0 => copy,
        1 => near(random, copy - copy % length),
        _ => copy - copy % length + random.below(length),
    }
}

/// An address of region 2 at or next to the timer's registers, or as far from them
/// as a mirror would be.
pub fn timer_address(random: &mut Random) -> u32 {
    let low = random.pick(&[0x18, 0x1C, 0x20]) + random.below(4);
    match random.below(8) {
        0 => random.below(0x100),
        1 => low + (0x100 << random.below(16)),
        _ => low,
    }
}

/// An address biased to the edges of every region and range, under random
/// high bits.
pub fn biased_address(random: &mut Random, rom: usize, pak: usize) -> u32 {
    let (region, low) = match random.below(16) {
        0 => return random.word(),
        1 => (random.below(8), near(random, 0)),
        2 if random.one_in(2) => (2, timer_address(random)),
        2 => (1 + random.below(4), random.word()),
        3..=7 => (0, vip_address(random)),
        8 | 9 => (5, repeating_address(random, 65_536)),
        10..=12 => (6, repeating_address(random, pak)),
        _ => (7, repeating_address(random, rom)),
    };
    random.below(32) << 27 | region << 24 | low & 0xFF_FFFF
}

/// A source register biased to the bits that a narrow store must drop or keep.
pub fn biased_value(random: &mut Random) -> u32 {
    match random.below(8) {
        0 => 0,
        1 => 0xFFFF_FFFF,
        2 => 0xFFFF_0000 | random.word(),
        3 => 1 << random.below(32),
        _ => random.word(),
    }
}
