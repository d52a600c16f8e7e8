//! A machine held twice, once for the library and once for the model, and the
//! comparison of all that either could have changed.

use crate::random::Random;
use model::{DrawingRegisters, Hardware};

/// The caller's memories. Each vector is allocated at exactly its length.
#[derive(Clone, Debug, PartialEq, Eq)]
pub struct Buffers {
    pub rom: Box<[u8]>,
    pub wram: Box<[u8]>,
    pub vram: Box<[u8]>,
    pub pak: Box<[u8]>,
}

impl Buffers {
    pub fn zeroed(rom: usize, wram: usize, vram: usize, pak: usize) -> Buffers {
        let zeros = |length: usize| vec![0u8; length].into_boxed_slice();
        Buffers { rom: zeros(rom), wram: zeros(wram), vram: zeros(vram), pak: zeros(pak) }
    }

    /// Memories of accepted lengths with random contents.
    pub fn random(random: &mut Random, rom: usize, pak: usize) -> Buffers {
        let mut buffers = Buffers::zeroed(rom, 65_536, 262_144, pak);
        random.fill(&mut buffers.rom);
        random.fill(&mut buffers.wram);
        random.fill(&mut buffers.vram);
        random.fill(&mut buffers.pak);
        buffers
    }

    pub fn for_library(&mut self) -> vbsys::Memories<'_> {
        vbsys::Memories {
            rom: &self.rom,
            wram: &mut self.wram,
            vram: &mut self.vram,
            pak: &mut self.pak,
        }
    }

    pub fn read_by_library(&self) -> vbsys::ReadMemories<'_> {
        vbsys::ReadMemories { rom: &self.rom, wram: &self.wram, vram: &self.vram, pak: &self.pak }
    }

    pub fn for_model(&mut self) -> model::Memories<'_> {
        model::Memories {
            rom: &self.rom,
            wram: &mut self.wram,
            vram: &mut self.vram,
            pak: &mut self.pak,
        }
    }

    pub fn read_by_model(&self) -> model::ReadMemories<'_> {
        model::ReadMemories { rom: &self.rom, wram: &self.wram, vram: &self.vram, pak: &self.pak }
    }

    /// Stops the test at the first byte of any memory that differs.
    pub fn expect_equal(&self, model: &Buffers, what: &dyn Fn() -> String) {
        expect_same_bytes("ROM", &self.rom, &model.rom, what);
        expect_same_bytes("WRAM", &self.wram, &model.wram, what);
        expect_same_bytes("VRAM", &self.vram, &model.vram, what);
        expect_same_bytes("pak RAM", &self.pak, &model.pak, what);
    }
}

/// Stops the test at the first byte that differs.
pub fn expect_same_bytes(name: &str, library: &[u8], model: &[u8], what: &dyn Fn() -> String) {
    if library == model {
        return;
    }
    assert_eq!(library.len(), model.len());
    let differ = |at: &usize| library[*at] != model[*at];
    let at = (0..library.len()).find(differ).expect("some byte differs");
    let count = (0..library.len()).filter(differ).count();
    panic!(
        "{name}: {count} bytes differ, the first at 0x{at:X}: the library has 0x{:02X}, \
         the model 0x{:02X}; {}",
        library[at],
        model[at],
        what()
    );
}

/// The drawing registers as the library has them.
pub fn to_library(drawing: &model::DrawingRegisters) -> vbsys::Drawing {
    vbsys::Drawing {
        spt: drawing.spt,
        gplt: drawing.gplt,
        jplt: drawing.jplt,
        bkcol: drawing.bkcol,
    }
}

/// The drawing registers as the model has them.
pub fn to_model(drawing: &vbsys::Drawing) -> model::DrawingRegisters {
    model::DrawingRegisters {
        spt: drawing.spt,
        gplt: drawing.gplt,
        jplt: drawing.jplt,
        bkcol: drawing.bkcol,
    }
}

/// Random registers within their widths.
pub fn random_drawing(random: &mut Random) -> model::DrawingRegisters {
    model::DrawingRegisters {
        spt: [0; 4].map(|_: u16| random.half() & 0x3FF),
        gplt: [0; 4].map(|_: u16| random.half() & 0xFF),
        jplt: [0; 4].map(|_: u16| random.half() & 0xFF),
        bkcol: random.half() & 3,
    }
}

/// Lines and timer as the library has them.
pub fn hardware_to_library(hardware: &Hardware) -> vbsys::Hardware {
    let Hardware { lines, count, reload, control } = *hardware;
    vbsys::Hardware { lines, count, reload, control }
}

/// Lines and timer as the model has them.
pub fn hardware_to_model(hardware: &vbsys::Hardware) -> Hardware {
    let vbsys::Hardware { lines, count, reload, control } = *hardware;
    Hardware { lines, count, reload, control }
}

/// A timer near a count of 0, at its largest or anywhere, and any lines.
pub fn random_hardware(random: &mut Random) -> Hardware {
    let number = |random: &mut Random| match random.below(4) {
        0 => random.below(4) as u16,
        1 => random.pick(&[0xFF, 0x100, 0xFFFF]),
        _ => random.half(),
    };
    Hardware {
        lines: random.half() & 0x1F,
        count: number(random),
        reload: number(random),
        control: random.half() & 0x1B,
    }
}

/// The registers that a bus call is given: drawing's, and lines and timer.
#[derive(Clone, Copy, Debug, Default, PartialEq, Eq)]
pub struct Registers {
    pub drawing: DrawingRegisters,
    pub hardware: Hardware,
}

impl Registers {
    pub fn random(random: &mut Random) -> Registers {
        Registers { drawing: random_drawing(random), hardware: random_hardware(random) }
    }
}

/// Drawing registers alone: lines and timer are at reset.
impl From<&DrawingRegisters> for Registers {
    fn from(drawing: &DrawingRegisters) -> Registers {
        Registers { drawing: *drawing, hardware: Hardware::default() }
    }
}

/// Lengths of VRAM about the one that is accepted, each with its refusal.
pub const VRAM_LENGTHS: [(usize, u32); 7] =
    [(0, 3), (1, 3), (131_072, 3), (262_143, 3), (262_144, 0), (262_145, 3), (524_288, 3)];

/// Each register of an accepted record in turn at its largest value, one above and
/// far above it, each with its refusal.
pub fn drawings_about_limits(accepted: &DrawingRegisters) -> Vec<(DrawingRegisters, u32)> {
    let mut all = Vec::new();
    for number in 0..13 {
        for (more, refusal) in [(0, 0), (1, 5), (0x7C00, 5)] {
            let mut drawing = *accepted;
            let (register, largest) = register(&mut drawing, number);
            *register = largest + more;
            all.push((drawing, refusal));
        }
    }
    all
}

/// The number a refusal has at the C boundary; 0 for none.
pub fn number_of<T>(answer: &Result<T, model::Refusal>) -> u32 {
    answer.as_ref().err().map_or(0, |refusal| refusal.number())
}

/// Register `number` of 13, in the order of vb.h, and its largest value.
pub fn register(drawing: &mut DrawingRegisters, number: usize) -> (&mut u16, u16) {
    match number {
        0..=3 => (&mut drawing.spt[number], 0x3FF),
        4..=7 => (&mut drawing.gplt[number - 4], 0xFF),
        8..=11 => (&mut drawing.jplt[number - 8], 0xFF),
        _ => (&mut drawing.bkcol, 3),
    }
}
