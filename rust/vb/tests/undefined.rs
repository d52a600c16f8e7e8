//! Reads that say which of their bytes are undefined (paper 02, W2), as a bench meets them.

use vb::{Answer, Machine, Mask, Memories, ReadMemories, Undefined};

struct Buffers {
    rom: Vec<u8>,
    wram: Vec<u8>,
    vram: Vec<u8>,
}

impl Buffers {
    /// A ROM of 1,024 bytes whose reset address holds these halfwords, and zeros.
    fn with(code: &[u16]) -> Buffers {
        let mut rom = vec![0; 1024];
        for (i, half) in code.iter().enumerate() {
            rom[0x3F0 + 2 * i..0x3F2 + 2 * i].copy_from_slice(&half.to_le_bytes());
        }
        Buffers { rom, wram: vec![0; vb::WRAM_LENGTH], vram: vec![0; vb::VRAM_LENGTH] }
    }

    fn memories(&mut self) -> Memories<'_> {
        Memories { rom: &self.rom, wram: &mut self.wram, vram: &mut self.vram, pak: &mut [] }
    }

    fn read(&self) -> ReadMemories<'_> {
        ReadMemories { rom: &self.rom, wram: &self.wram, vram: &self.vram, pak: &[] }
    }

    fn byte(&self, address: u32) -> (u8, u32) {
        let read = Machine::reset().read_byte(&self.read(), address).unwrap();
        (read.value, read.undefined.bits())
    }

    fn half(&self, address: u32) -> (u16, u32) {
        let read = Machine::reset().read_half(&self.read(), address).unwrap();
        (read.value, read.undefined.bits())
    }

    fn word(&self, address: u32) -> (u32, u32) {
        let read = Machine::reset().read_word(&self.read(), address).unwrap();
        (read.value, read.undefined.bits())
    }

    /// A step from `pc`, with r1 at `base`.
    fn step(&mut self, pc: u32, base: u32) -> (Answer, [u32; 3]) {
        let mut machine = Machine::reset();
        machine.processor.psw = 0;
        machine.processor.pc = pc;
        machine.processor.regs[1] = base;
        let (answer, Undefined { first, second, load }) =
            machine.step_watched(&mut self.memories()).unwrap();
        (answer, [first.bits(), second.bits(), load.bits()])
    }
}

const RESET: u32 = 0xFFFF_FFF0;
/// LD.W 0[r1], r1; its result overwrites its base.
const LD_W: [u16; 2] = [0b110011 << 10 | 1 << 5 | 1, 0];
/// IN.B 2[r1], r0
const IN_B_R0: [u16; 2] = [0b111000 << 10 | 1, 2];
/// MOVEA 0, r0, r0
const MOVEA: u16 = 0b101000 << 10;
const HALT: u16 = 0x6800;

#[test]
fn loads_name_their_undefined_bytes() {
    let mut buffers = Buffers::with(&[]);
    buffers.vram[0x3FFFF] = 7;
    assert_eq!(buffers.byte(0x0003_FFFF), (7, 0));
    assert_eq!(buffers.byte(0x0004_0000), (0, 1));
    assert_eq!(buffers.half(0x0005_F801), (0, 0));
    assert_eq!(buffers.half(0x0005_F847), (0, 3));
    assert_eq!(buffers.word(0x0005_F847), (2, 0xC));
    for address in [0x0005_F82D, 0x000D_F82C, 0xF805_F82C] {
        assert_eq!(buffers.word(address), (0, 3));
    }
    for address in [0x0100_0000, 0x0300_0000, 0x0400_0000, 0x0600_0000] {
        assert_eq!(buffers.word(address), (0, 0));
    }
}

#[test]
fn a_step_holds_each_halfword_and_its_load_apart() {
    let mut buffers = Buffers::with(&LD_W);
    assert_eq!(buffers.step(0x0004_0000, 0), (Answer::Ended, [3, 0, 0]));
    assert_eq!(buffers.step(RESET, 0x0005_F870), (Answer::Ended, [0, 0, 0xC]));
    assert_eq!(buffers.step(RESET, 0x0500_0000), (Answer::Ended, [0, 0, 0]));
    buffers.vram[0x3FFFE..].copy_from_slice(&MOVEA.to_le_bytes());
    assert_eq!(buffers.step(0x0003_FFFE, 0), (Answer::Ended, [0, 3, 0]));
    let mut buffers = Buffers::with(&IN_B_R0);
    assert_eq!(buffers.step(RESET, 0x0005_F870), (Answer::Ended, [0, 0, 1]));
    assert_eq!(buffers.step(RESET, 0x0005_F86F), (Answer::Ended, [0, 0, 0]));
}

#[test]
fn a_step_that_fetches_nothing_reads_nothing_undefined() {
    let mut buffers = Buffers::with(&[HALT]);
    let mut machine = Machine::reset();
    machine.step(&mut buffers.memories()).unwrap();
    machine.processor.pc = 0x0004_0000;
    let watched = machine.step_watched(&mut buffers.memories()).unwrap();
    assert_eq!(watched, (Answer::WasHalted, Undefined::default()));
    assert!(!watched.1.any());
}

#[test]
fn a_mask_names_its_bytes() {
    let buffers = Buffers::with(&[]);
    let mask = |address| Machine::reset().read_word(&buffers.read(), address).unwrap().undefined;
    assert_eq!(mask(0x0005_F844).to_string(), "bytes 2 and 3");
    assert_eq!(mask(0x0004_0000).to_string(), "bytes 0, 1, 2 and 3");
    assert_eq!(mask(0).to_string(), "no byte");
    assert_eq!(mask(0x0005_F844).bytes().collect::<Vec<_>>(), [2, 3]);
    assert_eq!(Mask::default().bits(), 0);
}
