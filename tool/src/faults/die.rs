//! A die that is simulated: the proved library's machine with its memories, and what an injector needs to reach around a
//! step: the next instruction, the memory it is fetched from, and the bus at another address.

use vb::op;
use vbsys::{Drawing, Hardware, Instruction, Memories, Processor, ReadMemories};

use crate::inputs::setup::Bench;

/// Entries of the cache of decoded instructions, by address.
const CACHED: usize = 4096;

/// What a step did.
#[derive(Clone, Copy, Debug, PartialEq, Eq)]
pub enum Did {
    /// An instruction ended.
    Ended,
    /// It raised the exception of this code, and its handler is next.
    Trapped(u32),
    /// An interrupt of this level was accepted.
    Interrupted(u32),
    /// Nothing: halted, and no interrupt was accepted.
    Halted,
    /// Nothing, or an exception with NP set: fatal.
    Fatal,
    /// Nothing: the instruction is not modelled.
    NotModelled,
}

impl Did {
    /// Whether a recorder sees a step.
    pub fn completed(self) -> bool {
        matches!(self, Did::Ended | Did::Trapped(_) | Did::Interrupted(_))
    }
}

/// The instruction at PC.
#[derive(Clone, Copy, Debug, Default, PartialEq, Eq)]
pub struct Next {
    pub instruction: Instruction,
    /// How many halfwords it has.
    pub halfwords: u32,
    pub first: u16,
    pub second: u16,
}

impl Next {
    pub fn op(&self) -> u32 {
        self.instruction.operation
    }

    /// The address of a load or store.
    pub fn address(&self, processor: &Processor) -> u32 {
        let displacement = self.second as i16 as u32;
        processor.regs[self.instruction.reg1 as usize].wrapping_add(displacement)
    }
}

/// The bytes that an access is made of.
#[derive(Clone, Copy, Debug, PartialEq, Eq)]
pub enum Width {
    Byte,
    Half,
    Word,
}

/// The machine of a die, in the library's own records.
#[derive(Clone, Copy, Debug, Default, PartialEq, Eq)]
pub struct State {
    pub processor: Processor,
    pub drawing: Drawing,
}

pub struct Die {
    pub state: State,
    pub rom: Vec<u8>,
    pub wram: Vec<u8>,
    pub vram: Vec<u8>,
    pub pak: Vec<u8>,
    /// Whether the fault has changed anything so far.
    pub acted: bool,
    /// A register's value that is written late, by a fault that delays it.
    pub late: Option<(usize, u32)>,
    /// Ticks that a fault has counted.
    pub ticks: u32,
    /// Whether a fault has written ROM.
    pub rom_written: bool,
    cache: Vec<(u32, Next)>,
}

impl Die {
    /// A die with this ROM, and nothing in its other memories.
    pub fn new(rom: Vec<u8>) -> Die {
        Die {
            state: State::default(),
            rom,
            wram: Vec::new(),
            vram: Vec::new(),
            pak: Vec::new(),
            acted: false,
            late: None,
            ticks: 0,
            rom_written: false,
            cache: vec![(1, Next::default()); CACHED],
        }
    }

    pub fn of(bench: &Bench) -> Die {
        let state = State {
            processor: (&bench.machine.processor).into(),
            drawing: (&bench.machine.drawing).into(),
        };
        let [wram, vram, pak] = bench.memories();
        Die { state, wram, vram, pak, ..Die::new(bench.rom.clone()) }
    }

    /// Begins again from a state, with no memory of a fault.
    pub fn restart(&mut self, state: State) {
        (self.state, self.acted, self.late, self.ticks) = (state, false, None, 0);
        self.rom_written = false;
    }

    fn memories(&mut self) -> (State, Memories<'_>) {
        let Die { state, rom, wram, vram, pak, .. } = self;
        (*state, Memories { rom, wram, vram, pak })
    }

    fn read_memories(&self) -> ReadMemories<'_> {
        let Die { rom, wram, vram, pak, .. } = self;
        ReadMemories { rom, wram, vram, pak }
    }

    /// The library's own step.
    pub fn step(&mut self) -> Did {
        let (State { processor, drawing }, mut memories) = self.memories();
        let done = vbsys::step(&mut memories, processor, drawing);
        if done.refusal != 0 {
            return Did::NotModelled;
        }
        self.state = State { processor: done.processor, drawing: done.drawing };
        match done.answer {
            vbsys::ENDED => Did::Ended,
            vbsys::TRAPPED => Did::Trapped(done.code),
            vbsys::INTERRUPTED => Did::Interrupted((done.code - 0xFE00) / 16),
            vbsys::WAS_HALTED => Did::Halted,
            _ => Did::Fatal,
        }
    }

    /// The library's own run: how many steps it completed, and what stopped it; none where the budget did.
    pub fn run(&mut self, budget: u64) -> (u64, Option<Did>) {
        let (State { processor, drawing }, mut memories) = self.memories();
        let done = vbsys::run(&mut memories, processor, drawing, budget);
        if done.refusal != 0 && done.refusal != 6 {
            return (0, Some(Did::NotModelled));
        }
        self.state = State { processor: done.processor, drawing: done.drawing };
        let stop = match done.processor.mode {
            _ if done.refusal == 6 => Some(Did::NotModelled),
            vbsys::RUNNING => None,
            vbsys::HALTED => Some(Did::Halted),
            _ => Some(Did::Fatal),
        };
        (done.count, stop)
    }

    /// The library's own tick.
    pub fn tick(&mut self) {
        let ticked = vbsys::tick(self.state.processor.hardware);
        if ticked.refusal == 0 {
            self.state.processor.hardware = ticked.hardware;
        }
    }

    /// A load by the bus; an access that is refused reads 0.
    pub fn load(&self, width: Width, address: u32) -> u32 {
        let (memories, State { processor, drawing }) = (self.read_memories(), &self.state);
        let hardware = processor.hardware;
        match width {
            Width::Byte => vbsys::load_byte(memories, *drawing, hardware, address),
            Width::Half => vbsys::load_half(memories, *drawing, hardware, address),
            Width::Word => vbsys::load_word(memories, *drawing, hardware, address),
        }
        .value
    }

    /// A store by the bus.
    pub fn store(&mut self, width: Width, address: u32, value: u32) {
        let (State { processor, drawing }, mut memories) = self.memories();
        let (memories, hardware) = (&mut memories, processor.hardware);
        let stored = match width {
            Width::Byte => vbsys::store_byte(memories, drawing, hardware, address, value),
            Width::Half => vbsys::store_half(memories, drawing, hardware, address, value),
            Width::Word => vbsys::store_word(memories, drawing, hardware, address, value),
        };
        if stored.refusal == 0 {
            self.state.drawing = stored.drawing;
            self.state.processor.hardware = stored.hardware;
        }
    }

    /// The instruction at PC. One of ROM is decoded once, as long as no fault writes ROM.
    pub fn at_pc(&mut self) -> Next {
        let pc = self.state.processor.pc;
        let in_rom = pc >> 24 & 7 == 7 && !self.rom_written;
        let place = pc as usize / 2 % CACHED;
        if in_rom && self.cache[place].0 == pc {
            return self.cache[place].1;
        }
        let first = self.load(Width::Half, pc) as u16;
        let second = self.load(Width::Half, pc.wrapping_add(2)) as u16;
        let next = decoded(first, second);
        if in_rom {
            self.cache[place] = (pc, next);
        }
        next
    }

    /// Whether the next step is an instruction, and no interrupt.
    pub fn runs(&self) -> bool {
        let Processor { mode, .. } = self.state.processor;
        mode == vbsys::RUNNING && self.accepted().is_none()
    }

    /// The level of the interrupt that is accepted before the next instruction.
    pub fn accepted(&self) -> Option<u32> {
        let Processor { mode, psw, hardware: Hardware { lines, .. }, .. } = self.state.processor;
        if lines == 0 || mode == vbsys::FATAL || psw & 0xD000 != 0 {
            return None;
        }
        let level = 15 - lines.leading_zeros();
        (level >= psw >> 16 & 15).then_some(level)
    }

    /// The lines that wake it where it is halted.
    pub fn waking(&self) -> u16 {
        let Processor { mode, psw, .. } = self.state.processor;
        if mode != vbsys::HALTED || psw & 0xD000 != 0 {
            return 0;
        }
        let least = psw >> 16 & 15;
        (0..5).filter(|level| *level >= least).map(|level| 1 << level).sum()
    }

    /// The memory of a halfword, where it is one that can be changed for a step.
    fn place(&mut self, address: u32) -> Option<&mut [u8]> {
        let (memory, at) = match address >> 24 & 7 {
            0 if address & 0x7_FFFF < 0x4_0000 => (&mut self.vram, address & 0x3_FFFF),
            5 => (&mut self.wram, address & 0xFFFF),
            6 if !self.pak.is_empty() => {
                let mask = self.pak.len() as u32 - 1;
                (&mut self.pak, address & mask)
            }
            7 => {
                let mask = self.rom.len() as u32 - 1;
                (&mut self.rom, address & mask)
            }
            _ => return None,
        };
        memory.get_mut(at as usize..at as usize + 2)
    }

    /// The bytes of WRAM, VRAM or pak RAM from an address on.
    pub fn bytes(&self, address: u32, length: usize) -> &[u8] {
        let low = (address & 0xFF_FFFF) as usize;
        let (memory, at) = match address >> 24 & 7 {
            5 => (&self.wram, low % self.wram.len()),
            6 if !self.pak.is_empty() => (&self.pak, low % self.pak.len()),
            _ => (&self.vram, vram_offset(low & 0x7_FFFF)),
        };
        memory.get(at..at + length).unwrap_or_default()
    }

    /// A step with other halfwords at PC. What is executed where no memory is stays as it is.
    pub fn step_patched(&mut self, first: u16, second: Option<u16>) -> Did {
        let pc = self.state.processor.pc;
        let halves = [(pc, Some(first)), (pc.wrapping_add(2), second)];
        let mut kept = [None; 2];
        for ((address, half), kept) in halves.into_iter().zip(&mut kept) {
            if let (Some(half), Some(place)) = (half, self.place(address)) {
                *kept = Some((half, [place[0], place[1]]));
                place.copy_from_slice(&half.to_le_bytes());
            }
        }
        let did = self.step();
        for ((address, _), kept) in halves.into_iter().zip(kept).rev() {
            let Some((patch, before)) = kept else { continue };
            if let Some(place) = self.place(address) {
                // a store of the instruction's own to this place stays
                if [place[0], place[1]] == patch.to_le_bytes() {
                    place.copy_from_slice(&before);
                }
            }
        }
        did
    }

    /// A step whose operands are these. Each that is given is put into a spare register, which the instruction is made
    /// to name: so neither r0 nor a register that is named twice stands in the way.
    pub fn step_with(&mut self, next: &Next, reg1: Option<u32>, reg2: Option<u32>) -> Did {
        let Instruction { reg1: first, reg2: second, operation, .. } = next.instruction;
        let mut spare = (5..12).filter(|&n| n != first && n != second);
        let mut take = || spare.next().unwrap_or(12);
        let (one, two) = (take(), take());
        let kept = [one, two].map(|n| self.state.processor.regs[n as usize]);
        let mut half = next.first;
        let regs = &mut self.state.processor.regs;
        if let Some(value) = reg1 {
            (regs[one as usize], half) = (value, half & !0x1F | one as u16);
        }
        if let Some(value) = reg2 {
            (regs[two as usize], half) = (value, half & !0x3E0 | (two as u16) << 5);
        }
        let did = self.step_patched(half, None);
        let regs = &mut self.state.processor.regs;
        let result = regs[two as usize];
        if reg1.is_some() {
            regs[one as usize] = kept[0];
        }
        if reg2.is_some() {
            regs[two as usize] = kept[1];
            if did == Did::Ended && writes_reg2(operation) && second != 0 {
                regs[second as usize] = result;
            }
        }
        did
    }

    /// Counts a change that the fault made.
    pub fn act(&mut self, changed: bool) {
        self.acted |= changed;
    }

    /// Puts a value into a register; r0 drops it.
    pub fn put(&mut self, register: u32, value: u32) {
        let place = &mut self.state.processor.regs[register as usize];
        let changed = register != 0 && *place != value;
        if changed {
            *place = value;
        }
        self.acted |= changed;
    }
}

/// The place in VRAM of an address of the VIP; the mirror of the characters leads to their tables.
fn vram_offset(address: usize) -> usize {
    match address.checked_sub(0x7_8000) {
        Some(k) => 0x6000 + k / 0x2000 * 0x8000 + k % 0x2000,
        None => address,
    }
}

/// What two halfwords mean.
pub fn decoded(first: u16, second: u16) -> Next {
    let vbsys::Decoded { halfwords, instruction, .. } = vbsys::decode(first, second);
    Next { instruction, halfwords, first, second }
}

/// Whether an operation writes reg2.
pub fn writes_reg2(operation: u32) -> bool {
    let without = [
        op::CMP,
        op::JMP,
        op::CMP_IMM,
        op::CLI,
        op::TRAP,
        op::RETI,
        op::HALT,
        op::LDSR,
        op::SEI,
        op::BCOND,
        op::JR,
        op::JAL,
        op::ST_B,
        op::ST_H,
        op::ST_W,
        op::OUT_B,
        op::OUT_H,
        op::OUT_W,
        op::CMPF_S,
        op::ILLEGAL,
    ];
    !without.contains(&operation)
}

/// Whether an operation reads reg1, and reg2.
pub fn reads(operation: u32) -> (bool, bool) {
    let reg1 = matches!(operation, op::MOV..=op::NOT | op::MOVEA | op::ADDI | op::ORI..=op::OUT_W)
        || (op::CMPF_S..=op::MPYHW).contains(&operation) && !matches!(operation, op::XB | op::XH);
    let reg2 = matches!(
        operation,
        op::ADD..=op::SHR | op::SAR..=op::XOR | op::ADD_IMM | op::CMP_IMM..=op::SHR_IMM | op::SAR_IMM | op::LDSR
            | op::ST_B..=op::ST_W | op::OUT_B..=op::OUT_W | op::CMPF_S | op::ADDF_S..=op::XH | op::MPYHW
    );
    (reg1, reg2)
}

/// A load's width, and whether it extends the sign.
pub fn load_of(operation: u32) -> Option<(Width, bool)> {
    Some(match operation {
        op::LD_B => (Width::Byte, true),
        op::LD_H => (Width::Half, true),
        op::LD_W => (Width::Word, true),
        op::IN_B => (Width::Byte, false),
        op::IN_H => (Width::Half, false),
        op::IN_W => (Width::Word, false),
        _ => return None,
    })
}

/// A store's width.
pub fn store_of(operation: u32) -> Option<Width> {
    Some(match operation {
        op::ST_B | op::OUT_B => Width::Byte,
        op::ST_H | op::OUT_H => Width::Half,
        op::ST_W | op::OUT_W => Width::Word,
        _ => return None,
    })
}
