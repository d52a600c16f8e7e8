//! The calls of the library. The library decides; a refusal's number is reported with what the caller gave.

use vbsys::{Memories, ReadMemories};

use crate::records::{Drawing, Hardware, Machine, Mode, Processor};
use crate::refusal::{fault, hardware_fault, Refusal};
use crate::undefined::{Mask, Read, Undefined};

/// What a step did.
#[derive(Clone, Copy, Debug, PartialEq, Eq)]
pub enum Answer {
    /// An instruction ended, HALT among them.
    Ended,
    /// It raised an exception, and its handler is next.
    Trapped(Cause),
    /// It raised one with NP set.
    TurnedFatal(Cause),
    /// Nothing was done.
    WasHalted,
    /// Nothing was done.
    WasFatal,
    /// An interrupt of this level, 0 to 4, was accepted, and its handler is next.
    Interrupted(u8),
}

/// Why an instruction raised an exception.
#[derive(Clone, Copy, Debug, PartialEq, Eq)]
pub enum Cause {
    /// A division by 0.
    ZeroDivisor,
    /// An invalid opcode.
    Illegal,
    /// TRAP with its vector, 0 to 31.
    Trap(u8),
    /// A floating operand that is a reserved one.
    FloatReserved,
    /// A floating operation that is invalid.
    FloatInvalid,
    /// A floating division by 0.
    FloatZeroDivide,
    /// A floating result that is too large.
    FloatOverflow,
}

impl Cause {
    /// The exception's code.
    pub fn code(self) -> u32 {
        match self {
            Cause::ZeroDivisor => 0xFF80,
            Cause::Illegal => 0xFF90,
            Cause::Trap(vector) => 0xFFA0 + u32::from(vector),
            Cause::FloatReserved => 0xFF60,
            Cause::FloatInvalid => 0xFF70,
            Cause::FloatZeroDivide => 0xFF68,
            Cause::FloatOverflow => 0xFF64,
        }
    }

    fn of(code: u32) -> Cause {
        match code {
            0xFF80 => Cause::ZeroDivisor,
            0xFF90 => Cause::Illegal,
            0xFFA0..=0xFFBF => Cause::Trap((code - 0xFFA0) as u8),
            0xFF60 => Cause::FloatReserved,
            0xFF70 => Cause::FloatInvalid,
            0xFF68 => Cause::FloatZeroDivide,
            0xFF64 => Cause::FloatOverflow,
            _ => unreachable!("no exception has the code 0x{code:X}"),
        }
    }
}

/// What a run did.
#[derive(Clone, Debug, PartialEq, Eq)]
pub struct Ran {
    /// How many instructions ended and interrupts were accepted.
    pub count: u64,
    /// Why it made no more.
    pub stop: Stop,
}

/// Why a run ended.
#[derive(Clone, Debug, PartialEq, Eq)]
pub enum Stop {
    /// The budget is used up, and the machine could go on.
    Budget,
    /// The processor is halted and accepts no interrupt.
    Halted,
    /// The processor is fatal.
    Fatal,
    /// The next instruction is not modelled (refusal 6): records and memories are as after the counted ones.
    NotModelled(Refusal),
}

/// What a call was given, to find the refusal that a number stands for.
pub(crate) struct Given<'a> {
    /// ROM, WRAM, VRAM, pak RAM.
    pub(crate) lengths: [usize; 4],
    pub(crate) processor: Option<&'a Processor>,
    pub(crate) drawing: &'a Drawing,
    pub(crate) hardware: Option<&'a Hardware>,
}

impl Given<'_> {
    /// `own` is the refusal of the call's own subject: 6, 7 or 8.
    pub(crate) fn refusal(&self, number: u32, own: &[Refusal]) -> Refusal {
        let [rom, wram, vram, pak] = self.lengths;
        let refusal = match number {
            1 => Some(Refusal::RomLength { given: rom }),
            2 => Some(Refusal::WramLength { given: wram }),
            3 => Some(Refusal::VramLength { given: vram }),
            4 => Some(Refusal::PakLength { given: pak }),
            5 => fault(self.processor, self.drawing, self.hardware),
            _ => own.iter().find(|refusal| refusal.number() == number).cloned(),
        };
        refusal.unwrap_or_else(|| unreachable!("the call has no refusal {number}"))
    }
}

pub(crate) fn lengths(memories: &Memories) -> [usize; 4] {
    [memories.rom.len(), memories.wram.len(), memories.vram.len(), memories.pak.len()]
}

/// Stores of each width, all alike but for the boundary's call, which has the same name.
macro_rules! stores {
    ($($(#[$about:meta])* $store:ident;)*) => {$(
        $(#[$about])*
        pub fn $store(
            &mut self,
            memories: &mut Memories,
            address: u32,
            value: u32,
        ) -> Result<(), Refusal> {
            let (drawing, hardware) = ((&self.drawing).into(), self.hardware());
            let stored = vbsys::$store(memories, drawing, hardware, address, value);
            self.stored(memories, stored)
        }
    )*};
}

impl Machine {
    /// The state after reset; no memory is touched.
    pub fn reset() -> Machine {
        let machine = vbsys::reset();
        Machine { processor: (&machine.processor).into(), drawing: (&machine.drawing).into() }
    }

    /// The byte at an address.
    pub fn load_byte(&self, memories: &ReadMemories, address: u32) -> Result<u8, Refusal> {
        self.read_byte(memories, address).map(|read| read.value)
    }

    /// The halfword at an address, whose bit 0 is dropped.
    pub fn load_half(&self, memories: &ReadMemories, address: u32) -> Result<u16, Refusal> {
        self.read_half(memories, address).map(|read| read.value)
    }

    /// The word at an address, whose bits 0 and 1 are dropped.
    pub fn load_word(&self, memories: &ReadMemories, address: u32) -> Result<u32, Refusal> {
        self.read_word(memories, address).map(|read| read.value)
    }

    /// The byte at an address, and whether it is undefined.
    pub fn read_byte(&self, memories: &ReadMemories, address: u32) -> Result<Read<u8>, Refusal> {
        let loaded = vbsys::load_byte(*memories, (&self.drawing).into(), self.hardware(), address);
        self.loaded(memories, loaded, |value| value as u8)
    }

    /// The halfword at an address, and which of its bytes are undefined.
    pub fn read_half(&self, memories: &ReadMemories, address: u32) -> Result<Read<u16>, Refusal> {
        let loaded = vbsys::load_half(*memories, (&self.drawing).into(), self.hardware(), address);
        self.loaded(memories, loaded, |value| value as u16)
    }

    /// The word at an address, and which of its bytes are undefined.
    pub fn read_word(&self, memories: &ReadMemories, address: u32) -> Result<Read<u32>, Refusal> {
        let loaded = vbsys::load_word(*memories, (&self.drawing).into(), self.hardware(), address);
        self.loaded(memories, loaded, |value| value)
    }

    fn loaded<T>(
        &self,
        memories: &ReadMemories,
        loaded: vbsys::Loaded,
        narrow: fn(u32) -> T,
    ) -> Result<Read<T>, Refusal> {
        if loaded.refusal == 0 {
            return Ok(Read { value: narrow(loaded.value), undefined: Mask::of(loaded.undefined) });
        }
        let ReadMemories { rom, wram, vram, pak } = memories;
        let lengths = [rom.len(), wram.len(), vram.len(), pak.len()];
        Err(self.bus_refusal(lengths, loaded.refusal))
    }

    pub(crate) fn bus_refusal(&self, lengths: [usize; 4], number: u32) -> Refusal {
        let hardware = Some(&self.processor.hardware);
        Given { lengths, processor: None, drawing: &self.drawing, hardware }.refusal(number, &[])
    }

    stores! {
        /// Stores the low byte of `value`; at a register of the VIP its low halfword.
        store_byte;
        /// Stores the low halfword of `value`.
        store_half;
        /// Stores a word.
        store_word;
    }

    fn stored(&mut self, memories: &Memories, stored: vbsys::Stored) -> Result<(), Refusal> {
        if stored.refusal != 0 {
            return Err(self.bus_refusal(lengths(memories), stored.refusal));
        }
        self.drawing = (&stored.drawing).into();
        self.processor.hardware = (&stored.hardware).into();
        Ok(())
    }

    fn hardware(&self) -> vbsys::Hardware {
        (&self.processor.hardware).into()
    }

    /// Gives the timer one tick of its chosen interval.
    pub fn tick(&mut self) -> Result<(), Refusal> {
        let ticked = vbsys::tick(self.hardware());
        if ticked.refusal != 0 {
            let refusal = hardware_fault(&self.processor.hardware);
            return Err(refusal.expect("a record that is refused has a fault"));
        }
        self.processor.hardware = (&ticked.hardware).into();
        Ok(())
    }

    /// Accepts an interrupt, or does one instruction.
    pub fn step(&mut self, memories: &mut Memories) -> Result<Answer, Refusal> {
        self.step_watched(memories).map(|(answer, _)| answer)
    }

    /// Accepts an interrupt, or does one instruction, and gives which bytes that it read are undefined.
    pub fn step_watched(
        &mut self,
        memories: &mut Memories,
    ) -> Result<(Answer, Undefined), Refusal> {
        let done = vbsys::step(memories, (&self.processor).into(), (&self.drawing).into());
        if done.refusal != 0 {
            return Err(self.refusal(memories, done.refusal));
        }
        self.processor = (&done.processor).into();
        self.drawing = (&done.drawing).into();
        let answer = match done.answer {
            vbsys::ENDED => Answer::Ended,
            vbsys::TRAPPED => Answer::Trapped(Cause::of(done.code)),
            vbsys::TURNED_FATAL => Answer::TurnedFatal(Cause::of(done.code)),
            vbsys::WAS_HALTED => Answer::WasHalted,
            vbsys::WAS_FATAL => Answer::WasFatal,
            vbsys::INTERRUPTED => Answer::Interrupted(((done.code - 0xFE00) / 16) as u8),
            answer => unreachable!("vb.h names no answer {answer}"),
        };
        Ok((answer, Undefined::of(done.undefined)))
    }

    /// Does at most `budget` instructions and interrupts.
    pub fn run(&mut self, memories: &mut Memories, budget: u64) -> Result<Ran, Refusal> {
        let done = vbsys::run(memories, (&self.processor).into(), (&self.drawing).into(), budget);
        if done.refusal != 0 && done.refusal != 6 {
            return Err(self.refusal(memories, done.refusal));
        }
        self.processor = (&done.processor).into();
        self.drawing = (&done.drawing).into();
        let stop = match self.processor.mode {
            _ if done.refusal == 6 => Stop::NotModelled(self.refusal(memories, 6)),
            Mode::Running => Stop::Budget,
            Mode::Halted => Stop::Halted,
            Mode::Fatal => Stop::Fatal,
        };
        Ok(Ran { count: done.count, stop })
    }

    pub(crate) fn refusal(&self, memories: &Memories, number: u32) -> Refusal {
        let own = if number == 6 { vec![self.not_modelled(memories)] } else { Vec::new() };
        let processor = Some(&self.processor);
        let hardware = Some(&self.processor.hardware);
        Given { lengths: lengths(memories), processor, drawing: &self.drawing, hardware }
            .refusal(number, &own)
    }

    fn not_modelled(&self, memories: &Memories) -> Refusal {
        let Memories { rom, wram, vram, pak } = memories;
        let read = ReadMemories { rom, wram, vram, pak };
        let pc = self.processor.pc;
        let half = |at| self.load_half(&read, at).expect("an accepted machine");
        Refusal::NotModelled { pc, first: half(pc), second: half(pc.wrapping_add(2)) }
    }
}

impl Drawing {
    /// Draws strip 0 to 27 of frame 0 or 1, both eyes.
    pub fn draw_strip(&self, vram: &mut [u8], frame: u32, strip: u32) -> Result<(), Refusal> {
        let number = vbsys::draw_strip(vram, self.into(), frame, strip);
        self.drawn(
            vram.len(),
            number,
            &[Refusal::Frame { given: frame }, Refusal::Strip { given: strip }],
        )
    }

    /// Draws frame 0 or 1, both eyes.
    pub fn draw_frame(&self, vram: &mut [u8], frame: u32) -> Result<(), Refusal> {
        let number = vbsys::draw_frame(vram, self.into(), frame);
        self.drawn(vram.len(), number, &[Refusal::Frame { given: frame }])
    }

    fn drawn(&self, vram: usize, number: u32, own: &[Refusal]) -> Result<(), Refusal> {
        if number == 0 {
            return Ok(());
        }
        let lengths = [0, 0, vram, 0];
        let given = Given { lengths, processor: None, drawing: self, hardware: None };
        Err(given.refusal(number, own))
    }
}

/// The 16 bytes of a character, a part of `vram`.
pub fn character(vram: &[u8], character: u32) -> Result<&[u8], Refusal> {
    let part = vbsys::character(vram, character);
    match part.refusal {
        0 => Ok(&vram[part.offset as usize..(part.offset + part.length) as usize]),
        3 => Err(Refusal::VramLength { given: vram.len() }),
        _ => Err(Refusal::Character { given: character }),
    }
}
