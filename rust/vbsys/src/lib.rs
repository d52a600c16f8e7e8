//! The C interface of the console reference model: the declarations of
//! include/vb.h and thin safe wrappers over slices.
//!
//! Here are the records. [`raw`] has the foreign functions, and the wrappers of
//! their names without `vb_` stand here.

#![warn(missing_docs)]

mod calls;
// each has the name that document 000 gives the instruction
#[allow(missing_docs)]
pub mod op;
// include/vb.h documents them
#[allow(missing_docs)]
pub mod raw;

pub use calls::*;

/// `VB_VERSION`: the layouts below are this version's.
pub const VERSION: u32 = 3;
/// `VB_MISUSE`: a mode above 2, or a pixel that no image has.
pub const MISUSE: u32 = 255;

/// The static library that is linked, libvb.a; libvb.so stands next to it.
pub const LIBRARY: &str = env!("VB_LIBRARY");
/// The proved archive that libvb is made of, where it is still there. The guard's tests alone link it.
pub const PROVED: &str = env!("VB_PROVED");

// Values of [`Processor::mode`].
/// It does instructions.
pub const RUNNING: u32 = 0;
/// HALT was done.
pub const HALTED: u32 = 1;
/// An exception came while NP was set.
pub const FATAL: u32 = 2;

// Values of [`Stepped::answer`].
/// An instruction ended.
pub const ENDED: u32 = 0;
/// It raised an exception, and its handler is next.
pub const TRAPPED: u32 = 1;
/// It raised one with NP set.
pub const TURNED_FATAL: u32 = 2;
/// Nothing was done: halted, and no interrupt was accepted.
pub const WAS_HALTED: u32 = 3;
/// Nothing was done: fatal.
pub const WAS_FATAL: u32 = 4;
/// An interrupt was accepted.
pub const INTERRUPTED: u32 = 5;

// Bits of [`Hardware::lines`].
/// Level 0, the game pad.
pub const LINE_PAD: u16 = 0x01;
/// Level 1, the timer.
pub const LINE_TIMER: u16 = 0x02;
/// Level 2, the game pak.
pub const LINE_PAK: u16 = 0x04;
/// Level 3, the link.
pub const LINE_LINK: u16 = 0x08;
/// Level 4, the VIP.
pub const LINE_VIP: u16 = 0x10;

// Bits of [`Hardware::control`].
/// The timer counts.
pub const T_ENB: u16 = 0x01;
/// The count has reached zero.
pub const Z_STAT: u16 = 0x02;
/// Zero raises line 1.
pub const TIM_Z_INT: u16 = 0x08;
/// Which interval the caller chose for a tick.
pub const T_CLK_SEL: u16 = 0x10;

/// `vb_hardware`: the request lines and the timer.
#[repr(C)]
#[derive(Clone, Copy, Debug, Default, PartialEq, Eq)]
pub struct Hardware {
    /// Bit n is the line of level n.
    pub lines: u16,
    /// The timer's count.
    pub count: u16,
    /// The count that the timer starts again with.
    pub reload: u16,
    /// The timer's control bits.
    pub control: u16,
}

/// `vb_processor`
#[repr(C)]
#[derive(Clone, Copy, Debug, Default, PartialEq, Eq)]
pub struct Processor {
    /// The general registers; r0 is 0.
    pub regs: [u32; 32],
    /// The address of the next instruction.
    pub pc: u32,
    /// System register 0.
    pub eipc: u32,
    /// System register 1.
    pub eipsw: u32,
    /// System register 2.
    pub fepc: u32,
    /// System register 3.
    pub fepsw: u32,
    /// System register 4.
    pub ecr: u32,
    /// System register 5.
    pub psw: u32,
    /// System register 25.
    pub sr25: u32,
    /// System register 29.
    pub sr29: u32,
    /// System register 31.
    pub sr31: u32,
    /// Running, halted or fatal.
    pub mode: u32,
    /// The request lines and the timer.
    pub hardware: Hardware,
}

/// `vb_drawing`
#[repr(C)]
#[derive(Clone, Copy, Debug, Default, PartialEq, Eq)]
pub struct Drawing {
    /// The last object of each group.
    pub spt: [u16; 4],
    /// The background palettes.
    pub gplt: [u16; 4],
    /// The object palettes.
    pub jplt: [u16; 4],
    /// The background colour.
    pub bkcol: u16,
}

/// `vb_loaded`
#[repr(C)]
#[derive(Clone, Copy, Debug, Default, PartialEq, Eq)]
pub struct Loaded {
    /// 0, or the number of the refusal.
    pub refusal: u32,
    /// The value that was read.
    pub value: u32,
    /// Bit k is set where byte k of the access was read and is undefined.
    pub undefined: u32,
}

/// `vb_stored`
#[repr(C)]
#[derive(Clone, Copy, Debug, Default, PartialEq, Eq)]
pub struct Stored {
    /// 0, or the number of the refusal.
    pub refusal: u32,
    /// The drawing registers afterwards.
    pub drawing: Drawing,
    /// The request lines and the timer afterwards.
    pub hardware: Hardware,
}

/// `vb_ticked`
#[repr(C)]
#[derive(Clone, Copy, Debug, Default, PartialEq, Eq)]
pub struct Ticked {
    /// 0, or the number of the refusal.
    pub refusal: u32,
    /// The request lines and the timer afterwards.
    pub hardware: Hardware,
}

/// `vb_undefined`
#[repr(C)]
#[derive(Clone, Copy, Debug, Default, PartialEq, Eq)]
pub struct Undefined {
    /// Of the first halfword.
    pub first: u32,
    /// Of the second halfword.
    pub second: u32,
    /// Of what the instruction loaded.
    pub load: u32,
}

/// `vb_stepped`
#[repr(C)]
#[derive(Clone, Copy, Debug, Default, PartialEq, Eq)]
pub struct Stepped {
    /// 0, or the number of the refusal.
    pub refusal: u32,
    /// What it did.
    pub answer: u32,
    /// The code of the exception or interrupt.
    pub code: u32,
    /// What was read and is undefined.
    pub undefined: Undefined,
    /// The processor afterwards.
    pub processor: Processor,
    /// The drawing registers afterwards.
    pub drawing: Drawing,
}

/// `vb_ran`
#[repr(C)]
#[derive(Clone, Copy, Debug, Default, PartialEq, Eq)]
pub struct Ran {
    /// 0, or the number of the refusal.
    pub refusal: u32,
    /// How many instructions ended and interrupts were accepted.
    pub count: u64,
    /// The processor afterwards.
    pub processor: Processor,
    /// The drawing registers afterwards.
    pub drawing: Drawing,
}

/// `vb_machine`
#[repr(C)]
#[derive(Clone, Copy, Debug, Default, PartialEq, Eq)]
pub struct Machine {
    /// The processor.
    pub processor: Processor,
    /// The drawing registers.
    pub drawing: Drawing,
}

/// `vb_restored`
#[repr(C)]
#[derive(Clone, Copy, Debug, Default, PartialEq, Eq)]
pub struct Restored {
    /// 0, or the number of the refusal.
    pub refusal: u32,
    /// The processor afterwards.
    pub processor: Processor,
    /// The drawing registers afterwards.
    pub drawing: Drawing,
}

/// `vb_salvaged`
#[repr(C)]
#[derive(Clone, Copy, Debug, Default, PartialEq, Eq)]
pub struct Salvaged {
    /// 0, or the number of the refusal.
    pub refusal: u32,
    /// How many bodies were replaced.
    pub replaced: u32,
    /// Their kinds, ascending; 0 after the last.
    pub kinds: [u32; 6],
    /// 1 where a byte before the first body differs, sums of replaced bodies aside.
    pub contents_differ: u32,
}

/// `VB_STATE_2_BYTES`: the length of a saved state of form 2 with `pak` bytes of pak RAM.
pub fn state_2_bytes(pak: usize) -> usize {
    match pak {
        0 => 327_962,
        _ => 327_976 + pak,
    }
}

/// `VB_STATE_BYTES`: the same of form 1.
pub fn state_bytes(pak: usize) -> usize {
    match pak {
        0 => 327_920,
        _ => 327_930 + pak,
    }
}

/// `vb_part`
#[repr(C)]
#[derive(Clone, Copy, Debug, Default, PartialEq, Eq)]
pub struct Part {
    /// 0, or the number of the refusal.
    pub refusal: u32,
    /// Where it lies in VRAM.
    pub offset: u64,
    /// Its bytes.
    pub length: u64,
}

/// `vb_listed`
#[repr(C)]
#[derive(Clone, Copy, Debug, Default, PartialEq, Eq)]
pub struct Listed {
    /// 0, or the number of the refusal.
    pub refusal: u32,
    /// How many bytes the pixel answers to.
    pub count: u64,
}

/// The borrowed memories (the specification says: lent) of a load.
#[derive(Clone, Copy, Debug)]
pub struct ReadMemories<'a> {
    /// ROM.
    pub rom: &'a [u8],
    /// WRAM.
    pub wram: &'a [u8],
    /// VRAM.
    pub vram: &'a [u8],
    /// Pak RAM; it may be empty.
    pub pak: &'a [u8],
}

/// The borrowed memories (the specification says: lent) of a store, a step or a run.
#[derive(Debug)]
pub struct Memories<'a> {
    /// ROM.
    pub rom: &'a [u8],
    /// WRAM.
    pub wram: &'a mut [u8],
    /// VRAM.
    pub vram: &'a mut [u8],
    /// Pak RAM; it may be empty.
    pub pak: &'a mut [u8],
}

/// The borrowed memories (the specification says: lent) of a probe's write: VRAM alone can change.
#[derive(Debug)]
pub struct ProbeMemories<'a> {
    /// ROM.
    pub rom: &'a [u8],
    /// WRAM.
    pub wram: &'a [u8],
    /// VRAM.
    pub vram: &'a mut [u8],
    /// Pak RAM; it may be empty.
    pub pak: &'a [u8],
}

/// `vb_instruction`
#[repr(C)]
#[derive(Clone, Copy, Debug, Default, PartialEq, Eq)]
pub struct Instruction {
    /// One of [`op`]'s numbers.
    pub operation: u32,
    /// The first register, 0 to 31.
    pub reg1: u32,
    /// The second register, 0 to 31.
    pub reg2: u32,
    /// The condition, 0 to 15.
    pub condition: u32,
    /// The immediate, displacement or vector, extended to a word.
    pub immediate: u32,
}

/// `vb_encoded`
#[repr(C)]
#[derive(Clone, Copy, Debug, Default, PartialEq, Eq)]
pub struct Encoded {
    /// 0, or the number of the refusal.
    pub refusal: u32,
    /// How many halfwords it has.
    pub halfwords: u32,
    /// The first halfword.
    pub first: u16,
    /// The second halfword, where there are two.
    pub second: u16,
}

/// `vb_decoded`
#[repr(C)]
#[derive(Clone, Copy, Debug, Default, PartialEq, Eq)]
pub struct Decoded {
    /// 0, or the number of the refusal.
    pub refusal: u32,
    /// How many halfwords it has.
    pub halfwords: u32,
    /// Its fields.
    pub instruction: Instruction,
}

/// `vb_access`: an access of a list.
#[repr(C)]
#[derive(Clone, Copy, Debug, Default, PartialEq, Eq)]
pub struct Access {
    /// The bus address.
    pub address: u32,
    /// 1, 2 or 4.
    pub size: u32,
    /// 0 a read, any other number a write.
    pub write: u32,
    /// Of a write: the whole source register. A read puts its value here.
    pub value: u32,
    /// A read puts the mask of its undefined bytes here.
    pub undefined: u32,
}

/// `vb_replayed`
#[repr(C)]
#[derive(Clone, Copy, Debug, Default, PartialEq, Eq)]
pub struct Replayed {
    /// 0, or the number of the refusal.
    pub refusal: u32,
    /// What it did.
    pub answer: u32,
    /// How many records agreed.
    pub agreed: u64,
    /// The first word that differs, 0 to 3.
    pub word: u32,
    /// The processor afterwards.
    pub processor: Processor,
    /// The drawing registers afterwards.
    pub drawing: Drawing,
}

// Values of [`Replayed::answer`].
/// Refused, `refusal` says why.
pub const REPLAY_REFUSED: u32 = 0;
/// Every record agreed.
pub const REPLAY_AGREED: u32 = 1;
/// A record differs.
pub const REPLAY_DIFFERED: u32 = 2;
/// Halted where the trace has a record.
pub const REPLAY_WAS_HALTED: u32 = 3;
/// Fatal where the trace has a record.
pub const REPLAY_WAS_FATAL: u32 = 4;
/// Turned fatal where the trace has a record.
pub const REPLAY_TURNED_FATAL: u32 = 5;
