//! The bus: 01 "Addresses"; 000 "Memory Map", the VIP's memory map and I/O
//! registers, "Game Pak"; W6's registers in region 2.
//!
//! Every read is made of single bytes, each at the place its address gives.
//! Writes differ from that at one kind of place only, the VIP's registers.

use crate::hardware::{timer_register_at, Hardware, TimerRegister};
use crate::number::field;
use crate::refusal::{check_drawing, check_pak, check_rom, check_vram, check_wram, Refusal};

/// The caller's memories for a load (the specification says: lent).
#[derive(Clone, Copy, Debug)]
pub struct ReadMemories<'a> {
    pub rom: &'a [u8],
    pub wram: &'a [u8],
    pub vram: &'a [u8],
    pub pak: &'a [u8],
}

/// The caller's memories for a store, a step or a run. ROM is read only.
#[derive(Debug)]
pub struct Memories<'a> {
    pub rom: &'a [u8],
    pub wram: &'a mut [u8],
    pub vram: &'a mut [u8],
    pub pak: &'a mut [u8],
}

impl Memories<'_> {
    /// The same memories, for reading.
    pub fn read(&self) -> ReadMemories<'_> {
        ReadMemories { rom: self.rom, wram: self.wram, vram: self.vram, pak: self.pak }
    }
}

impl ReadMemories<'_> {
    /// Refusals 1 to 4, lowest first.
    pub fn check(&self) -> Result<(), Refusal> {
        check_rom(self.rom.len())?;
        check_wram(self.wram.len())?;
        check_vram(self.vram.len())?;
        check_pak(self.pak.len())
    }
}

/// The VIP's registers that drawing uses, by value.
#[derive(Clone, Copy, Debug, Default, PartialEq, Eq)]
pub struct DrawingRegisters {
    /// OBJ Control Registers, 10 bits each.
    pub spt: [u16; 4],
    /// BG Palette Control Registers, 8 bits each.
    pub gplt: [u16; 4],
    /// OBJ Palette Control Registers, 8 bits each.
    pub jplt: [u16; 4],
    /// BG Color Palette Control Register, 2 bits.
    pub bkcol: u16,
}

impl DrawingRegisters {
    /// Whether no register exceeds its width (refusal 5).
    pub fn within_widths(&self) -> bool {
        self.spt.iter().all(|&value| value < 1 << 10)
            && self.gplt.iter().all(|&value| value < 1 << 8)
            && self.jplt.iter().all(|&value| value < 1 << 8)
            && self.bkcol < 1 << 2
    }

    /// What a read of the register gives.
    fn read(&self, register: Register) -> u16 {
        match register {
            Register::Spt(n) => self.spt[n],
            Register::Gplt(n) => self.gplt[n],
            Register::Jplt(n) => self.jplt[n],
            Register::Bkcol => self.bkcol,
            Register::Ver => 2,
            Register::Other => 0,
        }
    }

    /// 01: "a write keeps that many low bits"; all others "ignore writes (H)".
    fn write(&mut self, register: Register, value: u16) {
        match register {
            Register::Spt(n) => self.spt[n] = value & 0x3FF,
            Register::Gplt(n) => self.gplt[n] = value & 0xFF,
            Register::Jplt(n) => self.jplt[n] = value & 0xFF,
            Register::Bkcol => self.bkcol = value & 3,
            Register::Ver | Register::Other => {}
        }
    }
}

/// What lies at a halfword of the VIP's register range.
#[derive(Clone, Copy, Debug, PartialEq, Eq)]
pub enum Register {
    Spt(usize),
    Gplt(usize),
    Jplt(usize),
    Bkcol,
    /// VIP Version Register; reads 2.
    Ver,
    /// Every other address there reads 0 and ignores writes (H).
    Other,
}

/// The register at a VIP address, by 000's list of I/O registers. Bit 0 is
/// dropped: a register is a halfword.
pub fn register_at(vip_address: u32) -> Register {
    let half = vip_address & !1;
    let index = |first: u32| (half - first) as usize / 2;
    match half {
        0x5F844 => Register::Ver,
        0x5F848..=0x5F84E => Register::Spt(index(0x5F848)),
        0x5F860..=0x5F866 => Register::Gplt(index(0x5F860)),
        0x5F868..=0x5F86E => Register::Jplt(index(0x5F868)),
        0x5F870 => Register::Bkcol,
        _ => Register::Other,
    }
}

/// Where the byte of an address lies.
#[derive(Clone, Copy, Debug, PartialEq, Eq)]
pub enum Place {
    /// Offset in VRAM, the character mirror resolved.
    Vram(usize),
    /// A byte of a halfword register of the VIP; `high` for the odd address.
    Register { register: Register, high: bool },
    /// The VIP's unmapped ranges: read 0 (H), write nothing.
    Unmapped,
    /// A byte register of the timer (W6).
    Timer(TimerRegister),
    /// The rest of regions 1 to 4: read 0, write nothing.
    Absent,
    /// Offset in WRAM.
    Wram(usize),
    /// Offset in pak RAM; none when it is empty.
    Pak(Option<usize>),
    /// Offset in ROM.
    Rom(usize),
}

/// The place of one byte, with ROM and pak RAM of the given lengths.
pub fn place_of(address: u32, rom_length: usize, pak_length: usize) -> Place {
    let address = field(address, 0, 27);
    match field(address, 24, 3) {
        0 => vip_place(field(address, 0, 19)),
        2 => timer_register_at(address).map_or(Place::Absent, Place::Timer),
        5 => Place::Wram(address as usize % 65_536),
        6 => Place::Pak((pak_length != 0).then(|| address as usize % pak_length)),
        7 => Place::Rom(address as usize % rom_length),
        _ => Place::Absent,
    }
}

/// 01: "0, VIP: keep 19 bits", then the five ranges.
fn vip_place(address: u32) -> Place {
    match address {
        0..=0x3FFFF => Place::Vram(address as usize),
        0x5E000..=0x5FFFF => {
            Place::Register { register: register_at(address), high: address % 2 == 1 }
        }
        0x78000..=0x7FFFF => Place::Vram(character_mirror(address - 0x78000) as usize),
        _ => Place::Unmapped,
    }
}

/// 01: "0x78000 + k, k below 0x8000: VRAM at 0x6000 + (k / 0x2000) * 0x8000 +
/// k mod 0x2000".
pub fn character_mirror(k: u32) -> u32 {
    0x6000 + (k / 0x2000) * 0x8000 + k % 0x2000
}

/// 000's list of the VIP's I/O registers: 27 halfwords, each by its address.
const LISTED_REGISTERS: [u32; 27] = [
    0x5F800, // INTPND
    0x5F802, // INTENB
    0x5F804, // INTCLR
    0x5F820, // DPSTTS
    0x5F822, // DPCTRL
    0x5F824, // BRTA
    0x5F826, // BRTB
    0x5F828, // BRTC
    0x5F82A, // REST
    0x5F82E, // FRMCYC
    0x5F830, // CTA
    0x5F840, // XPSTTS
    0x5F842, // XPCTRL
    0x5F844, // VER
    0x5F848, // SPT0
    0x5F84A, // SPT1
    0x5F84C, // SPT2
    0x5F84E, // SPT3
    0x5F860, // GPLT0
    0x5F862, // GPLT1
    0x5F864, // GPLT2
    0x5F866, // GPLT3
    0x5F868, // JPLT0
    0x5F86A, // JPLT1
    0x5F86C, // JPLT2
    0x5F86E, // JPLT3
    0x5F870, // BKCOL
];

/// Whether a read of the byte is meaningless. W2: "Undefined are the VIP's
/// unmapped ranges and its register addresses where 000 lists no register;
/// nothing else." A register's two bytes are both its own.
pub fn is_undefined(address: u32) -> bool {
    let region = field(address, 24, 3);
    let vip_address = field(address, 0, 19);
    region == 0
        && match vip_address {
            0x40000..=0x5DFFF | 0x60000..=0x77FFF => true,
            0x5E000..=0x5FFFF => !LISTED_REGISTERS.contains(&(vip_address & !1)),
            _ => false,
        }
}

/// The undefined bytes of an access of 1, 2 or 4 bytes: bit k is set where
/// byte k, counted from the aligned address, is undefined.
pub fn undefined_bytes(address: u32, size: u32) -> u32 {
    let first = address & !(size - 1);
    (0..size).filter(|&k| is_undefined(first + k)).map(|k| 1 << k).sum()
}

/// What a load answers.
#[derive(Clone, Copy, Debug, Default, PartialEq, Eq)]
pub struct Loaded {
    pub value: u32,
    /// [`undefined_bytes`] of the access.
    pub undefined: u32,
}

/// One byte as a read sees it. The lengths have been accepted.
pub(crate) fn byte_at(
    memories: &ReadMemories,
    drawing: &DrawingRegisters,
    hardware: &Hardware,
    address: u32,
) -> u8 {
    match place_of(address, memories.rom.len(), memories.pak.len()) {
        Place::Vram(at) => memories.vram[at],
        Place::Wram(at) => memories.wram[at],
        Place::Pak(Some(at)) => memories.pak[at],
        Place::Rom(at) => memories.rom[at],
        Place::Register { register, high } => {
            drawing.read(register).to_le_bytes()[usize::from(high)]
        }
        Place::Timer(register) => hardware.read(register),
        Place::Pak(None) | Place::Unmapped | Place::Absent => 0,
    }
}

/// "Halfword accesses drop bit 0"; little-endian.
pub(crate) fn half_at(
    memories: &ReadMemories,
    drawing: &DrawingRegisters,
    hardware: &Hardware,
    address: u32,
) -> u16 {
    let first = address & !1;
    let byte = |n: u32| byte_at(memories, drawing, hardware, first + n);
    u16::from_le_bytes([byte(0), byte(1)])
}

/// "words bits 0 and 1"; little-endian.
pub(crate) fn word_at(
    memories: &ReadMemories,
    drawing: &DrawingRegisters,
    hardware: &Hardware,
    address: u32,
) -> u32 {
    let first = address & !3;
    let byte = |n: u32| byte_at(memories, drawing, hardware, first + n);
    u32::from_le_bytes([byte(0), byte(1), byte(2), byte(3)])
}

/// Puts one byte where it is memory, or a register of a byte, that can be
/// written.
fn put_byte(memories: &mut Memories, hardware: &mut Hardware, place: Place, value: u8) {
    match place {
        Place::Timer(register) => hardware.write(register, value),
        Place::Vram(at) => memories.vram[at] = value,
        Place::Wram(at) => memories.wram[at] = value,
        Place::Pak(Some(at)) => memories.pak[at] = value,
        Place::Pak(None) | Place::Rom(_) | Place::Unmapped | Place::Absent => {}
        Place::Register { .. } => unreachable!("registers are written as halfwords"),
    }
}

/// 01: "A byte write stores the low 16 bits of its source into the halfword
/// register"; elsewhere the low 8 bits go to the byte.
pub(crate) fn put_low_byte(
    memories: &mut Memories,
    drawing: &mut DrawingRegisters,
    hardware: &mut Hardware,
    address: u32,
    source: u32,
) {
    match place_of(address, memories.rom.len(), memories.pak.len()) {
        Place::Register { register, .. } => drawing.write(register, source as u16),
        place => put_byte(memories, hardware, place, source as u8),
    }
}

/// A register takes the halfword; memory takes its two bytes, "lowest first,
/// a later byte over an earlier".
pub(crate) fn put_half(
    memories: &mut Memories,
    drawing: &mut DrawingRegisters,
    hardware: &mut Hardware,
    address: u32,
    value: u16,
) {
    let first = address & !1;
    let (rom, pak) = (memories.rom.len(), memories.pak.len());
    if let Place::Register { register, .. } = place_of(first, rom, pak) {
        return drawing.write(register, value);
    }
    let [low, high] = value.to_le_bytes();
    put_byte(memories, hardware, place_of(first, rom, pak), low);
    put_byte(memories, hardware, place_of(first + 1, rom, pak), high);
}

/// A word is its two halfwords, the low one first.
pub(crate) fn put_word(
    memories: &mut Memories,
    drawing: &mut DrawingRegisters,
    hardware: &mut Hardware,
    address: u32,
    value: u32,
) {
    let first = address & !3;
    put_half(memories, drawing, hardware, first, value as u16);
    put_half(memories, drawing, hardware, first + 2, (value >> 16) as u16);
}

/// Refusals 1 to 5 of a bus call.
pub fn check(
    memories: &ReadMemories,
    drawing: &DrawingRegisters,
    hardware: &Hardware,
) -> Result<(), Refusal> {
    memories.check()?;
    check_drawing(drawing)?;
    hardware.check()
}

/// Reads a byte, zero extended.
pub fn load_byte(
    memories: &ReadMemories,
    drawing: &DrawingRegisters,
    hardware: &Hardware,
    address: u32,
) -> Result<Loaded, Refusal> {
    check(memories, drawing, hardware)?;
    let value = u32::from(byte_at(memories, drawing, hardware, address));
    Ok(Loaded { value, undefined: undefined_bytes(address, 1) })
}

/// Reads a halfword, zero extended.
pub fn load_half(
    memories: &ReadMemories,
    drawing: &DrawingRegisters,
    hardware: &Hardware,
    address: u32,
) -> Result<Loaded, Refusal> {
    check(memories, drawing, hardware)?;
    let value = u32::from(half_at(memories, drawing, hardware, address));
    Ok(Loaded { value, undefined: undefined_bytes(address, 2) })
}

/// Reads a word.
pub fn load_word(
    memories: &ReadMemories,
    drawing: &DrawingRegisters,
    hardware: &Hardware,
    address: u32,
) -> Result<Loaded, Refusal> {
    check(memories, drawing, hardware)?;
    let value = word_at(memories, drawing, hardware, address);
    Ok(Loaded { value, undefined: undefined_bytes(address, 4) })
}

/// Writes a byte; `source` is the whole source register.
pub fn store_byte(
    memories: &mut Memories,
    drawing: &mut DrawingRegisters,
    hardware: &mut Hardware,
    address: u32,
    source: u32,
) -> Result<(), Refusal> {
    check(&memories.read(), drawing, hardware)?;
    put_low_byte(memories, drawing, hardware, address, source);
    Ok(())
}

/// Writes the low halfword of `source`.
pub fn store_half(
    memories: &mut Memories,
    drawing: &mut DrawingRegisters,
    hardware: &mut Hardware,
    address: u32,
    source: u32,
) -> Result<(), Refusal> {
    check(&memories.read(), drawing, hardware)?;
    put_half(memories, drawing, hardware, address, source as u16);
    Ok(())
}

/// Writes a word.
pub fn store_word(
    memories: &mut Memories,
    drawing: &mut DrawingRegisters,
    hardware: &mut Hardware,
    address: u32,
    source: u32,
) -> Result<(), Refusal> {
    check(&memories.read(), drawing, hardware)?;
    put_word(memories, drawing, hardware, address, source);
    Ok(())
}
