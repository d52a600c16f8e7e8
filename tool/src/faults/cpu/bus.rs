//! Rules of the address map: mirrors, repeats, widths at registers.

use super::super::die::{load_of, store_of, Did, Die, Next, Width};
use super::super::watch::Trigger;
use super::operands::{LOADS, STORES};
use super::Inject;

#[derive(Clone, Debug, PartialEq)]
pub enum Effect {
    /// An access to a place of this kind is lost (a load reads 0).
    Lost {
        store: bool,
        place: Place,
    },
    /// The character mirror leads to the next table.
    NextTable {
        store: bool,
    },
    /// A byte that is written to a register of the VIP is 8 bits.
    RegisterByte,
    /// .. at its odd address it is lost.
    RegisterOddByte,
    /// A word that is written to registers of the VIP is its low half alone.
    RegisterWord,
    RomWritten,
    /// Halfwords at odd addresses, and words at addresses that are no multiple of four, as they are.
    Unaligned {
        word: bool,
    },
}

#[derive(Clone, Copy, Debug, PartialEq)]
pub enum Place {
    CharacterMirror,
    VipRepeat,
    WramRepeat,
    RomRepeat,
    HighBits,
}

impl Place {
    fn has(self, address: u32, rom: usize) -> bool {
        let region = address >> 24 & 7;
        match self {
            Place::CharacterMirror => is_mirror(address),
            Place::VipRepeat => region == 0 && address & 0x00F8_0000 != 0,
            Place::WramRepeat => region == 5 && address & 0x00FF_0000 != 0,
            Place::RomRepeat => region == 7 && address & 0x00FF_FFFF >= rom as u32,
            Place::HighBits => address >> 27 != 0,
        }
    }
}

fn is_mirror(address: u32) -> bool {
    address >> 24 & 7 == 0 && address & 0x7_FFFF >= 0x7_8000
}

fn is_register(address: u32) -> bool {
    address >> 24 & 7 == 0 && (0x5_E000..0x6_0000).contains(&(address & 0x7_FFFF))
}

/// The same place of the mirror, in the next table.
fn next_table(address: u32) -> u32 {
    address & !0x6000 | address.wrapping_add(0x2000) & 0x6000
}

impl Inject for Effect {
    fn trigger(&self) -> Trigger {
        match self {
            Effect::Lost { store: false, .. } | Effect::NextTable { store: false } => {
                Trigger::Ops(LOADS)
            }
            Effect::Unaligned { .. } => Trigger::Start,
            _ => Trigger::Ops(STORES),
        }
    }

    fn step(&self, die: &mut Die) -> Did {
        if !die.runs() {
            return die.step();
        }
        let next = die.at_pc();
        match (load_of(next.op()), store_of(next.op())) {
            (Some((width, signed)), _) => self.load(die, &next, width, signed),
            (_, Some(width)) => self.store(die, &next, width),
            _ => die.step(),
        }
    }
}

impl Effect {
    fn load(&self, die: &mut Die, next: &Next, width: Width, signed: bool) -> Did {
        let address = next.address(&die.state.processor);
        let reg2 = next.instruction.reg2;
        match *self {
            Effect::Lost { store: false, place } if place.has(address, die.rom.len()) => {
                let did = die.step();
                die.put(reg2, 0);
                did
            }
            Effect::NextTable { store: false } if is_mirror(address) => {
                let base = die.state.processor.regs[next.instruction.reg1 as usize];
                let other = next_table(address).wrapping_sub(address);
                die.acted = true;
                die.step_with(next, Some(base.wrapping_add(other)), None)
            }
            Effect::Unaligned { word } if unaligned(address, width, word) => {
                let bytes = if word { 4 } else { 2 };
                let value = (0..bytes).fold(0, |value, n| {
                    value | die.load(Width::Byte, address.wrapping_add(n)) << (8 * n)
                });
                let value = match (word, signed) {
                    (false, true) => value as u16 as i16 as u32,
                    _ => value,
                };
                let did = die.step();
                die.put(reg2, value);
                did
            }
            _ => die.step(),
        }
    }

    fn store(&self, die: &mut Die, next: &Next, width: Width) -> Did {
        let address = next.address(&die.state.processor);
        let source = die.state.processor.regs[next.instruction.reg2 as usize];
        match *self {
            Effect::Lost { store: true, place } if place.has(address, die.rom.len()) => ended(die),
            Effect::RegisterOddByte
                if width == Width::Byte && is_register(address) && address & 1 == 1 =>
            {
                ended(die)
            }
            Effect::NextTable { store: true } if is_mirror(address) => {
                die.store(width, next_table(address), source);
                ended(die)
            }
            Effect::RegisterByte if width == Width::Byte && is_register(address) => {
                die.store(width, address, source & 0xFF);
                ended(die)
            }
            Effect::RegisterWord if width == Width::Word && is_register(address) => {
                die.store(Width::Half, address & !3, source);
                ended(die)
            }
            Effect::RomWritten if address >> 24 & 7 == 7 => {
                rom_written(die, width, address, source)
            }
            Effect::Unaligned { word } if unaligned(address, width, word) => {
                let bytes = if word { 4 } else { 2 };
                for n in 0..bytes {
                    die.store(Width::Byte, address.wrapping_add(n), source >> (8 * n) & 0xFF);
                }
                ended(die)
            }
            _ => die.step(),
        }
    }
}

fn unaligned(address: u32, width: Width, word: bool) -> bool {
    match (width, word) {
        (Width::Half, false) => address & 1 != 0,
        (Width::Word, true) => address & 3 != 0,
        _ => false,
    }
}

/// The store has been made, or lost: the instruction ends.
fn ended(die: &mut Die) -> Did {
    die.acted = true;
    die.state.processor.pc = die.state.processor.pc.wrapping_add(4);
    Did::Ended
}

fn rom_written(die: &mut Die, width: Width, address: u32, source: u32) -> Did {
    let (bytes, first) = match width {
        Width::Byte => (1, address),
        Width::Half => (2, address & !1),
        Width::Word => (4, address & !3),
    };
    let mask = die.rom.len() - 1;
    for n in 0..bytes {
        die.rom[first.wrapping_add(n) as usize & mask] = (source >> (8 * n)) as u8;
    }
    die.rom_written = true;
    ended(die)
}
