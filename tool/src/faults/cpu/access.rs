//! Loads and stores: address lines, data lines, byte lanes, extensions, writes that come late.

use super::super::die::{load_of, store_of, Did, Die, Next, Width};
use super::super::quantities::{Access, Quantity};
use super::super::watch::Trigger;
use super::operands::{LOADS, STORES};
use super::{forced, Inject};

#[derive(Clone, Debug, PartialEq)]
pub enum Effect {
    Address {
        store: bool,
        bit: u8,
        value: bool,
    },
    Data {
        store: bool,
        bit: u8,
        value: bool,
    },
    Lane {
        store: bool,
        lane: Lane,
    },
    /// LD.B and LD.H with zeros, IN.B and IN.H with the sign.
    Extension {
        op: u32,
    },
    /// A byte of a store is not written.
    Enable {
        width: Width,
        byte: u32,
    },
    /// A store of a byte writes its whole halfword.
    WholeHalf,
    /// The register gets the value one instruction later.
    Late {
        op: u32,
    },
    /// The instruction after a load does not write its register.
    LostAfter {
        op: u32,
    },
}

#[derive(Clone, Copy, Debug, PartialEq)]
pub enum Lane {
    /// The bytes of a halfword.
    HalfSwapped,
    WordHalvesSwapped,
    WordReversed,
    /// An address with these bits inverted, of bytes or halfwords.
    Byte(u32),
    Half(u32),
}

impl Inject for Effect {
    fn trigger(&self) -> Trigger {
        let access = |store| if store { Access::Store } else { Access::Load };
        match *self {
            Effect::Address { store, bit, value } => {
                Trigger::Bit(Quantity::Address(access(store)), bit, !value)
            }
            Effect::Data { store, bit, value } => {
                Trigger::Bit(Quantity::Data(access(store)), bit, !value)
            }
            Effect::Lane { store: false, .. } => Trigger::Ops(LOADS),
            Effect::Lane { .. } | Effect::Enable { .. } | Effect::WholeHalf => Trigger::Ops(STORES),
            Effect::Extension { op } | Effect::Late { op } | Effect::LostAfter { op } => {
                Trigger::Op(op)
            }
        }
    }

    fn step(&self, die: &mut Die) -> Did {
        if !die.runs() {
            return die.step();
        }
        let next = die.at_pc();
        match *self {
            Effect::Late { op } => late(die, &next, op),
            Effect::LostAfter { op } => lost_after(die, &next, op),
            _ => match (load_of(next.op()), store_of(next.op())) {
                (Some((width, signed)), _) => self.load(die, &next, width, signed),
                (_, Some(width)) => self.store(die, &next, width),
                _ => die.step(),
            },
        }
    }
}

/// A step that accesses another address.
fn elsewhere(die: &mut Die, next: &Next, address: u32) -> Did {
    let plain = next.address(&die.state.processor);
    if address == plain {
        return die.step();
    }
    die.acted = true;
    let base = die.state.processor.regs[next.instruction.reg1 as usize];
    die.step_with(next, Some(base.wrapping_add(address.wrapping_sub(plain))), None)
}

/// A loaded value as the register has it.
fn extended(value: u32, width: Width, signed: bool) -> u32 {
    match (width, signed) {
        (Width::Byte, true) => value as u8 as i8 as u32,
        (Width::Byte, false) => value & 0xFF,
        (Width::Half, true) => value as u16 as i16 as u32,
        (Width::Half, false) => value & 0xFFFF,
        (Width::Word, _) => value,
    }
}

impl Effect {
    fn load(&self, die: &mut Die, next: &Next, width: Width, signed: bool) -> Did {
        let address = next.address(&die.state.processor);
        match *self {
            Effect::Address { store: false, bit, value } => {
                return elsewhere(die, next, forced(address, bit, value));
            }
            Effect::Lane { store: false, lane: Lane::Byte(bits) } if width == Width::Byte => {
                return elsewhere(die, next, address ^ bits);
            }
            Effect::Lane { store: false, lane: Lane::Half(bits) } if width == Width::Half => {
                return elsewhere(die, next, address ^ bits);
            }
            _ => {}
        }
        let did = die.step();
        if did != Did::Ended {
            return did;
        }
        let reg2 = next.instruction.reg2;
        let value = die.state.processor.regs[reg2 as usize];
        let changed = match *self {
            Effect::Data { store: false, bit, value: stuck } => {
                extended(forced(value, bit, stuck), width, signed)
            }
            Effect::Lane { store: false, lane } => {
                extended(exchanged(value, width, lane), width, signed)
            }
            Effect::Extension { op } if op == next.op() => extended(value, width, !signed),
            _ => value,
        };
        die.put(reg2, changed);
        did
    }

    fn store(&self, die: &mut Die, next: &Next, width: Width) -> Did {
        let address = next.address(&die.state.processor);
        let source = die.state.processor.regs[next.instruction.reg2 as usize];
        let with = |die: &mut Die, value: u32| {
            if value == source {
                return die.step();
            }
            die.acted = true;
            die.step_with(next, None, Some(value))
        };
        match *self {
            Effect::Address { store: true, bit, value } => {
                elsewhere(die, next, forced(address, bit, value))
            }
            Effect::Lane { store: true, lane: Lane::Byte(bits) } if width == Width::Byte => {
                elsewhere(die, next, address ^ bits)
            }
            Effect::Lane { store: true, lane: Lane::Half(bits) } if width == Width::Half => {
                elsewhere(die, next, address ^ bits)
            }
            Effect::Lane { store: true, lane } => with(die, exchanged(source, width, lane)),
            Effect::Data { store: true, bit, value } => with(die, forced(source, bit, value)),
            Effect::Enable { width: of, byte } if of == width => {
                not_enabled(die, width, address, byte)
            }
            Effect::WholeHalf if width == Width::Byte => {
                let other = address ^ 1;
                let did = die.step();
                overwrite(die, other, 0);
                did
            }
            _ => die.step(),
        }
    }
}

fn exchanged(value: u32, width: Width, lane: Lane) -> u32 {
    match (lane, width) {
        (Lane::HalfSwapped, Width::Half) => {
            value & 0xFFFF_0000 | u32::from((value as u16).swap_bytes())
        }
        (Lane::WordHalvesSwapped, Width::Word) => value.rotate_left(16),
        (Lane::WordReversed, Width::Word) => value.swap_bytes(),
        _ => value,
    }
}

/// Whether an address is of memory that bytes are written to.
fn is_memory(address: u32) -> bool {
    match address >> 24 & 7 {
        0 => address & 0x7_FFFF < 0x4_0000 || address & 0x7_FFFF >= 0x7_8000,
        5 | 6 => true,
        _ => false,
    }
}

/// Writes a byte of memory, as a fault does.
fn overwrite(die: &mut Die, address: u32, value: u32) {
    if is_memory(address) && die.load(Width::Byte, address) != value {
        die.store(Width::Byte, address, value);
        die.acted = true;
    }
}

/// A store that leaves one of its bytes as it was.
fn not_enabled(die: &mut Die, width: Width, address: u32, byte: u32) -> Did {
    let first = match width {
        Width::Byte => address,
        Width::Half => address & !1,
        Width::Word => address & !3,
    };
    let place = first.wrapping_add(byte);
    let kept = die.load(Width::Byte, place);
    let did = die.step();
    overwrite(die, place, kept);
    did
}

/// A load's register keeps its value for one more instruction.
fn late(die: &mut Die, next: &Next, op: u32) -> Did {
    let waiting = die.late.take();
    let before = die.state.processor.regs;
    let did = die.step();
    if let Some((register, value)) = waiting {
        // an instruction that writes the register itself is the later one
        if die.state.processor.regs[register] == before[register] {
            die.put(register as u32, value);
        }
    }
    let reg2 = next.instruction.reg2 as usize;
    if did == Did::Ended && next.op() == op && reg2 != 0 {
        die.late = Some((reg2, die.state.processor.regs[reg2]));
        die.put(reg2 as u32, before[reg2]);
    }
    did
}

/// The register file takes no result right after a load.
fn lost_after(die: &mut Die, next: &Next, op: u32) -> Did {
    let waiting = die.late.take().is_some();
    let before = die.state.processor.regs;
    let did = die.step();
    if waiting && did == Did::Ended {
        (1..32).for_each(|n| die.put(n, before[n as usize]));
    }
    if did == Did::Ended && next.op() == op {
        die.late = Some((0, 0));
    }
    did
}
