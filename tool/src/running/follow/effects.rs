//! What one instruction did.

use serde::Serialize;
use vb::{Machine, Mask, ReadMemories, Refusal, Undefined};

use super::place::{at, At};
use crate::inputs::setup::Bench;
use crate::programs::disassembly::{disassemble, Access};
use crate::running::outcome::exception_name;

/// An instruction and its effects; its members are those of the JSON.
#[derive(Clone, Serialize)]
pub struct Effects {
    pub pc: u32,
    pub halfwords: Vec<u16>,
    pub instruction: String,
    /// Where it led, if not to the next instruction.
    pub jumped: Option<u32>,
    /// Registers that changed: name and value, drawing registers among them.
    pub changed: Vec<(String, u32)>,
    pub written: Option<Written>,
    /// Addresses of bytes that were read and are undefined.
    pub undefined: Vec<u32>,
    pub exception: Option<u32>,
    pub turned_fatal: bool,
    /// The level of an interrupt that was accepted before the instruction.
    #[serde(skip_serializing_if = "Option::is_none")]
    pub interrupt: Option<u8>,
    /// Where it loads from.
    #[serde(skip)]
    loads: Option<u32>,
    #[serde(skip)]
    before: Machine,
}

/// Memory that was written.
#[derive(Clone, Serialize)]
pub struct Written {
    pub address: u32,
    pub width: u32,
    pub place: String,
    pub from: u32,
    pub to: u32,
}

fn read(bench: &Bench) -> ReadMemories<'_> {
    ReadMemories { rom: &bench.rom, wram: &bench.wram, vram: &bench.vram, pak: &bench.pak }
}

fn value(bench: &Bench, machine: &Machine, address: u32, width: u32) -> Result<u32, Refusal> {
    let memories = read(bench);
    match width {
        1 => machine.load_byte(&memories, address).map(u32::from),
        2 => machine.load_half(&memories, address).map(u32::from),
        _ => machine.load_word(&memories, address),
    }
}

impl Effects {
    /// The instruction that is next, before it is done.
    pub fn before(bench: &Bench) -> Result<Effects, Refusal> {
        Effects::at(bench, &bench.machine)
    }

    /// The instruction that is next for this machine, with the bench's memories.
    pub fn at(bench: &Bench, machine: &Machine) -> Result<Effects, Refusal> {
        let machine = *machine;
        let pc = machine.processor.pc;
        let halves =
            [pc, pc.wrapping_add(2)].map(|address| machine.load_half(&read(bench), address));
        let (first, second) = (halves[0].clone()?, halves[1].clone()?);
        let line = disassemble(pc, first, second);
        let mut effects = Effects {
            pc,
            halfwords: [first, second][..line.halves as usize].to_vec(),
            instruction: line.text,
            jumped: None,
            changed: Vec::new(),
            written: None,
            undefined: Vec::new(),
            exception: None,
            turned_fatal: false,
            interrupt: None,
            loads: None,
            before: machine,
        };
        if let Some(access) = line.access {
            effects.access(bench, &machine, access)?;
        }
        Ok(effects)
    }

    fn access(&mut self, bench: &Bench, machine: &Machine, access: Access) -> Result<(), Refusal> {
        let Access { store, base, displacement, width } = access;
        let address = machine.processor.regs[base].wrapping_add(displacement) & !(width - 1);
        if store {
            let from = value(bench, machine, address, width)?;
            let place = at(bench, address).text();
            self.written = Some(Written { address, width, place, from, to: from });
        } else {
            self.loads = Some(address);
        }
        Ok(())
    }

    /// An interrupt that was accepted in place of the instruction, which is not looked at.
    pub fn interrupted(self, level: u8) -> Effects {
        let (halfwords, instruction) = (Vec::new(), "interrupt".to_string());
        Effects {
            halfwords,
            instruction,
            written: None,
            loads: None,
            interrupt: Some(level),
            ..self
        }
    }

    /// Takes in what the library says of the bytes that were read.
    pub fn with_undefined(mut self, undefined: Undefined) -> Effects {
        let bytes = |from: u32, mask: Mask| mask.bytes().map(move |k| from.wrapping_add(k));
        let Undefined { first, second, load } = undefined;
        self.undefined.extend(bytes(self.pc, first));
        self.undefined.extend(bytes(self.pc.wrapping_add(2), second));
        self.undefined.extend(self.loads.into_iter().flat_map(|from| bytes(from, load)));
        self
    }

    /// The same instruction after it was done.
    pub fn after(mut self, bench: &Bench, exception: Option<u32>, turned_fatal: bool) -> Effects {
        let (old, new) = (&self.before, &bench.machine);
        let general = old.processor.regs.iter().zip(&new.processor.regs).enumerate();
        let general = general.map(|(n, (old, new))| (format!("r{n}"), *old, *new));
        let system = old.processor.system().into_iter().zip(new.processor.system()).skip(1);
        let system = system.map(|((name, old), (_, new))| (name.to_string(), old, new));
        let drawing = old.drawing.registers().into_iter().zip(new.drawing.registers());
        let drawing = drawing.map(|((name, old, _), (_, new, _))| {
            (name.to_string(), u32::from(old), u32::from(new))
        });
        let lines = old.processor.hardware.fields().into_iter();
        let lines = lines
            .zip(new.processor.hardware.fields())
            .map(|((name, old), (_, new))| (name.to_string(), u32::from(old), u32::from(new)));
        let all = general.chain(system).chain(drawing).chain(lines);
        self.changed =
            all.filter(|(_, old, new)| old != new).map(|(name, _, new)| (name, new)).collect();
        if let Some(written) = &mut self.written {
            let loaded = value(bench, new, written.address, written.width);
            written.to = loaded.unwrap_or(written.from);
        }
        let next = self.pc.wrapping_add(2 * self.halfwords.len() as u32);
        // a machine that turns fatal stays where it is
        self.jumped = (new.processor.pc != next && !turned_fatal).then_some(new.processor.pc);
        let interrupt = self.interrupt.map(|level| 0xFE00 + 16 * u32::from(level));
        (self.exception, self.turned_fatal) = (exception.or(interrupt), turned_fatal);
        self
    }

    /// The address of a write that has a byte in one of the places.
    pub fn written_within(&self, bench: &Bench, watched: &[(At, usize)]) -> Option<u32> {
        let written = self.written.as_ref()?;
        let within = |address: u32| {
            let byte = at(bench, address);
            watched.iter().any(|(first, last)| {
                byte.memory == first.memory && (first.offset..=*last).contains(&byte.offset)
            })
        };
        let mut bytes = (0..written.width).map(|n| written.address.wrapping_add(n));
        bytes.find(|&address| within(address))
    }

    /// `0xFFFFFFF0  BC20 0700  MOVHI 0x0700, r0, r1  r1 0x07000000`
    pub fn text(&self) -> String {
        let halves: Vec<String> = self.halfwords.iter().map(|half| format!("{half:04X}")).collect();
        let mut effects = Vec::new();
        if let Some(target) = self.jumped {
            effects.push(format!("-> 0x{target:08X}"));
        }
        if let Some(code) = self.exception {
            let fatal = if self.turned_fatal { ", fatal" } else { "" };
            effects.push(format!("{} (exception 0x{code:04X}){fatal}", exception_name(code)));
        }
        effects.extend(self.changed.iter().map(|(name, value)| format!("{name} 0x{value:08X}")));
        effects.extend(self.written.iter().map(Written::text));
        if let (Some(first), Some(last)) = (self.undefined.first(), self.undefined.last()) {
            effects.push(format!("undefined read of 0x{first:08X} to 0x{last:08X}"));
        }
        let head = format!("0x{:08X}  {:<9}  {:<24}", self.pc, halves.join(" "), self.instruction);
        format!("{head}  {}", effects.join("; ")).trim_end().to_string()
    }
}

impl Written {
    fn text(&self) -> String {
        let digits = 2 * self.width as usize;
        let Written { address, place, from, to, .. } = self;
        format!("[0x{address:08X}] 0x{from:0digits$X} -> 0x{to:0digits$X} ({place})")
    }
}
