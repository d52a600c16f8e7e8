//! Changes to a machine before it runs: registers, bytes at an address, and a ROM made long enough.

use std::path::{Path, PathBuf};

use clap::{Args, ValueEnum};
use model::bus::{place_of, Place};
use vb::{grouped, Drawing, Machine, Refusal};

use crate::failure::Failure;
use crate::files::Input;
use crate::inputs::number;
use crate::inputs::setup::Bench;

/// The shortest and the longest ROM.
const LENGTHS: (usize, usize) = (1_024, 1 << 24);

#[derive(Args)]
pub struct Changes {
    /// The address of the first instruction
    #[arg(long, value_name = "ADDR", value_parser = number::word)]
    pub pc: Option<u32>,
    /// A register's value: r0 to r31, psw, eipc and so on, spt0, gplt0, jplt0, bkcol, lines, count, reload, control; may
    /// be given again
    #[arg(long, value_name = "NAME=VALUE", value_parser = assignment)]
    pub set: Vec<(String, u32)>,
    /// A file's bytes in memory from an address on, ROM too; may be given again
    #[arg(long, value_name = "ADDR=FILE", value_parser = placed)]
    pub load: Vec<(u32, PathBuf)>,
    /// Make the ROM's length a power of two with zeros, after its bytes or before them
    #[arg(long, value_name = "SIDE", num_args = 0..=1, require_equals = true, default_missing_value = "end")]
    pub pad: Option<Side>,
}

#[derive(Clone, Copy, PartialEq, Eq, ValueEnum)]
pub enum Side {
    /// The ROM's bytes keep their addresses from 0x07000000 on
    End,
    /// The ROM's bytes keep their addresses up to 0xFFFFFFFF, where a reset begins
    Front,
}

/// `r1=0x10`
pub fn assignment(text: &str) -> Result<(String, u32), String> {
    let (name, value) = text.split_once('=').ok_or(format!("`{text}` is not NAME=VALUE"))?;
    Ok((name.to_lowercase(), number::register(value)?))
}

/// `0x05000000=file`
pub fn placed(text: &str) -> Result<(u32, PathBuf), String> {
    let (address, file) = text.split_once('=').ok_or(format!("`{text}` is not ADDR=FILE"))?;
    Ok((number::word(address)?, PathBuf::from(file)))
}

impl Changes {
    pub fn make(&self, bench: &mut Bench) -> Result<(), Failure> {
        if let Some(side) = self.pad {
            pad(bench, side);
        }
        for (address, path) in &self.load {
            load(bench, *address, path)?;
        }
        for (name, value) in &self.set {
            set(&mut bench.machine, name, *value)?;
        }
        if let Some(pc) = self.pc {
            bench.machine.processor.pc = pc;
        }
        Ok(())
    }
}

fn pad(bench: &mut Bench, side: Side) {
    let length = bench.rom.len();
    let wanted = length.next_power_of_two().max(LENGTHS.0);
    if wanted == length || wanted > LENGTHS.1 {
        return;
    }
    let zeros = vec![0; wanted - length];
    let place = if side == Side::End { "after" } else { "before" };
    bench.rom = match side {
        Side::End => [bench.rom.as_slice(), &zeros].concat(),
        Side::Front => [&zeros, bench.rom.as_slice()].concat(),
    };
    bench.notes.push(format!(
        "the ROM of {} bytes was padded to {}, with {} zeros {place} it",
        grouped(length as u64),
        grouped(wanted as u64),
        grouped((wanted - length) as u64)
    ));
}

fn load(bench: &mut Bench, first: u32, path: &Path) -> Result<(), Failure> {
    let file = Input::read(path, "bytes to load")?;
    if !bench.rom.len().is_power_of_two() {
        let refusal = Refusal::RomLength { given: bench.rom.len() };
        return Err(bench.failure(&refusal));
    }
    let mut last = None;
    for (n, &byte) in file.bytes.iter().enumerate() {
        let address = first.wrapping_add(n as u32);
        let (memory, at, bytes) = match place_of(address, bench.rom.len(), bench.pak.len()) {
            Place::Vram(at) => ("VRAM", at, &mut bench.vram),
            Place::Wram(at) => ("WRAM", at, &mut bench.wram),
            Place::Pak(Some(at)) => ("pak RAM", at, &mut bench.pak),
            Place::Rom(at) => ("ROM", at, &mut bench.rom),
            _ => ("", 0, &mut Vec::new()),
        };
        // a mirror would begin again: what comes next lies further on in the same memory
        let end = last.filter(|&(before, place)| before != memory || at <= place);
        let wrong = match (end, bytes.get_mut(at)) {
            (Some((before, _)), _) => format!(
                "loaded at 0x{first:08X}, it passes the end of {before}; at most {} bytes fit there",
                grouped(n as u64)
            ),
            (None, None) => format!(
                "byte {n} would lie at 0x{address:08X}, which is not memory; it must be VRAM, WRAM, pak RAM or ROM"
            ),
            (None, Some(place)) => {
                *place = byte;
                last = Some((memory, at));
                continue;
            }
        };
        return Err(Failure::bad(file.wrong(wrong)));
    }
    let (name, count) = (file.name(), grouped(file.bytes.len() as u64));
    bench.notes.push(format!("{name}, {count} bytes, was loaded at 0x{first:08X}"));
    bench.note_file(file);
    Ok(())
}

/// The registers that `set` knows.
const KNOWN: &str =
    "r0 to r31, pc, eipc, eipsw, fepc, fepsw, ecr, psw, sr25, sr29, sr31, spt0 to 3, gplt0 to 3, \
                     jplt0 to 3, bkcol, lines, count, reload and control";

/// Sets a register by its name.
fn set(machine: &mut Machine, name: &str, value: u32) -> Result<(), Failure> {
    let half = match name {
        "lines" => Some(&mut machine.processor.hardware.lines),
        "count" => Some(&mut machine.processor.hardware.count),
        "reload" => Some(&mut machine.processor.hardware.reload),
        "control" => Some(&mut machine.processor.hardware.control),
        _ => drawing_register(&mut machine.drawing, name),
    };
    if let Some(register) = half {
        *register = u16::try_from(value)
            .map_err(|_| Failure::bad(format!("{name}=0x{value:X}: it must be at most 0xFFFF")))?;
        return Ok(());
    }
    let processor = &mut machine.processor;
    let register = match name {
        "pc" => &mut processor.pc,
        "eipc" => &mut processor.eipc,
        "eipsw" => &mut processor.eipsw,
        "fepc" => &mut processor.fepc,
        "fepsw" => &mut processor.fepsw,
        "ecr" => &mut processor.ecr,
        "psw" => &mut processor.psw,
        "sr25" => &mut processor.sr25,
        "sr29" => &mut processor.sr29,
        "sr31" => &mut processor.sr31,
        _ => match numbered(name, "r", 32) {
            Some(n) => &mut processor.regs[n],
            None => {
                return Err(Failure::bad(format!(
                    "`{name}` is not a register; the registers are {KNOWN}"
                )))
            }
        },
    };
    *register = value;
    Ok(())
}

fn drawing_register<'a>(drawing: &'a mut Drawing, name: &str) -> Option<&'a mut u16> {
    if name == "bkcol" {
        return Some(&mut drawing.bkcol);
    }
    let four =
        [("spt", &mut drawing.spt), ("gplt", &mut drawing.gplt), ("jplt", &mut drawing.jplt)];
    four.into_iter().find_map(|(kind, all)| Some(&mut all[numbered(name, kind, 4)?]))
}

/// The number of a register of a kind.
fn numbered(name: &str, kind: &str, count: usize) -> Option<usize> {
    name.strip_prefix(kind)?.parse::<usize>().ok().filter(|n| *n < count)
}
