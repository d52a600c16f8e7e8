//! `vbmodel disasm`: a ROM image to text that assembles to the same bytes.

use std::collections::BTreeSet;
use std::path::PathBuf;

use clap::Args;
use serde::Serialize;
use vb::{op, Decoded};

use super::Report;
use crate::failure::Failure;
use crate::files::Input;
use crate::inputs::number;
use crate::programs::disassembly::{disassemble, written};

#[derive(Args)]
#[command(after_help = "Example: the demo's first instructions, and what is run from reset
  vbmodel demo
  vbmodel disasm out/rom.bin --count 6
  vbmodel disasm out/rom.bin --from 0xFFFFFFF0 --count 3

Each line has its address and halfwords in a comment. A branch or jump to an instruction of the text has a label.
Halfwords that are no instruction, that have unused bits set or that are not modelled are `.half`, with what they are
in the comment, so that `vbmodel asm` makes the same bytes of the text. Data is listed as instructions too: a ROM does not
say which is which.
Exit status: 0 done; 2 bad input.")]
pub struct Options {
    /// The ROM image; - is standard input
    #[arg(value_name = "ROM")]
    rom: PathBuf,
    /// The address of the first instruction, by whatever mirror of ROM
    #[arg(long, value_name = "ADDR", default_value = "0x07000000", value_parser = number::word)]
    from: u32,
    /// At most this many instructions; all up to the ROM's end without it
    #[arg(long, value_name = "N", value_parser = number::whole)]
    count: Option<u64>,
    /// Print JSON
    #[arg(long)]
    pub json: bool,
}

/// An instruction or data; its members are those of the JSON.
#[derive(Serialize)]
struct Row {
    address: u32,
    halfwords: Vec<u16>,
    text: String,
    /// What halfwords are that are printed as data.
    note: Option<String>,
    /// Where a branch or jump leads.
    target: Option<u32>,
    label: Option<String>,
}

fn label(address: u32) -> String {
    format!("at_{address:08X}")
}

pub fn run(options: &Options) -> Result<Report, Failure> {
    let input = Input::read(&options.rom, "a ROM image")?;
    let bad = |what: String| Failure::bad(input.wrong(what));
    let length = input.bytes.len();
    if length == 0 || !length.is_multiple_of(2) || length > 16_777_216 {
        return Err(bad(
            "an image has whole halfwords, at least one and at most 16,777,216 bytes".to_string()
        ));
    }
    let from = options.from;
    if !from.is_multiple_of(2) || from & 0x0700_0000 != 0x0700_0000 {
        return Err(bad(format!(
            "0x{from:08X} is not an even address of ROM, 0x07000000 to 0x07FFFFFF and mirrors"
        )));
    }
    let start = (from & 0x00FF_FFFF) as usize % length;
    let halves: Vec<u16> =
        input.bytes[start..].chunks(2).map(|b| u16::from_le_bytes([b[0], b[1]])).collect();
    let rows = rows(from, &halves, options.count.unwrap_or(u64::MAX));
    let text = text(from, &rows);
    Ok(Report::new(text, &rows, 0))
}

fn rows(from: u32, halves: &[u16], count: u64) -> Vec<Row> {
    let mut rows = Vec::new();
    let mut at = 0;
    while at < halves.len() && (rows.len() as u64) < count {
        let row = row(from.wrapping_add(2 * at as u32), &halves[at..]);
        at += row.halfwords.len();
        rows.push(row);
    }
    let starts: BTreeSet<u32> = rows.iter().map(|row| row.address).collect();
    let reached: BTreeSet<u32> = rows.iter().filter_map(|row| row.target).collect();
    for row in &mut rows {
        if reached.contains(&row.address) {
            row.label = Some(label(row.address));
        }
        if let Some(target) = row.target.filter(|target| starts.contains(target)) {
            row.text = row.text.replace(&format!("0x{target:08X}"), &label(target));
        }
    }
    rows
}

/// The instruction that the halfwords begin with, or data.
fn row(address: u32, halves: &[u16]) -> Row {
    let (first, second) = (halves[0], halves.get(1).copied());
    let data = |count: u32, note: String| {
        let halfwords = halves[..halves.len().min(count as usize)].to_vec();
        let numbers: Vec<String> = halfwords.iter().map(|half| format!("0x{half:04X}")).collect();
        let text = format!(".half {}", numbers.join(", "));
        Row { address, halfwords, text, note: Some(note), target: None, label: None }
    };
    let line = disassemble(address, first, second.unwrap_or(0));
    let (instruction, halfwords) = match vb::decode(first, second.unwrap_or(0)) {
        Decoded::Instruction { instruction, halfwords } => (instruction, halfwords),
        Decoded::Illegal { halfwords } => return data(halfwords, "illegal".to_string()),
        Decoded::NotModelled => return data(line.halves, format!("{}, not modelled", line.text)),
    };
    if halfwords == 2 && second.is_none() {
        return data(1, "cut off".to_string());
    }
    let nop = instruction.operation == op::BCOND && instruction.condition == 13;
    if nop && instruction.immediate != 0 {
        return data(1, "NOP with an offset".to_string());
    }
    let again = vb::encode(instruction).map(|encoded| encoded.iter().collect::<Vec<_>>());
    if again.as_deref() != Ok(&halves[..halfwords as usize]) {
        return data(halfwords, format!("{}, unused bits set", line.text));
    }
    let leads = matches!(instruction.operation, op::BCOND | op::JR | op::JAL) && !nop;
    let target = leads.then(|| address.wrapping_add(instruction.immediate));
    let text = written(&instruction, address, &|target| format!("0x{target:08X}"));
    let halfwords = halves[..halfwords as usize].to_vec();
    Row { address, halfwords, text, note: None, target, label: None }
}

/// The text, in which a line begins with the first byte's address.
fn text(from: u32, rows: &[Row]) -> String {
    let mut text = format!("    .origin 0x{from:08X}\n");
    for row in rows {
        if let Some(label) = &row.label {
            text += &format!("{label}:\n");
        }
        let halves: Vec<String> = row.halfwords.iter().map(|half| format!("{half:04X}")).collect();
        let head = format!("    {:<28} ; 0x{:08X}  {}", row.text, row.address, halves.join(" "));
        text += match &row.note {
            Some(note) => format!("{head:<58} {note}\n"),
            None => format!("{head}\n"),
        }
        .as_str();
    }
    text
}
