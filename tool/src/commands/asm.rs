//! `vbmodel asm`: a program in text to a ROM image.

use std::path::{Path, PathBuf};

use clap::Args;
use serde::Serialize;
use vb::grouped;

use super::Report;
use crate::failure::Failure;
use crate::files::{shown, Input, Outputs};
use crate::programs::assembler::{assemble, Source};

#[derive(Args)]
#[command(
    after_help = "Example: a program of 1,024 bytes that counts to ten, and is run from reset
  printf '    MOV 10, r1\\nagain: ADD -1, r1\\n    BNZ again\\n    HALT\\n    .org 0x070003F0\\n    JR 0x07000000\\n    .org 0x07000400\\n' > count.s
  vbmodel asm count.s -o count.rom
  vbmodel run --rom count.rom

A line has labels (`name:`), an instruction in the Scroll's notation (destination on the right, `disp[reg]` for
memory) or a directive, and a comment after `;`. A number is decimal or, after 0x, hexadecimal. An expression has numbers,
names, `*` for the line's address, parentheses, and C's operators in C's order: - + ~, then * /, + -, << >>, &, ^, |.
  .origin ADDR     the first byte's address, before all bytes; 0x07000000 without it
  .equ NAME, N     a constant          .byte N, .. .half N, .. .word N, ..
  .space N         N zeros             .align N, .org ADDR        zeros up to there
  LI N, REG        MOVHI and MOVEA of a whole word
Every instruction, register and address: docs/CONSOLE.md (of the package: /usr/share/doc/vbmodel/docs/CONSOLE.md).
The halfwords are those of the proved encoder; what it refuses (refusal 12) is reported with its line.
Every mistake of the file is reported, a line each.
Exit status: 0 written; 2 bad input, and then nothing is written."
)]
pub struct Options {
    /// The program's text; - is standard input
    #[arg(value_name = "FILE")]
    file: PathBuf,
    /// Where to write the ROM image; - is standard output
    #[arg(short, long, value_name = "ROM")]
    output: PathBuf,
    /// Print JSON
    #[arg(long)]
    pub json: bool,
}

#[derive(Serialize)]
struct Written {
    rom: String,
    bytes: usize,
    /// Whether a machine accepts a ROM of this length.
    accepted: bool,
}

pub fn run(options: &Options) -> Result<Report, Failure> {
    let input = Input::read(&options.file, "a program's text")?;
    let name = input.name();
    let text = input.text()?;
    let source = Source { text, origin: 0x0700_0000, symbols: &[], bytes: &[] };
    let bytes = assemble(&source).map_err(|mistakes| {
        let lines = mistakes.lines().map(|one| format!("{name}: {one}"));
        Failure::bad(lines.collect::<Vec<_>>().join("\n"))
    })?;
    if bytes.is_empty() {
        return Err(Failure::bad(format!(
            "{name}: has no instruction and no data; nothing was written"
        )));
    }
    let length = bytes.len();
    let accepted = length.is_power_of_two() && (1_024..=16_777_216).contains(&length);
    let mut outputs = Outputs::default();
    outputs.add_main(&options.output, bytes);
    outputs.write()?;
    let written = Written { rom: shown(&options.output), bytes: length, accepted };
    let mut reported = format!("{}: {} bytes\n", written.rom, grouped(length as u64));
    if !accepted {
        reported +=
            "note: a ROM has a power of two bytes from 1,024 on; `.org` and `.space` fill one up\n";
    }
    let aside = options.output == Path::new("-");
    Ok(Report { aside, ..Report::new(reported, &written, 0) })
}
