//! `vbmodel demo`: a small program for the console, run from reset; both frames drawn and written.

use std::path::{Path, PathBuf};
use std::time::Instant;

use clap::Args;
use vb::{grouped, Answer, Machine, Memories, Refusal, Stop, VRAM_LENGTH, WRAM_LENGTH};

use super::Report;
use crate::demo::rom;
use crate::failure::Failure;
use crate::files::{shown, Outputs};
use crate::inputs::number;
use crate::pictures::views::{Layout, Views};
use crate::reports::invocation;

/// More instructions than a frame of the demo takes.
const BUDGET: u64 = 5_000_000;

/// The VIP's request line.
const VIP: u16 = 1 << 4;

/// The files of memories and records.
const NAMES: [&str; 5] = ["rom.bin", "wram.bin", "vram.bin", "processor.bin", "drawing.bin"];
const WOKEN: &str =
    "  between them the bench raises the VIP's line: the interrupt 0xFE40 wakes the halted processor";

#[derive(Args)]
#[command(after_help = "Example: the pictures in a folder of your choice, three times as large
  vbmodel demo --out pictures --scale 3

Example: a wafer of 24 dies to judge by a test plan
  vbmodel demo --lot demo-lot
  vbmodel judge --plan demo-lot/plan.toml demo-lot/parts --html report.html

Exit status: 0 drawn and written; 2 where the folder cannot be written.")]
pub struct Options {
    /// The folder for pictures, memories and records
    #[arg(long, value_name = "FOLDER", default_value = "out")]
    out: PathBuf,
    /// Enlarge each pixel N times, 1 to 16
    #[arg(long, value_name = "N", default_value = "2", value_parser = number::scale)]
    scale: usize,
    /// Write a test plan and captures and traces of 24 dies on a wafer to this folder instead
    #[arg(long, value_name = "FOLDER", conflicts_with_all = ["out", "scale"])]
    lot: Option<PathBuf>,
}

pub fn run(options: &Options) -> Result<Report, Failure> {
    match &options.lot {
        Some(folder) => lot(folder),
        None => pictures(options),
    }
}

/// A lot to try a plan on.
fn lot(folder: &Path) -> Result<Report, Failure> {
    let (plan, parts) = crate::demo::lot::write(folder)?;
    let [plan, parts] = [&plan, &parts].map(|path| shown(path));
    let lines = [
        format!("a test plan: {plan}"),
        format!("captures and traces of 24 dies on a wafer: {parts}"),
        format!(
            "next: {} judge --plan {} {} --html report.html",
            invocation::name(),
            invocation::quoted(&plan),
            invocation::quoted(&parts)
        ),
    ];
    Ok(Report::new(lines.join("\n") + "\n", &(), 0))
}

fn pictures(options: &Options) -> Result<Report, Failure> {
    let begun = Instant::now();
    let rom = rom().map_err(Failure::bad)?;
    let (mut wram, mut vram) = (vec![0; WRAM_LENGTH], vec![0; VRAM_LENGTH]);
    let mut machine = Machine::reset();
    let mut outputs = Outputs::default();
    let length = grouped(rom.len() as u64);
    let mut lines =
        vec![format!("ran the demo's program from reset, out of a ROM of {length} bytes")];
    for frame in 0..2 {
        let mut memories = Memories { rom: &rom, wram: &mut wram, vram: &mut vram, pak: &mut [] };
        let waits = if frame == 0 { 0 } else { interrupt(&mut machine, &mut memories)? };
        let count = waits + to_halt(&mut machine, &mut memories)?;
        machine.drawing.draw_frame(&mut vram, frame).map_err(refused)?;
        for (name, png) in Views::of(&vram, frame).files(frame, Layout::All, options.scale) {
            outputs.add_in(&options.out, name, png);
        }
        lines.push(format!(
            "  frame {frame}: {:>9} instructions to HALT at 0x{:08X}, then drawn for both eyes",
            grouped(count),
            machine.processor.pc - 2
        ));
    }
    lines.push(WOKEN.to_string());
    let (processor, drawing) = (machine.processor.to_bytes(), machine.drawing.to_bytes());
    for (name, bytes) in NAMES.into_iter().zip([rom, wram, vram, processor, drawing]) {
        outputs.add_in(&options.out, name, bytes);
    }
    outputs.write()?;
    lines.extend(where_they_are(&options.out));
    lines.push(format!("took {} ms", begun.elapsed().as_millis()));
    Ok(Report::new(lines.join("\n") + "\n", &(), 0))
}

/// The VIP's interrupt, which ends the HALT: its line is raised until the processor has accepted it. On the console the
/// handler's write to INTCLR would take it back.
pub fn interrupt(machine: &mut Machine, memories: &mut Memories) -> Result<u64, Failure> {
    machine.processor.hardware.lines |= VIP;
    let answer = machine.step(memories).map_err(refused)?;
    machine.processor.hardware.lines &= !VIP;
    match answer {
        Answer::Interrupted(4) => Ok(1),
        answer => Err(Failure::bad(format!("the demo's program did not wait: {answer:?}"))),
    }
}

/// Runs to the next HALT.
pub fn to_halt(machine: &mut Machine, memories: &mut Memories) -> Result<u64, Failure> {
    let ran = machine.run(memories, BUDGET).map_err(refused)?;
    match ran.stop {
        Stop::Halted => Ok(ran.count),
        stop => Err(Failure::bad(format!("the demo's program did not halt: {stop:?}"))),
    }
}

fn refused(refusal: Refusal) -> Failure {
    Failure::refused(&refusal, refusal.to_string())
}

fn where_they_are(out: &Path) -> Vec<String> {
    let at = |name: &str| shown(&out.join(name));
    let row = |what: &str, view: &str| {
        let (first, second) = (format!("frame0-{view}.png"), format!("frame1-{view}.png"));
        format!("  {what:<13} {:<32} {}", at(&first), at(&second))
    };
    vec![
        "pictures".to_string(),
        row("left eye", "left"),
        row("right eye", "right"),
        row("side by side", "side-by-side"),
        row("red/cyan", "anaglyph"),
        format!("memories and records after frame 1: {}", at("*.bin")),
        format!(
            "next: {} why left 192 120 --vram {} --drawing {}",
            invocation::name(),
            invocation::quoted(&at("vram.bin")),
            invocation::quoted(&at("drawing.bin"))
        ),
    ]
}
