//! How a run ended, as it is printed.

use serde::Serialize;
use vb::{grouped, Answer, Machine, Memories, Mode};

use crate::failure::Failure;
use crate::inputs::setup::Bench;
use crate::reports::json::Named;
use crate::running::follow::{End, Followed};

/// A trace that a run left.
#[derive(Clone, Serialize)]
pub struct Traced {
    pub file: String,
    pub records: u64,
    pub bytes: u64,
}

/// Mode and registers of a machine; its members are those of the JSON.
#[derive(Serialize)]
pub struct Registers {
    mode: String,
    pc: u32,
    regs: [u32; 32],
    system: Named<u32>,
    /// Request lines and timer.
    hardware: Named<u16>,
    drawing: Named<u16>,
}

impl Registers {
    pub fn of(machine: &Machine) -> Registers {
        let p = &machine.processor;
        let system = p.system().into_iter().skip(1).map(|(name, value)| (name.to_string(), value));
        let hardware = p.hardware.fields().map(|(name, value)| (name.to_string(), value));
        let drawing = machine.drawing.registers();
        let drawing = drawing.iter().map(|(name, value, _)| (name.to_lowercase(), *value));
        Registers {
            mode: p.mode.to_string(),
            pc: p.pc,
            regs: p.regs,
            system: Named(system.collect()),
            hardware: Named(hardware.to_vec()),
            drawing: Named(drawing.collect()),
        }
    }

    pub fn lines(&self) -> Vec<String> {
        let mut lines = vec![format!("mode:         {}", self.mode)];
        let mut named = vec![format!("pc    0x{:08X}", self.pc)];
        named.extend(self.system.0.iter().map(|(name, value)| format!("{name:<5} 0x{value:08X}")));
        lines.extend(named.chunks(4).map(|row| row.join("  ")));
        let general = self.regs.iter().enumerate();
        let general: Vec<String> =
            general.map(|(i, r)| format!("{:<5} 0x{r:08X}", format!("r{i}"))).collect();
        lines.extend(general.chunks(4).map(|row| row.join("  ")));
        let timer = self.hardware.0.iter().map(|(name, value)| format!("{name:<7} 0x{value:04X}"));
        lines.push(timer.collect::<Vec<_>>().join("   "));
        lines
    }
}

/// What is reported of a run; its members are those of the JSON.
#[derive(Serialize)]
pub struct Outcome {
    /// What was done to the files before the run.
    #[serde(skip_serializing_if = "Vec::is_empty")]
    notes: Vec<String>,
    answer: &'static str,
    #[serde(skip)]
    sentence: String,
    count: u64,
    budget: u64,
    #[serde(skip_serializing_if = "Option::is_none")]
    exception: Option<u32>,
    #[serde(skip_serializing_if = "Option::is_none")]
    refusal: Option<u32>,
    #[serde(skip_serializing_if = "Option::is_none")]
    error: Option<String>,
    #[serde(flatten)]
    registers: Registers,
    written: Vec<String>,
    /// A trace that was recorded.
    #[serde(skip_serializing_if = "Option::is_none")]
    pub trace: Option<Traced>,
    /// What is not in the last file written, where that is a saved state.
    #[serde(skip_serializing_if = "Option::is_none")]
    pub not_stored: Option<&'static str>,
}

impl Outcome {
    pub fn of(
        bench: &Bench,
        ended: &Followed,
        budget: u64,
        written: Vec<String>,
        was_fatal: bool,
        failure: Option<Failure>,
    ) -> Outcome {
        let exception = if ended.end == End::Fatal { fatal_code(bench) } else { None };
        let pc = bench.machine.processor.pc;
        let (answer, sentence) = sentence(ended, exception, pc, was_fatal);
        let refused = matches!(ended.end, End::NotModelled(_));
        Outcome {
            notes: bench.notes.clone(),
            answer,
            count: ended.count,
            budget,
            exception,
            refusal: refused.then_some(6),
            error: failure.map(|f| f.message).or_else(|| refused.then(|| sentence.clone())),
            sentence,
            registers: Registers::of(&bench.machine),
            written,
            trace: None,
            not_stored: None,
        }
    }

    pub fn text(&self) -> String {
        let mut lines: Vec<String> =
            self.notes.iter().map(|note| format!("note:         {note}")).collect();
        lines.extend([
            format!("answer:       {}: {}", self.answer, self.sentence),
            format!("instructions: {} of at most {}", grouped(self.count), grouped(self.budget)),
        ]);
        lines.extend(self.registers.lines());
        lines.extend(self.trace.iter().map(|Traced { file, records, bytes }| {
            let [records, bytes] = [records, bytes].map(|number| grouped(*number));
            format!("written:      {file} ({records} records, {bytes} bytes)")
        }));
        lines.extend(self.written.iter().map(|path| format!("written:      {path}")));
        let not_stored = self.not_stored.map(|what| format!(" ({what})")).unwrap_or_default();
        lines.join("\n") + &not_stored + "\n"
    }
}

/// How a run ended, by name and in words.
fn sentence(
    ended: &Followed,
    exception: Option<u32>,
    pc: u32,
    was_fatal: bool,
) -> (&'static str, String) {
    match &ended.end {
        End::Interrupted => {
            ("interrupted", "it was stopped by a signal; the machine could go on".to_string())
        }
        End::Budget | End::Enough => {
            ("budget", "the budget is used up; the machine could go on".to_string())
        }
        End::Halted => ("halted", "the processor is halted".to_string()),
        End::Fatal => ("fatal", fatal_sentence(exception, pc, was_fatal)),
        End::NotModelled(refusal) => ("refused", refusal.to_string()),
        End::Reached(address) => {
            ("reached", format!("the next instruction is at 0x{address:08X}, as asked"))
        }
        End::Watched(address) => ("watched", format!("0x{address:08X} was written, as asked")),
        End::Undefined(read) => ("undefined", read.clone()),
    }
}

/// The code of the exception that turned the machine fatal: a machine set running again would meet it at once. It is
/// tried on a copy.
fn fatal_code(bench: &Bench) -> Option<u32> {
    let mut machine = bench.machine;
    machine.processor.mode = Mode::Running;
    let (mut wram, mut vram, mut pak) = (bench.wram.clone(), bench.vram.clone(), bench.pak.clone());
    let mut memories =
        Memories { rom: &bench.rom, wram: &mut wram, vram: &mut vram, pak: &mut pak };
    match machine.step(&mut memories) {
        Ok(Answer::TurnedFatal(cause)) => Some(cause.code()),
        _ => None,
    }
}

fn fatal_sentence(code: Option<u32>, pc: u32, was_fatal: bool) -> String {
    match code {
        _ if was_fatal => format!("the processor was fatal before the run, at 0x{pc:08X}"),
        Some(code) => format!(
            "{} (exception 0x{code:04X}) at 0x{pc:08X} while NP was set",
            exception_name(code)
        ),
        None => format!("the processor met a fatal exception at 0x{pc:08X}"),
    }
}

/// Document 000's name of an exception, by its code.
pub fn exception_name(code: u32) -> String {
    match code {
        0xFE00 => "game pad interrupt".to_string(),
        0xFE10 => "timer interrupt".to_string(),
        0xFE20 => "game pak interrupt".to_string(),
        0xFE30 => "communication interrupt".to_string(),
        0xFE40 => "VIP interrupt".to_string(),
        0xFF60 => "floating-point reserved operand".to_string(),
        0xFF64 => "floating-point overflow".to_string(),
        0xFF68 => "floating-point zero division".to_string(),
        0xFF70 => "floating-point invalid operation".to_string(),
        0xFF80 => "zero division".to_string(),
        0xFF90 => "illegal instruction".to_string(),
        0xFFA0..=0xFFBF => format!("TRAP {}", code - 0xFFA0),
        _ => "an exception".to_string(),
    }
}
