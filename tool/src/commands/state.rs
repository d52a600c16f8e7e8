//! `vbmodel state`: what a saved state holds, or which rule a file breaks and at which byte; a state moved to the other
//! form; what a damaged one still holds.

use std::path::{Path, PathBuf};

use clap::{Args, Subcommand};
use serde::Serialize;
use vb::grouped;

use super::Report;
use crate::failure::Failure;
use crate::files::{shown, Input, Outputs};
use crate::inputs::state::{
    moved, Body, Fault, Form, Layout, NoState, Saved, NOT_STORED, PAK, STATE,
};
use crate::reports::json::Named;

#[derive(Args)]
#[command(after_help = "Example: what does a run leave?
  vbmodel demo
  vbmodel run --rom out/rom.bin --budget 1_000 --save-state a.state
  vbmodel state show a.state

Exit status: 0 done; 1 state salvage: something was lost or repaired; 2 refused or bad input.")]
pub struct Options {
    #[command(subcommand)]
    action: Action,
}

#[derive(Subcommand)]
enum Action {
    /// Shows what a saved state holds, or which rule a file breaks and at which byte
    Show(Show),
    /// Writes a saved state in the other form
    Move(Move),
    /// Writes a valid state with what a damaged file of form 2 still holds
    Salvage(Salvage),
}

#[derive(Args)]
#[command(after_help = "Example: the state that a run leaves
  vbmodel demo
  vbmodel run --rom out/rom.bin --budget 1_000 --save-state a.state
  vbmodel state show a.state

It prints the count of bodies, kind, offset and length of each, the mode, PC, PSW and the drawing registers. A file that
is not a saved state breaks one of these rules, and the first that is broken is reported: its length (refusal 9); a byte before
the first body, with what it must be, a sum among them; a register that holds what it cannot hold, with its place
(refusal 10). Of form 2 it prints the request lines and the timer; form 1 does not store them: they come back at reset.
Exit status: 0 a saved state; 2 none, or bad input.")]
struct Show {
    /// The file; - is standard input
    #[arg(value_name = "FILE")]
    file: PathBuf,
    /// Print JSON
    #[arg(long)]
    json: bool,
}

#[derive(Args)]
#[command(after_help = "Example: a state for a tool that reads form 1 alone, and back
  vbmodel demo
  vbmodel run --rom out/rom.bin --budget 1_000 --save-state a.state
  vbmodel state move a.state -o form1.state
  vbmodel state move form1.state -o form2.state

Form 1 does not hold request lines and timer: a state of form 2 whose lines and timer are not at reset is refused (16).
From form 1 they come at reset.
Exit status: 0 moved; 2 refused or bad input, and then nothing is written.")]
struct Move {
    /// The file; - is standard input
    #[arg(value_name = "FILE")]
    file: PathBuf,
    /// Where to write it in the other form; - is standard output
    #[arg(short, long, value_name = "FILE")]
    out: PathBuf,
    /// Print JSON
    #[arg(long)]
    json: bool,
}

#[derive(Args)]
#[command(after_help = "Example: a file with one damaged byte
  vbmodel demo
  vbmodel run --rom out/rom.bin --budget 1_000 --save-state a.state
  printf 'x' | dd of=a.state bs=1 seek=300 conv=notrunc
  vbmodel state salvage a.state -o b.state

The length of the file says where each body is. A body is kept where its stored sum is right and an accepted machine can
have it; every other becomes reset values, memories zeros. The contents are rebuilt.
A file of 327,962 bytes may be a sound one of form 1 with 32 bytes of pak RAM: it is salvaged as form 2 only with --force.
Exit status: 0 undamaged, and the output is the file; 1 repaired; 2 refused or bad input, and then nothing is written.")]
struct Salvage {
    /// The file; - is standard input
    #[arg(value_name = "FILE")]
    file: PathBuf,
    /// Where to write the repaired state; - is standard output
    #[arg(short, long, value_name = "FILE")]
    out: PathBuf,
    /// Salvage a sound file of form 1 as form 2 without pak RAM, which loses what it holds
    #[arg(long)]
    force: bool,
    /// Print JSON
    #[arg(long)]
    json: bool,
}

impl Options {
    pub fn json(&self) -> bool {
        match &self.action {
            Action::Show(show) => show.json,
            Action::Move(moves) => moves.json,
            Action::Salvage(salvage) => salvage.json,
        }
    }
}

pub fn run(options: &Options) -> Result<Report, Failure> {
    match &options.action {
        Action::Show(show) => self::show(show),
        Action::Move(moves) => self::moves(moves),
        Action::Salvage(salvage) => self::salvage(salvage),
    }
}

fn show(options: &Show) -> Result<Report, Failure> {
    let input = Input::read(&options.file, STATE)?;
    Ok(match Saved::of(&input) {
        Ok(saved) => {
            let reported = Reported::of(&input, &saved);
            Report::new(reported.text(), &reported, 0)
        }
        Err(wrong) => refused(&input, wrong),
    })
}

/// Writes one file and reports it, on standard error where standard output has the file.
fn written(path: &Path, bytes: Vec<u8>, report: Report) -> Result<Report, Failure> {
    let mut outputs = Outputs::default();
    outputs.add_main(path, bytes);
    outputs.write()?;
    Ok(Report { aside: path == Path::new("-"), ..report })
}

/// What is reported of a move.
#[derive(Serialize)]
struct Moved {
    file: String,
    from: u16,
    to: u16,
    bytes: usize,
    written: String,
}

fn moves(options: &Move) -> Result<Report, Failure> {
    let input = Input::read(&options.file, STATE)?;
    let (form, bytes) = moved(&input)?;
    let reported = Moved {
        file: input.name(),
        from: form.other().number(),
        to: form.number(),
        bytes: bytes.len(),
        written: shown(&options.out),
    };
    let Moved { file, from, to, written: out, .. } = &reported;
    let length = grouped(bytes.len() as u64);
    let text =
        format!("{file}: moved from form {from} to form {to}\nwritten: {out} ({length} bytes)\n");
    written(&options.out, bytes, Report::new(text, &reported, 0))
}

/// What is reported of a salvage.
#[derive(Serialize)]
struct Salvaged {
    file: String,
    undamaged: bool,
    /// The bodies that were lost, and those that were kept.
    lost: Vec<Body>,
    kept: Vec<Body>,
    contents_repaired: bool,
    /// What the salvage cannot know.
    #[serde(skip_serializing_if = "Option::is_none")]
    warning: Option<&'static str>,
    written: String,
}

/// A sum of zero is the sum of a body of zeros.
const BLANK: &str = "the file is all zeros: each body counts as kept because its sum is right, but nothing here can \
                     be distinguished from a blank file";

const SALVAGED: &str = "a saved state of form 2";

fn salvage(options: &Salvage) -> Result<Report, Failure> {
    let input = Input::read(&options.file, SALVAGED)?;
    let file = &input.bytes;
    if !options.force && is_sound_form_1(file) {
        return Err(Failure::bad(input.wrong(
            "it is a sound saved state of form 1 with 32 bytes of pak RAM, and would be taken for a damaged one of form 2; \
             `vbmodel state move` brings it to form 2, and --force salvages it all the same",
        )));
    }
    let mut output = vec![0; file.len()];
    let found = vb::salvage_state(file, &mut output);
    let found = found.map_err(|refusal| Failure::refused(&refusal, input.wrong(&refusal)))?;
    let layout = Layout::of_length(Form::Two, file.len()).expect("the library has salvaged it");
    let (lost, kept) =
        layout.bodies.iter().partition(|body| found.replaced.contains(&u32::from(body.kind)));
    let reported = Salvaged {
        file: input.name(),
        undamaged: found.replaced.is_empty() && !found.contents_differ,
        lost,
        kept,
        contents_repaired: found.contents_differ,
        warning: file.iter().all(|&byte| byte == 0).then_some(BLANK),
        written: shown(&options.out),
    };
    let status = i32::from(!reported.undamaged);
    written(&options.out, output, Report::new(reported.text(), &reported, status))
}

/// Whether a file of the one length that both forms have is right as form 1.
fn is_sound_form_1(file: &[u8]) -> bool {
    let (one, two) =
        (Layout::of_length(Form::One, file.len()), Layout::of_length(Form::Two, file.len()));
    let (Some(one), Some(_), Form::One) = (one, two, Form::of(file)) else { return false };
    let pak = one.body(PAK).map_or(0, |body| body.length);
    let mut output = vec![0; Layout::of(Form::Two, pak).length()];
    vb::move_state(file, &mut output).is_ok()
}

impl Salvaged {
    fn text(&self) -> String {
        let Salvaged { file, written, .. } = self;
        let mut lines = vec![match self.undamaged {
            true => format!("{file}: undamaged"),
            false => format!("{file}: damaged, and repaired as far as it could be"),
        }];
        let row = |what: &str, body: &Body| format!("{what:<13} kind {}, {}", body.kind, body.name);
        lines.extend(self.lost.iter().map(|body| {
            let reset = if (3..=5).contains(&body.kind) { "zeros" } else { "reset values" };
            format!("{}: now {reset}", row("lost:", body))
        }));
        lines.extend(self.kept.iter().map(|body| row("kept:", body)));
        if self.contents_repaired {
            lines.push("contents:     damaged, and rebuilt".to_string());
        }
        lines.extend(self.warning.map(|warning| format!("warning:      {warning}")));
        lines.push(format!("written:      {written}"));
        lines.join("\n") + "\n"
    }
}

/// What is reported of a saved state; its members are those of the JSON.
#[derive(Serialize)]
struct Reported {
    file: String,
    sound: bool,
    bytes: usize,
    form: u16,
    count: usize,
    bodies: Vec<Body>,
    mode: String,
    pc: u32,
    psw: u32,
    drawing: Named<u16>,
    /// Request lines and timer, where the form holds them.
    #[serde(skip_serializing_if = "Option::is_none")]
    hardware: Option<Named<u16>>,
    #[serde(skip_serializing_if = "Option::is_none")]
    not_stored: Option<&'static str>,
}

impl Reported {
    fn of(input: &Input, saved: &Saved) -> Reported {
        let Saved { layout, machine, .. } = saved;
        let drawing = machine.drawing.registers();
        let drawing = drawing.iter().map(|(name, value, _)| (name.to_lowercase(), *value));
        Reported {
            file: input.name(),
            sound: true,
            bytes: input.bytes.len(),
            form: layout.form.number(),
            count: layout.bodies.len(),
            bodies: layout.bodies.clone(),
            mode: machine.processor.mode.to_string(),
            pc: machine.processor.pc,
            psw: machine.processor.psw,
            drawing: Named(drawing.collect()),
            hardware: (layout.form == Form::Two).then(|| {
                let fields = machine.processor.hardware.fields();
                Named(fields.map(|(name, value)| (name.to_string(), value)).to_vec())
            }),
            not_stored: (layout.form == Form::One).then_some(NOT_STORED),
        }
    }

    fn text(&self) -> String {
        let Reported { file, form, mode, pc, psw, .. } = self;
        let bytes = grouped(self.bytes as u64);
        let mut lines = vec![
            format!("{file}: a saved state of form {form}, {bytes} bytes"),
            format!("bodies:       {}", self.count),
        ];
        lines.extend(self.bodies.iter().map(|Body { kind, name, offset, length }| {
            let [offset, length] = [offset, length].map(|number| grouped(*number as u64));
            format!("  kind {kind}  offset {offset:>10}  length {length:>10}  {name}")
        }));
        lines.push(format!("mode:         {mode}"));
        lines.push(format!("pc    0x{pc:08X}  psw   0x{psw:08X}"));
        let named = self.drawing.0.iter();
        let named: Vec<String> =
            named.map(|(name, value)| format!("{name:<5} 0x{value:04X}")).collect();
        lines.extend(named.chunks(4).map(|row| row.join("  ")));
        lines.extend(self.hardware.iter().map(|Named(fields)| {
            let fields = fields.iter().map(|(name, value)| format!("{name:<7} 0x{value:04X}"));
            fields.collect::<Vec<_>>().join("   ")
        }));
        lines.extend(self.not_stored.map(|what| format!("note:         {what}")));
        lines.join("\n") + "\n"
    }
}

/// What is reported of a file that is not a saved state.
#[derive(Serialize)]
struct Refused {
    file: String,
    sound: bool,
    bytes: usize,
    #[serde(flatten)]
    failure: Failure,
    /// Length, contents or register.
    #[serde(skip_serializing_if = "Option::is_none")]
    rule: Option<&'static str>,
    /// The first wrong byte of the contents, or the register's first.
    #[serde(skip_serializing_if = "Option::is_none")]
    byte: Option<usize>,
    #[serde(skip_serializing_if = "Option::is_none")]
    register: Option<String>,
    #[serde(skip_serializing_if = "Option::is_none")]
    expected: Option<u8>,
    #[serde(skip_serializing_if = "Option::is_none")]
    found: Option<u32>,
}

fn refused(input: &Input, wrong: NoState) -> Report {
    let NoState { failure, fault } = wrong;
    let (rule, register, expected, found) = match &fault {
        None => (None, None, None, None),
        Some(Fault::Length | Fault::Form { .. }) => (Some("length"), None, None, None),
        Some(Fault::Contents { expected, found, .. }) => {
            (Some("contents"), None, Some(*expected), Some(u32::from(*found)))
        }
        Some(Fault::Register { name, found, .. }) => {
            (Some("register"), Some(name.clone()), None, Some(*found))
        }
    };
    let reported = Refused {
        file: input.name(),
        sound: false,
        bytes: input.bytes.len(),
        failure: failure.clone(),
        rule,
        byte: fault.as_ref().and_then(Fault::byte),
        register,
        expected,
        found,
    };
    Report { failure: Some(failure), ..Report::new(String::new(), &reported, 2) }
}
