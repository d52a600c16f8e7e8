//! A machine from files: memories and records in, and those that are asked for out again.

use std::path::{Path, PathBuf};

use clap::Args;
use vb::{Machine, Memories, Processor, ReadMemories, Refusal, VRAM_LENGTH, WRAM_LENGTH};

use crate::failure::Failure;
use crate::files::{FileRead, Input, Outputs};
use crate::inputs::changes::Changes;
use crate::inputs::requests::Requests;
use crate::inputs::scene::{drawing_of, DRAWING, VRAM};
use crate::inputs::state::{written, Form, Saved, NOT_STORED, STATE};

const ROM: &str = "a ROM of a power of two from 1,024 to 16,777,216 bytes";
const WRAM: &str = "WRAM of 65,536 bytes";
const PAK: &str = "pak RAM of a power of two up to 16,777,216 bytes";
const PROCESSOR: &str = "a processor record of 180 bytes, or of its first 172";

#[derive(Args)]
pub struct Setup {
    /// ROM, a power of two from 1,024 to 16,777,216 bytes; - is standard input
    #[arg(long, value_name = "FILE")]
    pub rom: PathBuf,
    /// WRAM, 65,536 bytes [default: zeros]
    #[arg(long, value_name = "FILE")]
    pub wram: Option<PathBuf>,
    /// VRAM, 262,144 bytes [default: zeros]
    #[arg(long, value_name = "FILE")]
    pub vram: Option<PathBuf>,
    /// Pak RAM, a power of two up to 16,777,216 bytes [default: none]
    #[arg(long, value_name = "FILE")]
    pub pak: Option<PathBuf>,
    /// The processor record, 180 bytes: 43 little-endian words and four halfwords in vb.h's order, or the words alone,
    /// with request lines and timer at reset [default: reset]
    #[arg(long, value_name = "FILE")]
    pub processor: Option<PathBuf>,
    /// The drawing record, 26 bytes: 13 little-endian halfwords in vb.h's order [default: reset]
    #[arg(long, value_name = "FILE")]
    pub drawing: Option<PathBuf>,
    /// A saved state instead of those five files. Form 1 resets lines and timer
    #[arg(long, value_name = "FILE", conflicts_with_all = ["wram", "vram", "pak", "processor", "drawing"])]
    pub state: Option<PathBuf>,
    #[command(flatten)]
    pub changes: Changes,
    #[command(flatten)]
    pub requests: Requests,
}

/// Where to write what a command leaves.
#[derive(Args)]
pub struct Saves {
    /// Where to write WRAM afterwards
    #[arg(long, value_name = "FILE")]
    save_wram: Option<PathBuf>,
    /// Where to write VRAM afterwards
    #[arg(long, value_name = "FILE")]
    save_vram: Option<PathBuf>,
    /// Where to write pak RAM afterwards
    #[arg(long, value_name = "FILE")]
    save_pak: Option<PathBuf>,
    /// Where to write the processor record afterwards
    #[arg(long, value_name = "FILE")]
    save_processor: Option<PathBuf>,
    /// Where to write the drawing record afterwards
    #[arg(long, value_name = "FILE")]
    save_drawing: Option<PathBuf>,
    /// Where to write all five as a saved state
    #[arg(long, value_name = "FILE")]
    save_state: Option<PathBuf>,
    /// The form of the saved state: 2, with request lines, timer and sums, or 1, without them
    #[arg(long, value_name = "FORM", default_value = "2", value_parser = form)]
    state_form: Form,
}

/// `1` or `2`
fn form(text: &str) -> Result<Form, String> {
    match text {
        "1" => Ok(Form::One),
        "2" => Ok(Form::Two),
        _ => Err(format!("`{text}` is not a form; write 1 or 2")),
    }
}

/// The files that were named, by what they hold.
#[derive(Clone)]
struct Inputs {
    rom: Input,
    wram: Option<Input>,
    vram: Option<Input>,
    pak: Option<Input>,
    processor: Option<Input>,
    drawing: Option<Input>,
    /// A saved state, and files that were loaded.
    others: Vec<Input>,
}

/// A machine with its memories.
#[derive(Clone)]
pub struct Bench {
    inputs: Inputs,
    /// What was done to what the files hold, in words.
    pub notes: Vec<String>,
    pub machine: Machine,
    pub rom: Vec<u8>,
    pub wram: Vec<u8>,
    pub vram: Vec<u8>,
    pub pak: Vec<u8>,
}

impl Setup {
    pub fn bench(&self) -> Result<Bench, Failure> {
        let inputs = self.inputs()?;
        let bytes = |file: &Option<Input>, length: usize| {
            file.as_ref().map_or_else(|| vec![0; length], |file| file.bytes.clone())
        };
        let mut bench = Bench {
            machine: inputs.machine()?,
            rom: inputs.rom.bytes.clone(),
            wram: bytes(&inputs.wram, WRAM_LENGTH),
            vram: bytes(&inputs.vram, VRAM_LENGTH),
            pak: bytes(&inputs.pak, 0),
            notes: Vec::new(),
            inputs,
        };
        if let Some(path) = &self.state {
            let state = Input::read(path, STATE)?;
            bench.go_on_from(&state)?;
            bench.note_file(state);
        }
        self.changes.make(&mut bench)?;
        self.requests.make(&mut bench)?;
        Ok(bench)
    }

    fn inputs(&self) -> Result<Inputs, Failure> {
        let read = |path: &Option<PathBuf>, wanted: &str| {
            path.as_deref().map(|path| Input::read(path, wanted)).transpose()
        };
        Ok(Inputs {
            rom: Input::read(&self.rom, ROM)?,
            wram: read(&self.wram, WRAM)?,
            vram: read(&self.vram, VRAM)?,
            pak: read(&self.pak, PAK)?,
            processor: read(&self.processor, PROCESSOR)?,
            drawing: read(&self.drawing, DRAWING)?,
            others: Vec::new(),
        })
    }
}

impl Inputs {
    fn machine(&self) -> Result<Machine, Failure> {
        let mut machine = Machine::reset();
        if let Some(file) = &self.processor {
            let read = Processor::from_bytes(&file.bytes);
            machine.processor = read.map_err(|rule| Failure::bad(file.wrong(rule)))?;
        }
        if let Some(file) = &self.drawing {
            machine.drawing = drawing_of(file)?;
        }
        Ok(machine)
    }
}

impl Bench {
    /// The files that it was made from, as they were read.
    pub fn files(&self) -> impl Iterator<Item = FileRead> + '_ {
        let Inputs { rom, wram, vram, pak, processor, drawing, others } = &self.inputs;
        let named = [wram, vram, pak, processor, drawing].into_iter().flatten();
        std::iter::once(rom).chain(named).chain(others).map(FileRead::whole)
    }

    /// One more of them.
    pub fn note_file(&mut self, file: Input) {
        self.inputs.others.push(file);
    }

    /// Takes the machine and its memories, ROM aside, from a saved state.
    fn go_on_from(&mut self, state: &Input) -> Result<(), Failure> {
        let saved = Saved::of(state).map_err(|wrong| wrong.failure)?;
        let Saved { layout, machine, wram, vram, pak } = saved;
        self.notes.push(match layout.form {
            Form::One => format!("{} is a saved state of form 1; {NOT_STORED}", state.name()),
            Form::Two => format!("{} is a saved state of form 2", state.name()),
        });
        (self.machine, self.wram, self.vram, self.pak) = (machine, wram, vram, pak);
        Ok(())
    }

    /// The machine as a saved state.
    fn saved(&self, form: Form) -> Result<Vec<u8>, Failure> {
        let Bench { machine, rom, wram, vram, pak, .. } = self;
        let memories = ReadMemories { rom, wram, vram, pak };
        written(form, machine, &memories).map_err(|refusal| self.failure(&refusal))
    }

    /// The machine, and its memories borrowed (the specification says: lent).
    pub fn borrowed(&mut self) -> (&mut Machine, Memories<'_>) {
        let Bench { machine, rom, wram, vram, pak, .. } = self;
        (machine, Memories { rom, wram, vram, pak })
    }

    /// Copies of WRAM, VRAM and pak RAM.
    pub fn memories(&self) -> [Vec<u8>; 3] {
        [self.wram.clone(), self.vram.clone(), self.pak.clone()]
    }

    pub fn restore_memories(&mut self, memories: [Vec<u8>; 3]) {
        [self.wram, self.vram, self.pak] = memories;
    }

    /// Names the file that a refusal is about.
    pub fn failure(&self, refusal: &Refusal) -> Failure {
        let inputs = &self.inputs;
        let drawing = |register: &str| {
            ["SPT", "GPLT", "JPLT", "BKCOL"].iter().any(|name| register.starts_with(name))
        };
        let file = match refusal {
            Refusal::RomLength { .. } => Some(&inputs.rom),
            Refusal::WramLength { .. } => inputs.wram.as_ref(),
            Refusal::VramLength { .. } => inputs.vram.as_ref(),
            Refusal::PakLength { .. } => inputs.pak.as_ref(),
            Refusal::State { register, .. } if drawing(register) => inputs.drawing.as_ref(),
            Refusal::State { .. } => inputs.processor.as_ref(),
            _ => None,
        };
        Failure::refused(refusal, file.map_or(refusal.to_string(), |file| file.wrong(refusal)))
    }
}

impl Saves {
    /// The saved state is the last of them.
    fn paths(&self) -> [Option<&Path>; 6] {
        let Saves {
            save_wram, save_vram, save_pak, save_processor, save_drawing, save_state, ..
        } = self;
        [save_wram, save_vram, save_pak, save_processor, save_drawing, save_state]
            .map(|path| path.as_deref())
    }

    /// What the saved state leaves out, where one is asked for.
    pub fn not_stored(&self) -> Option<&'static str> {
        self.save_state.as_ref().filter(|_| self.state_form == Form::One).map(|_| NOT_STORED)
    }

    /// Whether all of them could be written, and these files with them.
    pub fn test(&self, others: &[&Path]) -> Result<(), Failure> {
        let others = others.iter().copied().filter(|path| *path != Path::new("-"));
        Outputs::test(self.paths().into_iter().flatten().chain(others))
    }

    /// Adds those that are asked for to the outputs.
    pub fn add_to(&self, outputs: &mut Outputs, bench: &Bench) -> Result<(), Failure> {
        let Bench { machine, wram, vram, pak, .. } = bench;
        let (processor, drawing) = (machine.processor.to_bytes(), machine.drawing.to_bytes());
        let state =
            self.save_state.as_ref().map_or(Ok(Vec::new()), |_| bench.saved(self.state_form))?;
        let all = [wram.clone(), vram.clone(), pak.clone(), processor, drawing, state];
        for (path, bytes) in self.paths().into_iter().zip(all) {
            if let Some(path) = path {
                outputs.add(path, bytes);
            }
        }
        Ok(())
    }
}
