//! Saved states, read and written by the library: a machine with WRAM, VRAM and pak RAM (paper 02, W1 and W12).

mod fault;
mod layout;
#[cfg(test)]
mod tests;

use std::path::PathBuf;

use vb::{Machine, Memories, ReadMemories, Refusal};

use crate::failure::Failure;
use crate::files::Input;
pub use fault::Fault;
pub use layout::PAK;
pub use layout::{Body, Form, Layout};
use layout::{VRAM, WRAM};

/// What the file must be.
pub const STATE: &str = "a saved state, form 1 or 2";
/// The lengths of both forms.
const LENGTHS: &str = "form 1 or 2: 327,920 or 327,962 bytes without pak RAM, 327,930 or 327,976 and its length with it, \
                       which is a power of two up to 16,777,216";
/// What form 1 leaves out; form 2 leaves ROM out alone.
pub const NOT_STORED: &str = "request lines and timer are not stored: they come back at reset";

/// A state and where its file has it.
pub struct Saved {
    pub layout: Layout,
    pub machine: Machine,
    pub wram: Vec<u8>,
    pub vram: Vec<u8>,
    pub pak: Vec<u8>,
}

/// Why a file is not a saved state, and the rule that it breaks.
pub struct NoState {
    pub failure: Failure,
    pub fault: Option<Fault>,
}

impl Saved {
    /// The one reader of saved states. The library decides; which rule was broken is found afterwards.
    pub fn of(input: &Input) -> Result<Saved, NoState> {
        let file = &input.bytes;
        match Layout::of_file(file) {
            Some(layout) => restored(file, layout)
                .map_err(|refusal| no_state(input, Fault::of(file), Some(refusal))),
            None => Err(no_state(input, Fault::of(file), None)),
        }
    }
}

/// VRAM and the drawing record of a state.
pub fn scene_of(input: &Input) -> Result<(Input, Input), Failure> {
    let saved = Saved::of(input).map_err(|wrong| wrong.failure)?;
    let part = |bytes: Vec<u8>, name: &str| Input {
        path: PathBuf::from(format!("{}, {name}", input.name())),
        bytes,
    };
    let drawing = saved.machine.drawing.to_bytes();
    Ok((part(saved.vram, "VRAM"), part(drawing, "drawing record")))
}

/// The file of a machine with its memories, as the library writes it.
pub fn written(form: Form, machine: &Machine, memories: &ReadMemories) -> Result<Vec<u8>, Refusal> {
    let mut file = vec![0; Layout::of(form, memories.pak.len()).length()];
    match form {
        Form::One => machine.write_state(memories, &mut file)?,
        Form::Two => machine.write_state_2(memories, &mut file)?,
    }
    Ok(file)
}

/// The file in the other form, and that form.
pub fn moved(input: &Input) -> Result<(Form, Vec<u8>), Failure> {
    let file = &input.bytes;
    let broken = |refusal: Refusal| match (&refusal, Fault::of(file)) {
        (Refusal::NotAtReset, _) | (_, None) => {
            Failure::refused(&refusal, input.wrong(refusal.to_string()))
        }
        (_, fault) => no_state(input, fault, Some(refusal)).failure,
    };
    let other = Form::of(file).other();
    let pak = Layout::of_file(file).map_or(0, |layout| layout.length_of(PAK));
    let mut output = vec![0; Layout::of(other, pak).length()];
    vb::move_state(file, &mut output).map_err(broken)?;
    Ok((other, output))
}

/// Read by the library. ROM is not stored, so any will do here.
fn restored(file: &[u8], layout: Layout) -> Result<Saved, Refusal> {
    let zeros = |kind: u16| vec![0; layout.length_of(kind)];
    let (mut wram, mut vram, mut pak) = (zeros(WRAM), zeros(VRAM), zeros(PAK));
    let mut machine = Machine::reset();
    let mut memories =
        Memories { rom: &[0; 1024], wram: &mut wram, vram: &mut vram, pak: &mut pak };
    machine.read_state(&mut memories, file)?;
    Ok(Saved { layout, machine, wram, vram, pak })
}

fn no_state(input: &Input, fault: Option<Fault>, refusal: Option<Refusal>) -> NoState {
    let message = match (&fault, &refusal) {
        (Some(fault), _) => input.wrong(fault),
        (None, Some(refusal)) => input.wrong(refusal),
        (None, None) => input.wrong(format!("it must be {STATE}")),
    };
    let number = refusal.map(|refusal| refusal.number());
    let number = number.or(fault.as_ref().map(Fault::refusal));
    NoState { failure: Failure { refusal: number, message }, fault }
}
