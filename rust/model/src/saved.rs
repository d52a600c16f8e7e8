//! Saved states: a machine into a file of form 1 (W1) or form 2 (W12), and back;
//! a file moved from one form to the other.

use crate::bus::{DrawingRegisters, Memories, ReadMemories};
use crate::hardware::Hardware;
use crate::number::half_at;
use crate::processor::{self, Mode, Processor};
use crate::refusal::{
    check_drawing, refuse_unless, Refusal, PAK_LARGEST, VRAM_LENGTH, WRAM_LENGTH,
};

/// Kind 1: 43 words.
const PROCESSOR_LENGTH: usize = 4 * 43;
/// Kind 2: 13 halfwords.
const DRAWING_LENGTH: usize = 2 * 13;
/// Kind 6: four halfwords.
const HARDWARE_LENGTH: usize = 2 * 4;

/// The form of a file.
#[derive(Clone, Copy, Debug, PartialEq, Eq)]
pub enum Form {
    One,
    Two,
}

impl Form {
    /// "Reading takes a file whose first halfword is 0 for form 2, any other for
    /// form 1".
    pub fn of(file: &[u8]) -> Form {
        if file.starts_with(&[0, 0]) {
            Form::Two
        } else {
            Form::One
        }
    }

    pub fn other(self) -> Form {
        match self {
            Form::One => Form::Two,
            Form::Two => Form::One,
        }
    }

    /// What comes before the count: "Form 2 begins with halfwords 0 and 2".
    fn leading(self) -> &'static [u16] {
        match self {
            Form::One => &[],
            Form::Two => &[0, 2],
        }
    }

    /// A contents entry: kind (halfword), offset and length (words); "each contents
    /// entry ends with one word more", the sum, in form 2.
    fn entry_length(self) -> usize {
        match self {
            Form::One => 10,
            Form::Two => 14,
        }
    }

    /// The kinds and lengths of the bodies with so much pak RAM: "5 pak RAM, left
    /// out when empty". Kind 6 is always there in form 2.
    fn bodies(self, pak: usize) -> Vec<(u16, usize)> {
        let mut bodies =
            vec![(1, PROCESSOR_LENGTH), (2, DRAWING_LENGTH), (3, WRAM_LENGTH), (4, VRAM_LENGTH)];
        if pak != 0 {
            bodies.push((5, pak));
        }
        if self == Form::Two {
            bodies.push((6, HARDWARE_LENGTH));
        }
        bodies
    }

    /// Where the first body begins.
    pub(crate) fn contents_length(self, pak: usize) -> usize {
        2 * (self.leading().len() + 1) + self.entry_length() * self.bodies(pak).len()
    }

    /// Kind, place and length of each body, in the file's order, without gaps.
    pub(crate) fn places(self, pak: usize) -> Vec<(u16, usize, usize)> {
        let mut place = self.contents_length(pak);
        let mut places = Vec::new();
        for (kind, length) in self.bodies(pak) {
            places.push((kind, place, length));
            place += length;
        }
        places
    }

    /// Where the sum of body `number` stands in a file of form 2: the last word of
    /// its entry.
    pub(crate) fn sum_place(number: usize) -> usize {
        let form = Form::Two;
        2 * (form.leading().len() + 1) + form.entry_length() * (number + 1) - 4
    }

    /// The length of pak RAM that a file of this length has.
    pub(crate) fn pak_of(self, length: usize) -> Option<usize> {
        pak_lengths().find(|&pak| file_length(self, pak) == length)
    }
}

/// The lengths of pak RAM that refusal 4 lets pass.
fn pak_lengths() -> impl Iterator<Item = usize> {
    let powers = std::iter::successors(Some(1), |power| Some(2 * power));
    std::iter::once(0).chain(powers.take_while(|&power| power <= PAK_LARGEST))
}

/// The length of a file that the caller's pak RAM's length calls for.
pub fn file_length(form: Form, pak: usize) -> usize {
    let bodies = form.bodies(pak).iter().map(|(_, length)| length).sum::<usize>();
    form.contents_length(pak) + bodies
}

/// "the sum of the body's bytes mod 2^32".
pub(crate) fn sum(body: &[u8]) -> u32 {
    body.iter().fold(0u32, |sum, &byte| sum.wrapping_add(u32::from(byte)))
}

/// The word at a place of a file.
pub(crate) fn word_at(file: &[u8], at: usize) -> u32 {
    u32::from(half_at(file, at)) | u32::from(half_at(file, at + 2)) << 16
}

/// Kind 1: "32 registers, PC, EIPC, EIPSW, FEPC, FEPSW, ECR, PSW, system registers
/// 25 and 29, the value read from 31, mode".
pub(crate) fn processor_bytes(processor: &Processor) -> Vec<u8> {
    let mode = match processor.mode {
        Mode::Running => 0,
        Mode::Halted => 1,
        Mode::Fatal => 2,
    };
    let others = [
        processor.pc,
        processor.eipc,
        processor.eipsw,
        processor.fepc,
        processor.fepsw,
        processor.ecr,
        processor.psw,
        processor.adtre,
        processor.system29,
        processor.system31,
        mode,
    ];
    processor.registers.into_iter().chain(others).flat_map(u32::to_le_bytes).collect()
}

/// The processor of a body of kind 1; `None` for an invalid mode. W6: "W1's
/// files leave them out and load them at reset", the lines and the timer.
fn read_processor(body: &[u8]) -> Option<Processor> {
    let word = |n: usize| word_at(body, 4 * n);
    let mode = match word(42) {
        0 => Mode::Running,
        1 => Mode::Halted,
        2 => Mode::Fatal,
        _ => return None,
    };
    let mut registers = [0; 32];
    registers.iter_mut().enumerate().for_each(|(n, register)| *register = word(n));
    Some(Processor {
        registers,
        pc: word(32),
        eipc: word(33),
        eipsw: word(34),
        fepc: word(35),
        fepsw: word(36),
        ecr: word(37),
        psw: word(38),
        adtre: word(39),
        system29: word(40),
        system31: word(41),
        mode,
        hardware: Hardware::default(),
    })
}

/// Kind 2: "SPT, GPLT, JPLT, BKCOL".
fn drawing_bytes(drawing: &DrawingRegisters) -> Vec<u8> {
    let DrawingRegisters { spt, gplt, jplt, bkcol } = *drawing;
    let halves = spt.into_iter().chain(gplt).chain(jplt).chain([bkcol]);
    halves.flat_map(u16::to_le_bytes).collect()
}

fn read_drawing(body: &[u8]) -> DrawingRegisters {
    let four = |first: usize| [0, 1, 2, 3].map(|n| half_at(body, 2 * (first + n)));
    DrawingRegisters { spt: four(0), gplt: four(4), jplt: four(8), bkcol: half_at(body, 24) }
}

/// Kind 6: "request lines (bit n for level n), timer count, reload, control bits at
/// their places in TCR, all other bits 0".
fn hardware_bytes(hardware: &Hardware) -> Vec<u8> {
    let Hardware { lines, count, reload, control } = *hardware;
    [lines, count, reload, control].into_iter().flat_map(u16::to_le_bytes).collect()
}

fn read_hardware(body: &[u8]) -> Hardware {
    let [lines, count, reload, control] = [0, 2, 4, 6].map(|at| half_at(body, at));
    Hardware { lines, count, reload, control }
}

/// Whether the writer makes this body "for some accepted state" (W13). Nothing ties
/// one body to another.
pub(crate) fn can_be_made(kind: u16, body: &[u8]) -> bool {
    match kind {
        1 => read_processor(body).is_some_and(|processor| processor.check().is_ok()),
        2 => check_drawing(&read_drawing(body)).is_ok(),
        6 => read_hardware(body).check().is_ok(),
        _ => true,
    }
}

/// The contents before these bodies, each with its kind.
fn contents(form: Form, bodies: &[(u16, &[u8])]) -> Vec<u8> {
    let count = bodies.len() as u16;
    let leading = form.leading().iter().copied().chain([count]);
    let mut bytes: Vec<u8> = leading.flat_map(u16::to_le_bytes).collect();
    let mut offset = bytes.len() + form.entry_length() * bodies.len();
    for (kind, body) in bodies {
        bytes.extend(kind.to_le_bytes());
        bytes.extend((offset as u32).to_le_bytes());
        bytes.extend((body.len() as u32).to_le_bytes());
        if form == Form::Two {
            bytes.extend(sum(body).to_le_bytes());
        }
        offset += body.len();
    }
    bytes
}

/// A file of these bodies.
pub(crate) fn file_of_bodies(form: Form, bodies: &[(u16, &[u8])]) -> Vec<u8> {
    let mut file = contents(form, bodies);
    bodies.iter().for_each(|(_, body)| file.extend(*body));
    file
}

/// What the writer of a form makes for a state.
fn file_of(
    form: Form,
    memories: &ReadMemories,
    processor: &Processor,
    drawing: &DrawingRegisters,
) -> Vec<u8> {
    let (first, second) = (processor_bytes(processor), drawing_bytes(drawing));
    let sixth = hardware_bytes(&processor.hardware);
    let kinds = form.bodies(memories.pak.len());
    let body = |kind: u16| match kind {
        1 => &first[..],
        2 => &second,
        3 => memories.wram,
        4 => memories.vram,
        5 => memories.pak,
        _ => &sixth,
    };
    let bodies: Vec<_> = kinds.into_iter().map(|(kind, _)| (kind, body(kind))).collect();
    file_of_bodies(form, &bodies)
}

/// Refusals 1 to 5.
fn check(
    memories: &ReadMemories,
    processor: &Processor,
    drawing: &DrawingRegisters,
) -> Result<(), Refusal> {
    memories.check()?;
    processor.check()?;
    check_drawing(drawing)
}

/// Refusal 9, by the length that the caller's pak RAM's length calls for.
fn check_length(form: Form, memories: &ReadMemories, length: usize) -> Result<(), Refusal> {
    refuse_unless(length == file_length(form, memories.pak.len()), Refusal::FileLength)
}

/// Refusal 16: "exactly when kind 6 isn't at reset".
fn check_at_reset(processor: &Processor) -> Result<(), Refusal> {
    refuse_unless(processor.hardware == Hardware::default(), Refusal::NotAtReset)
}

/// Writes form 1 into an output buffer of exactly the length due; refusals 1 to 5, 9, 16.
pub fn write_state(
    memories: &ReadMemories,
    processor: &Processor,
    drawing: &DrawingRegisters,
    output: &mut [u8],
) -> Result<(), Refusal> {
    check(memories, processor, drawing)?;
    check_length(Form::One, memories, output.len())?;
    check_at_reset(processor)?;
    output.copy_from_slice(&file_of(Form::One, memories, processor, drawing));
    Ok(())
}

/// Writes form 2 into an output buffer of exactly the length due; refusals 1 to 5, 9.
pub fn write_state_2(
    memories: &ReadMemories,
    processor: &Processor,
    drawing: &DrawingRegisters,
    output: &mut [u8],
) -> Result<(), Refusal> {
    check(memories, processor, drawing)?;
    check_length(Form::Two, memories, output.len())?;
    output.copy_from_slice(&file_of(Form::Two, memories, processor, drawing));
    Ok(())
}

/// The state of a file whose length is due: its records, and the memories as parts
/// of it.
struct Held<'a> {
    processor: Processor,
    drawing: DrawingRegisters,
    memories: ReadMemories<'a>,
}

/// Refusal 10: "the bytes aren't what the writer makes for any state that passes 2
/// to 5", the writer of the file's own form; so the state is taken out and written
/// again.
fn state_in(form: Form, file: &[u8], pak: usize) -> Result<Held<'_>, Refusal> {
    let places = form.places(pak);
    let body = |wanted: u16| {
        let found = places.iter().find(|&&(kind, _, _)| kind == wanted);
        found.map_or(&[][..], |&(_, place, length)| &file[place..place + length])
    };
    let mut processor = read_processor(body(1)).ok_or(Refusal::FileBytes)?;
    if form == Form::Two {
        processor.hardware = read_hardware(body(6));
    }
    let drawing = read_drawing(body(2));
    let accepted = processor.check().is_ok() && check_drawing(&drawing).is_ok();
    refuse_unless(accepted, Refusal::FileBytes)?;
    let memories = ReadMemories { rom: &[], wram: body(3), vram: body(4), pak: body(5) };
    let written = file_of(form, &memories, &processor, &drawing);
    refuse_unless(written == file, Refusal::FileBytes)?;
    Ok(Held { processor, drawing, memories })
}

/// Reads a machine back, of either form; refusals 1 to 5, 9, 10. Refused, nothing
/// changes.
pub fn read_state(
    memories: &mut Memories,
    processor: &mut Processor,
    drawing: &mut DrawingRegisters,
    file: &[u8],
) -> Result<(), Refusal> {
    processor::check(memories, processor, drawing)?;
    let form = Form::of(file);
    check_length(form, &memories.read(), file.len())?;
    let held = state_in(form, file, memories.pak.len())?;
    (*processor, *drawing) = (held.processor, held.drawing);
    memories.wram.copy_from_slice(held.memories.wram);
    memories.vram.copy_from_slice(held.memories.vram);
    memories.pak.copy_from_slice(held.memories.pak);
    Ok(())
}

/// Moves a file to the other form: "what the other form's writer makes for the
/// state held". 9 "when its file's length fits no pak RAM size in that form or its
/// output isn't the length due, then by 10", then 16.
pub fn move_state(file: &[u8], output: &mut [u8]) -> Result<(), Refusal> {
    let form = Form::of(file);
    let other = form.other();
    let pak = form.pak_of(file.len()).ok_or(Refusal::FileLength)?;
    refuse_unless(output.len() == file_length(other, pak), Refusal::FileLength)?;
    let Held { processor, drawing, memories } = state_in(form, file, pak)?;
    if other == Form::One {
        check_at_reset(&processor)?;
    }
    output.copy_from_slice(&file_of(other, &memories, &processor, &drawing));
    Ok(())
}
