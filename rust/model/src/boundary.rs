//! The calls of vb.h that can be given what no record of the specification holds: a
//! mode by its number, a list of accesses as bytes, a pixel by three numbers.
//!
//! The other numbers are refusals [`MISUSE`], "Tested after 1 to 5, before every
//! other number and before an interrupt is accepted". An error is a number of vb.h.

use crate::access_list::{self, Access, ACCESS_LENGTH};
use crate::answers::answers;
use crate::bus::{self, DrawingRegisters, Memories, ReadMemories};
use crate::hardware::Hardware;
use crate::processor::{self, Mode, Processor, Stepped};
use crate::refusal::{check_drawing, check_vram, Refusal};
use crate::replay::{self, Replayed};
use crate::saved::{self, Form};
use crate::world::{Eye, HEIGHT, WIDTH};

/// `VB_MISUSE`.
pub const MISUSE: u32 = 255;

/// "0 running, 1 halted, 2 fatal" (W1's body of kind 1 and vb.h).
pub fn mode_of(number: u32) -> Option<Mode> {
    [Mode::Running, Mode::Halted, Mode::Fatal].get(number as usize).copied()
}

/// Tests 1 to 5 of the memories and both records, then the mode, which the
/// processor gets.
fn enter(
    memories: &ReadMemories,
    processor: &mut Processor,
    mode: u32,
    drawing: &DrawingRegisters,
) -> Result<(), u32> {
    let earlier = memories.check().and_then(|()| processor.check());
    earlier.and_then(|()| check_drawing(drawing)).map_err(Refusal::number)?;
    processor.mode = mode_of(mode).ok_or(MISUSE)?;
    Ok(())
}

/// `vb_step`.
pub fn step(
    memories: &mut Memories,
    processor: &mut Processor,
    mode: u32,
    drawing: &mut DrawingRegisters,
) -> Result<Stepped, u32> {
    enter(&memories.read(), processor, mode, drawing)?;
    processor::step(memories, processor, drawing).map_err(Refusal::number)
}

/// `vb_run`: the refusal's number and the count.
pub fn run(
    memories: &mut Memories,
    processor: &mut Processor,
    mode: u32,
    drawing: &mut DrawingRegisters,
    budget: u64,
) -> (u32, u64) {
    if let Err(number) = enter(&memories.read(), processor, mode, drawing) {
        return (number, 0);
    }
    let ran = processor::run(memories, processor, drawing, budget);
    (ran.refusal.map_or(0, Refusal::number), ran.count)
}

/// `vb_replay`; what it refuses after the mode is in its answer.
pub fn replay(
    memories: &mut Memories,
    processor: &mut Processor,
    mode: u32,
    drawing: &mut DrawingRegisters,
    trace: &[u8],
) -> Result<Replayed, u32> {
    enter(&memories.read(), processor, mode, drawing)?;
    Ok(replay::replay(memories, processor, drawing, trace))
}

/// `vb_write_state` and `vb_write_state_2`.
pub fn write_state(
    form: Form,
    memories: &ReadMemories,
    processor: &mut Processor,
    mode: u32,
    drawing: &DrawingRegisters,
    output: &mut [u8],
) -> Result<(), u32> {
    enter(memories, processor, mode, drawing)?;
    let write = match form {
        Form::One => saved::write_state,
        Form::Two => saved::write_state_2,
    };
    write(memories, processor, drawing, output).map_err(Refusal::number)
}

/// `vb_read_state`.
pub fn read_state(
    memories: &mut Memories,
    processor: &mut Processor,
    mode: u32,
    drawing: &mut DrawingRegisters,
    file: &[u8],
) -> Result<(), u32> {
    enter(&memories.read(), processor, mode, drawing)?;
    saved::read_state(memories, processor, drawing, file).map_err(Refusal::number)
}

/// `vb_access_list`: the list is bytes, 20 per access.
pub fn access_list(
    memories: &mut Memories,
    drawing: &mut DrawingRegisters,
    hardware: &mut Hardware,
    list: &mut [u8],
) -> Result<(), u32> {
    bus::check(&memories.read(), drawing, hardware).map_err(Refusal::number)?;
    let (records, rest) = list.as_chunks_mut::<ACCESS_LENGTH>();
    if !rest.is_empty() {
        return Err(MISUSE);
    }
    let mut accesses: Vec<Access> = records.iter().map(Access::from_bytes).collect();
    access_list::access_list(memories, drawing, hardware, &mut accesses)
        .map_err(Refusal::number)?;
    records.iter_mut().zip(accesses).for_each(|(record, access)| *record = access.to_bytes());
    Ok(())
}

/// `vb_pixel_bytes`: the offsets as far as they fit, and how many there are.
pub fn pixel_bytes(
    vram: &[u8],
    drawing: &DrawingRegisters,
    [eye, x, y]: [u32; 3],
    output: &mut [u32],
) -> Result<u64, u32> {
    check_vram(vram.len()).and_then(|()| check_drawing(drawing)).map_err(Refusal::number)?;
    let eye = *Eye::BOTH.get(eye as usize).ok_or(MISUSE)?;
    if x >= WIDTH as u32 || y >= HEIGHT as u32 {
        return Err(MISUSE);
    }
    let listed = answers(vram, drawing, eye, x, y).map_err(Refusal::number)?.listed();
    output.iter_mut().zip(&listed).for_each(|(word, &at)| *word = at as u32);
    Ok(listed.len() as u64)
}
