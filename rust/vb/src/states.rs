//! Saved states: a machine and its memories in a file, and back.

use vbsys::{state_2_bytes, state_bytes, Memories, ReadMemories};

use crate::calls::Given;
use crate::records::Machine;
use crate::refusal::Refusal;

impl Machine {
    /// Writes this machine with WRAM, VRAM and pak RAM into `output`, which has [`state_bytes`] bytes. ROM is not stored;
    /// request lines and timer must be at reset.
    pub fn write_state(&self, memories: &ReadMemories, output: &mut [u8]) -> Result<(), Refusal> {
        let number =
            vbsys::write_state(*memories, (&self.processor).into(), (&self.drawing).into(), output);
        if number == 0 {
            return Ok(());
        }
        let ReadMemories { rom, wram, vram, pak } = memories;
        let lengths = [rom.len(), wram.len(), vram.len(), pak.len()];
        Err(self.state_refusal(lengths, number, output.len(), state_bytes(pak.len())))
    }

    /// Writes the same in form 2, with request lines and timer, into `output` of [`state_2_bytes`] bytes.
    pub fn write_state_2(&self, memories: &ReadMemories, output: &mut [u8]) -> Result<(), Refusal> {
        let number = vbsys::write_state_2(
            *memories,
            (&self.processor).into(),
            (&self.drawing).into(),
            output,
        );
        if number == 0 {
            return Ok(());
        }
        let ReadMemories { rom, wram, vram, pak } = memories;
        let lengths = [rom.len(), wram.len(), vram.len(), pak.len()];
        Err(self.state_refusal(lengths, number, output.len(), state_2_bytes(pak.len())))
    }

    /// Reads a machine with WRAM, VRAM and pak RAM from a file of either form that was written with pak RAM of the same
    /// length.
    pub fn read_state(&mut self, memories: &mut Memories, file: &[u8]) -> Result<(), Refusal> {
        let restored =
            vbsys::read_state(memories, (&self.processor).into(), (&self.drawing).into(), file);
        if restored.refusal != 0 {
            let Memories { rom, wram, vram, pak } = memories;
            let lengths = [rom.len(), wram.len(), vram.len(), pak.len()];
            let due = if file.starts_with(&[0, 0]) { state_2_bytes } else { state_bytes };
            return Err(self.state_refusal(lengths, restored.refusal, file.len(), due(lengths[3])));
        }
        self.processor = (&restored.processor).into();
        self.drawing = (&restored.drawing).into();
        Ok(())
    }

    fn state_refusal(&self, lengths: [usize; 4], number: u32, given: usize, due: usize) -> Refusal {
        let own = [Refusal::FileLength { given, due }, Refusal::FileBytes, Refusal::NotAtReset];
        let processor = Some(&self.processor);
        let hardware = Some(&self.processor.hardware);
        Given { lengths, processor, drawing: &self.drawing, hardware }.refusal(number, &own)
    }
}

/// Moves a saved state into the other form; the output buffer must have the length that is due there.
pub fn move_state(file: &[u8], output: &mut [u8]) -> Result<(), Refusal> {
    match vbsys::move_state(file, output) {
        0 => Ok(()),
        9 => Err(Refusal::MoveLength { file: file.len(), output: output.len() }),
        10 => Err(Refusal::FileBytes),
        16 => Err(Refusal::NotAtReset),
        number => unreachable!("a move has no refusal {number}"),
    }
}

/// What a salvage reports.
#[derive(Clone, Debug, PartialEq, Eq)]
pub struct Salvaged {
    /// The kinds of the bodies that were replaced, ascending.
    pub replaced: Vec<u32>,
    /// Whether a byte before the first body differs, sums of replaced bodies aside.
    pub contents_differ: bool,
}

/// Writes a valid file of form 2 with every recoverable body of a damaged one into an output buffer as long as it.
pub fn salvage_state(file: &[u8], output: &mut [u8]) -> Result<Salvaged, Refusal> {
    let done = vbsys::salvage_state(file, output);
    match done.refusal {
        0 => Ok(Salvaged {
            replaced: done.kinds[..done.replaced as usize].to_vec(),
            contents_differ: done.contents_differ != 0,
        }),
        9 => Err(Refusal::FileLength { given: output.len(), due: file.len() }),
        17 => Err(Refusal::NoLayout { given: file.len() }),
        number => unreachable!("a salvage has no refusal {number}"),
    }
}
