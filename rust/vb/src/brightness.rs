//! The display unit: how bright a person sees each pixel of a frame.

use crate::refusal::Refusal;
use crate::DISPLAY_LENGTH;

/// What is shown, and how bright.
#[derive(Clone, Copy, Debug, PartialEq, Eq)]
pub struct View {
    /// 0 or 1.
    pub frame: u32,
    /// 0 left, 1 right.
    pub eye: u32,
    /// The entry of the eye's column table that columns 0 to 3 use, 95 to 255; each next group of four uses the one
    /// before it.
    pub start: u32,
    /// BRTA, BRTB and BRTC: shade 1 is lit for BRTA, 2 for BRTB, 3 for the sum of all three.
    pub durations: [u8; 3],
}

/// The apparent brightness of pixel (x, y), 0 to 128, to byte 384y + x of `output`.
pub fn display(vram: &[u8], view: View, output: &mut [u8]) -> Result<(), Refusal> {
    let View { frame, eye, start, durations } = view;
    match vbsys::display(vram, frame, eye, start, durations, output) {
        0 => Ok(()),
        3 => Err(Refusal::VramLength { given: vram.len() }),
        7 => Err(Refusal::Frame { given: frame }),
        15 => Err(broken(&view, output.len())),
        number => unreachable!("the call has no refusal {number}"),
    }
}

/// Which of refusal 15's conditions was broken, in the order of paper 02's sentence.
fn broken(view: &View, output: usize) -> Refusal {
    if view.eye > 1 {
        return Refusal::Eye { given: view.eye };
    }
    if !(95..=255).contains(&view.start) {
        return Refusal::Start { given: view.start };
    }
    assert_ne!(output, DISPLAY_LENGTH, "the library refused an accepted view");
    Refusal::OutputLength { given: output }
}

/// Loads the recommended column table for both eyes.
pub fn load_column_table(vram: &mut [u8]) -> Result<(), Refusal> {
    match vbsys::load_column_table(vram) {
        0 => Ok(()),
        _ => Err(Refusal::VramLength { given: vram.len() }),
    }
}
