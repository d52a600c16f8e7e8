//! The memory and the registers that a picture is drawn from.

use std::path::PathBuf;

use clap::Args;
use vb::{Drawing, Refusal};

use crate::failure::Failure;
use crate::files::{FileRead, Input};
use crate::inputs::state::{scene_of, STATE};

/// What the files must be.
pub const VRAM: &str = "VRAM of 262,144 bytes";
pub const DRAWING: &str = "a drawing record of 26 bytes";
pub const CAPTURE: &str =
    "a capture: a raw frame buffer of 24,576 bytes, a whole VRAM of 262,144, or a PNG";

/// A scene's files as options.
#[derive(Args, Clone, Default)]
pub struct Scene {
    /// VRAM, 262,144 bytes; - is standard input
    #[arg(long, value_name = "FILE", required_unless_present = "state")]
    pub vram: Option<PathBuf>,
    /// The drawing record, 26 bytes: SPT0-3, GPLT0-3, JPLT0-3 and BKCOL as little-endian halfwords
    #[arg(long, value_name = "FILE", required_unless_present = "state")]
    pub drawing: Option<PathBuf>,
    /// A saved state, which holds both
    #[arg(long, value_name = "FILE", conflicts_with_all = ["vram", "drawing"])]
    pub state: Option<PathBuf>,
}

/// A scene read from its files.
pub struct Read {
    pub vram: Input,
    pub drawing: Drawing,
    pub drawing_file: Input,
    /// The files as they are: two, or a saved state.
    pub files: Vec<FileRead>,
}

impl Scene {
    pub fn read(&self) -> Result<Read, Failure> {
        let (vram, drawing_file, files) = match (&self.state, &self.vram, &self.drawing) {
            (Some(state), _, _) => {
                let input = Input::read(state, STATE)?;
                let (vram, drawing) = scene_of(&input)?;
                (vram, drawing, vec![FileRead::whole(&input)])
            }
            (None, Some(vram), Some(drawing)) => {
                let (vram, drawing) = (Input::read(vram, VRAM)?, Input::read(drawing, DRAWING)?);
                let files = [&vram, &drawing].map(FileRead::whole).to_vec();
                (vram, drawing, files)
            }
            (None, None, _) => return Err(Failure::bad("no VRAM is named")),
            (None, _, None) => return Err(Failure::bad("no drawing record is named")),
        };
        let drawing = drawing_of(&drawing_file)?;
        Ok(Read { vram, drawing, drawing_file, files })
    }
}

impl Read {
    /// VRAM after the frame was drawn by the library.
    pub fn drawn(&self, frame: u32) -> Result<Vec<u8>, Failure> {
        let mut vram = self.vram.bytes.clone();
        self.drawing.draw_frame(&mut vram, frame).map_err(|refusal| self.failure(&refusal))?;
        Ok(vram)
    }

    /// Names the file that a refusal is about.
    fn failure(&self, refusal: &Refusal) -> Failure {
        let message = match refusal {
            Refusal::VramLength { .. } => self.vram.wrong(refusal),
            Refusal::State { .. } => self.drawing_file.wrong(refusal),
            _ => refusal.to_string(),
        };
        Failure::refused(refusal, message)
    }
}

pub fn drawing_of(file: &Input) -> Result<Drawing, Failure> {
    Drawing::from_bytes(&file.bytes).map_err(|rule| Failure::bad(file.wrong(rule)))
}
