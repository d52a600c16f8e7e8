//! The bytes that a pixel answers to.

use std::fmt;

use crate::calls::Given;
use crate::records::Drawing;
use crate::refusal::Refusal;

/// Why no list was made.
#[derive(Clone, Debug, PartialEq, Eq)]
pub enum NoList {
    /// A refusal of the specification: 3 or 5.
    Refused(Refusal),
    /// No image has the pixel, for which the specification has no number.
    Outside {
        /// The eye that was asked for.
        eye: u32,
        /// The column.
        x: u32,
        /// The row.
        y: u32,
    },
}

impl fmt::Display for NoList {
    fn fmt(&self, f: &mut fmt::Formatter) -> fmt::Result {
        match self {
            NoList::Refused(refusal) => refusal.fmt(f),
            NoList::Outside { eye, x, y } => write!(
                f,
                "pixel ({x}, {y}) of eye {eye} was asked for; eyes are 0 and 1, columns 0 to 383 and rows 0 to 223"
            ),
        }
    }
}

impl std::error::Error for NoList {}

impl Drawing {
    /// How many bytes of VRAM the pixel (x, y) of an eye (0 left, 1 right) depends on. Their addresses go into
    /// the output buffer's first words in the order of docs/PROMISES.md, as many as fit; its other words are kept.
    pub fn pixel_bytes_into(
        &self,
        vram: &[u8],
        eye: u32,
        x: u32,
        y: u32,
        output: &mut [u32],
    ) -> Result<usize, NoList> {
        let listed = vbsys::pixel_bytes(vram, self.into(), eye, x, y, output);
        match listed.refusal {
            0 => Ok(listed.count as usize),
            vbsys::MISUSE => Err(NoList::Outside { eye, x, y }),
            number => {
                let lengths = [0, 0, vram.len(), 0];
                let given = Given { lengths, processor: None, drawing: self, hardware: None };
                Err(NoList::Refused(given.refusal(number, &[])))
            }
        }
    }

    /// The addresses of the bytes of VRAM that the pixel (x, y) of an eye answers to.
    pub fn pixel_bytes(&self, vram: &[u8], eye: u32, x: u32, y: u32) -> Result<Vec<u32>, NoList> {
        let count = self.pixel_bytes_into(vram, eye, x, y, &mut [])?;
        let mut output = vec![0; count];
        self.pixel_bytes_into(vram, eye, x, y, &mut output)?;
        Ok(output)
    }
}
