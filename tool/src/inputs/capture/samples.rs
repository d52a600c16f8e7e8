//! The colours of a PNG's samples, taken strictly: a sample that stands for no opaque colour is reported.

use super::chunks::{Chunks, Colour, Header};
use super::image::Rows;

/// A PNG's pixels before they are taken for colours.
pub struct Samples {
    pub header: Header,
    pub rows: Rows,
    palette: Vec<u8>,
    /// The alphas of a palette.
    alphas: Vec<u8>,
    /// The samples of the colour that is transparent where there is no palette.
    key: Vec<u16>,
}

/// What is stored for a pixel, from the first byte on; a pixel of less than a byte is a number in the first one.
pub type Stored = [u8; 8];

impl Samples {
    /// Reads a PNG whose size, width by height, `fits` accepts.
    pub fn read(
        bytes: &[u8],
        fits: impl Fn(usize, usize) -> Result<(), String>,
    ) -> Result<Samples, String> {
        let Chunks { header, palette, transparent, image, .. } = Chunks::read(bytes, fits)?;
        let rows = Rows::read(&header, &image)?;
        let pairs = transparent.chunks_exact(2).map(|h| u16::from_be_bytes([h[0], h[1]]));
        let (alphas, key) = match header.colour {
            Colour::Indexed => (transparent.to_vec(), Vec::new()),
            _ => (Vec::new(), pairs.collect()),
        };
        Ok(Samples { header, rows, palette: palette.to_vec(), alphas, key })
    }

    /// How many pixels of at most eight bits there are that may stand for a colour; 0 where pixels have more.
    pub fn one_byte_pixels(&self) -> usize {
        match (self.header.colour, self.header.bits()) {
            (Colour::Indexed, _) => self.palette.len() / 3,
            (_, bits @ ..=8) => 1 << bits,
            _ => 0,
        }
    }

    /// What is stored for a pixel.
    pub fn stored(&self, x: usize, y: usize) -> Stored {
        let (row, bits) = (self.rows.row(y), self.header.bits());
        let mut stored = [0; 8];
        match bits {
            ..8 => {
                let low = 8 - bits - x * bits % 8;
                stored[0] = row[x * bits / 8] >> low & ((1 << bits) - 1);
            }
            _ => {
                let bytes = bits / 8;
                stored[..bytes].copy_from_slice(&row[x * bytes..][..bytes]);
            }
        }
        stored
    }

    /// Red, green and blue of a stored pixel, or what is wrong with it.
    pub fn colour(&self, stored: Stored, exact: bool) -> Result<[u8; 3], String> {
        if self.header.colour == Colour::Indexed {
            return self.of_palette(usize::from(stored[0]));
        }
        let raw = match self.header.depth {
            16 => [0, 2, 4, 6].map(|n| u16::from_be_bytes([stored[n], stored[n + 1]])),
            _ => [0, 1, 2, 3].map(|n| u16::from(stored[n])),
        };
        let step = self.header.colour.samples();
        let colours = if step < 3 { 1 } else { 3 };
        let most = ((1u32 << self.header.depth) - 1) as u16;
        if matches!(step, 2 | 4) && raw[step - 1] != most {
            return Err(format!("has the alpha {:X} of {most:X}", raw[step - 1]));
        }
        if self.key == raw[..colours] {
            return Err("has the colour that tRNS makes transparent".to_string());
        }
        let first = self.byte(raw[0], exact)?;
        match colours {
            1 => Ok([first; 3]),
            _ => Ok([first, self.byte(raw[1], exact)?, self.byte(raw[2], exact)?]),
        }
    }

    /// A stored sample as one of 0 to 255; between two of them it is rounded, or refused where `exact`.
    fn byte(&self, sample: u16, exact: bool) -> Result<u8, String> {
        match self.header.depth {
            16 if exact && !sample.is_multiple_of(257) => Err(format!(
                "has the 16-bit sample {sample:04X}, which is not one of 0000, 5555, AAAA and FFFF"
            )),
            16 => Ok(((u32::from(sample) + 128) / 257) as u8),
            depth => Ok((u32::from(sample) * 255 / ((1 << depth) - 1)) as u8),
        }
    }

    fn of_palette(&self, index: usize) -> Result<[u8; 3], String> {
        let count = self.palette.len() / 3;
        let Some(colour) = self.palette.get(3 * index..3 * index + 3) else {
            return Err(format!("has the palette index {index}; PLTE has {count} colours"));
        };
        match self.alphas.get(index) {
            Some(&alpha) if alpha != 0xFF => Err(format!("has the alpha {alpha:X} of FF")),
            _ => Ok([colour[0], colour[1], colour[2]]),
        }
    }
}
