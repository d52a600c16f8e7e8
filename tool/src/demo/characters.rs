//! Small pictures of pixel values 0 (transparent) to 3, cut into characters.

/// A picture whose width and height are multiples of 8.
pub struct Picture {
    pub width: usize,
    pub height: usize,
    pixels: Vec<u8>,
}

impl Picture {
    /// Asks `value` for each pixel (column, row).
    pub fn of(width: usize, height: usize, value: impl Fn(usize, usize) -> u8) -> Self {
        let at = |i: usize| value(i % width, i / width);
        Picture { width, height, pixels: (0..width * height).map(at).collect() }
    }

    /// A picture drawn with `.`, `1`, `2` and `3`.
    pub fn drawn(rows: &[&str]) -> Self {
        Picture::of(rows[0].len(), rows.len(), |x, y| match rows[y].as_bytes()[x] {
            b'.' => 0,
            digit => digit - b'0',
        })
    }

    /// The 8 by 8 pixels of a cell as a character's 16 bytes.
    fn character(&self, column: usize, row: usize) -> [u8; 16] {
        let mut bytes = [0; 16];
        for y in 0..8 {
            for x in 0..8 {
                let value = self.pixels[(8 * row + y) * self.width + 8 * column + x];
                bytes[2 * y + x / 4] |= value << (2 * (x % 4));
            }
        }
        bytes
    }
}

/// The characters of the demo, numbered in the order in which they were added.
#[derive(Default)]
pub struct Characters {
    all: Vec<[u8; 16]>,
}

impl Characters {
    /// Adds each cell of a picture, row by row; gives the first one's number.
    pub fn add(&mut self, picture: &Picture) -> u16 {
        let first = self.all.len() as u16;
        for row in 0..picture.height / 8 {
            for column in 0..picture.width / 8 {
                self.all.push(picture.character(column, row));
            }
        }
        first
    }

    /// The cells of a background map for a picture, row by row. A character that is there already, as it is or
    /// flipped, is used again.
    pub fn cells(&mut self, picture: &Picture) -> Vec<u8> {
        let mut cells = Vec::new();
        for row in 0..picture.height / 8 {
            for column in 0..picture.width / 8 {
                cells.extend_from_slice(&self.cell(picture.character(column, row)).to_le_bytes());
            }
        }
        cells
    }

    fn cell(&mut self, wanted: [u8; 16]) -> u16 {
        for (number, have) in self.all.iter().enumerate() {
            for flips in 0..4 {
                if flipped(have, flips) == wanted {
                    return number as u16 | flips << 12;
                }
            }
        }
        self.all.push(wanted);
        self.all.len() as u16 - 1
    }

    /// The bytes of all characters, in order.
    pub fn bytes(&self) -> Vec<u8> {
        self.all.concat()
    }
}

/// Bit 0 of `flips` turns the rows over, bit 1 the columns, as a cell's bits 12 and 13 do.
fn flipped(character: &[u8; 16], flips: u16) -> [u8; 16] {
    let mut bytes = [0; 16];
    for y in 0..8 {
        let from = if flips & 1 == 0 { y } else { 7 - y };
        let mut half = u16::from_le_bytes([character[2 * from], character[2 * from + 1]]);
        if flips & 2 != 0 {
            half = (0..8).fold(0, |sum, x| sum | (half >> (2 * x) & 3) << (14 - 2 * x));
        }
        bytes[2 * y..2 * y + 2].copy_from_slice(&half.to_le_bytes());
    }
    bytes
}

#[cfg(test)]
mod tests {
    use super::*;

    #[test]
    fn a_character_is_used_again_as_it_is_and_flipped() {
        let slope = |x: usize, y: usize| if x > y { 3 } else { 0 };
        let picture = Picture::of(16, 16, |x, y| slope(x.min(15 - x), y.min(15 - y)));
        let mut characters = Characters::default();
        let cells = characters.cells(&picture);
        assert_eq!(cells, [0, 0x00, 0, 0x20, 0, 0x10, 0, 0x30]);
        assert_eq!(characters.bytes().len(), 16);
    }
}
