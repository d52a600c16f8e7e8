//! The values of a PNG's pixels, each a square of the same number of PNG pixels.

use vb::{COLUMNS, ROWS};

use super::samples::{Samples, Stored};

/// Which colours have a value.
pub struct Rule<'a> {
    pub value: &'a dyn Fn([u8; 3]) -> Option<u8>,
    /// Whether a square must be of one colour, and not only of one value.
    pub exact: bool,
    /// What a pixel must be, for messages.
    pub allowed: String,
}

/// A PNG pixel: red, green, blue, and its value.
pub type Dot = [u8; 4];

/// Its value where a pixel has none.
const NONE: u8 = 0xFF;
const WRONG: Dot = [0, 0, 0, NONE];

/// How many pixels of more than eight bits are remembered. A clean capture has at most seven.
const KNOWN: usize = 64;

/// Gives `take` each row of 384 pixels; their red is the mean of their squares', rounded.
pub fn each_row(
    samples: &Samples,
    rule: &Rule,
    mut take: impl FnMut(&[Dot]),
) -> Result<(), String> {
    let scale = samples.header.width / COLUMNS;
    let mut reader = Reader {
        samples,
        rule,
        scale,
        table: table(samples, rule),
        known: [([0; 8], dot_of(samples, rule, [0; 8])); KNOWN],
        row: vec![WRONG; samples.header.width],
    };
    for y in 0..ROWS {
        match scale {
            1 => {
                reader.read(y)?;
                take(&reader.row);
            }
            _ => take(&reader.squares(y)?),
        }
    }
    Ok(())
}

struct Reader<'a> {
    samples: &'a Samples,
    rule: &'a Rule<'a>,
    scale: usize,
    /// The dot of each stored pixel, where it has at most eight bits.
    table: [Dot; 256],
    /// Dots of others that were seen, each at a place that its bytes give.
    known: [(Stored, Dot); KNOWN],
    /// The PNG's row that was read last.
    row: Vec<Dot>,
}

fn table(samples: &Samples, rule: &Rule) -> [Dot; 256] {
    let mut table = [WRONG; 256];
    for (n, dot) in table.iter_mut().enumerate().take(samples.one_byte_pixels()) {
        *dot = dot_of(samples, rule, [n as u8, 0, 0, 0, 0, 0, 0, 0]);
    }
    table
}

fn dot_of(samples: &Samples, rule: &Rule, stored: Stored) -> Dot {
    let Ok(colour) = samples.colour(stored, rule.exact) else { return WRONG };
    let [red, green, blue] = colour;
    (rule.value)(colour).map_or(WRONG, |value| [red, green, blue, value])
}

impl Reader<'_> {
    /// The pixels of a row of squares.
    fn squares(&mut self, y: usize) -> Result<Vec<Dot>, String> {
        let (scale, first) = (self.scale, self.scale * y);
        // rows that are stored alike are looked at once
        let rows = if self.samples.rows.alike(first, scale) { 1 } else { scale };
        let mut sums = [0; COLUMNS];
        let mut pixels: Vec<Dot> = Vec::with_capacity(COLUMNS);
        for row in first..first + rows {
            self.read(row)?;
            if pixels.is_empty() {
                pixels.extend(self.row.iter().step_by(scale));
            }
            for (x, square) in self.row.chunks_exact(scale).enumerate() {
                let same = |dot: &Dot| match self.rule.exact {
                    true => *dot == pixels[x],
                    false => dot[3] == pixels[x][3],
                };
                if !square.iter().all(same) {
                    return Err(format!(
                        "in the PNG, pixel ({x}, {y}) is not one square of {scale} by {scale}"
                    ));
                }
                sums[x] += square.iter().map(|dot| usize::from(dot[0])).sum::<usize>();
            }
        }
        let count = scale * rows;
        for (pixel, sum) in pixels.iter_mut().zip(sums) {
            pixel[0] = ((sum + count / 2) / count) as u8;
        }
        Ok(pixels)
    }

    /// Reads a row of the PNG. Each of its pixels must have a value.
    fn read(&mut self, y: usize) -> Result<(), String> {
        let row = self.samples.rows.row(y);
        match self.samples.header.bits() {
            1 => unpack::<1>(&self.table, row, &mut self.row),
            2 => unpack::<2>(&self.table, row, &mut self.row),
            4 => unpack::<4>(&self.table, row, &mut self.row),
            8 => unpack::<8>(&self.table, row, &mut self.row),
            16 => self.look_up::<2>(row),
            24 => self.look_up::<3>(row),
            32 => self.look_up::<4>(row),
            48 => self.look_up::<6>(row),
            _ => self.look_up::<8>(row),
        }
        // one number for all of them: a loop that could end early would take longer
        let most = self.row.iter().fold(0, |most, dot| dot[3].max(most));
        match most {
            NONE => Err(self.wrong(y)),
            _ => Ok(()),
        }
    }

    /// Pixels of N bytes.
    fn look_up<const N: usize>(&mut self, row: &[u8]) {
        for (dot, bytes) in self.row.iter_mut().zip(row.chunks_exact(N)) {
            let mut stored = [0; 8];
            stored[..N].copy_from_slice(bytes);
            // an odd number spreads the bytes over the upper bits
            let place = u64::from_le_bytes(stored).wrapping_mul(0x9E37_79B9_7F4A_7C15) >> 58;
            let known = &mut self.known[place as usize];
            if known.0 != stored {
                *known = (stored, dot_of(self.samples, self.rule, stored));
            }
            *dot = known.1;
        }
    }

    /// What is wrong with the first pixel of the row that has no value.
    fn wrong(&self, y: usize) -> String {
        let x = self.row.iter().position(|dot| dot[3] == NONE).unwrap_or(0);
        let what = match self.samples.colour(self.samples.stored(x, y), self.rule.exact) {
            Ok([red, green, blue]) => format!("has the colour {red:02X}{green:02X}{blue:02X}"),
            Err(what) => what,
        };
        let (x, y, allowed) = (x / self.scale, y / self.scale, &self.rule.allowed);
        format!("in the PNG, pixel ({x}, {y}) {what}; {allowed}")
    }
}

/// Pixels of BITS bits, the first in a byte's high bits.
fn unpack<const BITS: usize>(table: &[Dot; 256], row: &[u8], into: &mut [Dot]) {
    for (dots, byte) in into.chunks_exact_mut(8 / BITS).zip(row) {
        for (n, dot) in dots.iter_mut().enumerate() {
            let low = 8 - BITS * (n + 1);
            *dot = table[usize::from(byte >> low) & ((1 << BITS) - 1)];
        }
    }
}
