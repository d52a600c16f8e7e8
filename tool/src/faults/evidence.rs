//! What a bench sees of a simulated die, compared with what the plan expects.

use serde::{Deserialize, Serialize};
use vb::{grouped, pixel, COLUMNS, ROWS};

use crate::eye::Eye;
use crate::inputs::trace::{Record, WORDS};

/// How a die with a fault first differs from the model.
#[derive(Clone, Debug, Deserialize, PartialEq, Eq, Serialize)]
#[serde(rename_all = "kebab-case", tag = "by")]
pub enum Difference {
    Picture {
        frame: usize,
        eye: Eye,
        x: usize,
        y: usize,
        expected: u8,
        seen: u8,
        /// How many pixels of the eye differ.
        pixels: usize,
    },
    Trace {
        record: u64,
        word: usize,
        expected: u32,
        seen: u32,
    },
    /// The trace has fewer or more records.
    Length {
        records: u64,
    },
    Memory {
        memory: String,
        address: u32,
        expected: u8,
        seen: u8,
    },
    /// It does not come to its end: no capture is made.
    NoEnd {
        why: String,
    },
}

impl Difference {
    /// The word of the reports.
    pub fn by(&self) -> &'static str {
        match self {
            Difference::Picture { .. } => "picture",
            Difference::Trace { .. } | Difference::Length { .. } => "trace",
            Difference::Memory { .. } => "memory",
            Difference::NoEnd { .. } => "no end",
        }
    }

    pub fn text(&self) -> String {
        match self {
            Difference::Picture { frame, eye, x, y, expected, seen, pixels } => format!(
                "frame {frame}, {eye} eye: {} pixels, the first ({x}, {y}), expected {expected}, seen {seen}",
                grouped(*pixels as u64)
            ),
            Difference::Trace { record, word, expected, seen } => format!(
                "record {} differs in {}, expected 0x{expected:08X}, seen 0x{seen:08X}",
                grouped(*record),
                WORDS[*word]
            ),
            Difference::Length { records } => {
                format!("the trace has {} records", grouped(*records))
            }
            Difference::Memory { memory, address, expected, seen } => format!(
                "{memory} at 0x{address:08X}, expected 0x{expected:02X}, seen 0x{seen:02X}"
            ),
            Difference::NoEnd { why } => format!("no end: {why}"),
        }
    }
}

/// The bytes of a column that hold its 224 rows.
const COLUMN: usize = ROWS / 4;
/// The bytes of a column in VRAM.
const STRIDE: usize = 64;

/// The first pixel in which two images differ, row by row, with its values, and how many do.
pub fn image_difference(expected: &[u8], seen: &[u8]) -> Option<(usize, usize, u8, u8, usize)> {
    let columns = expected.chunks_exact(STRIDE).zip(seen.chunks_exact(STRIDE)).enumerate();
    let differing = columns.filter(|(_, (one, two))| one[..COLUMN] != two[..COLUMN]);
    let differing: Vec<usize> = differing.map(|(x, _)| x).collect();
    if differing.is_empty() {
        return None;
    }
    let pixels = (0..ROWS).flat_map(|y| differing.iter().map(move |&x| (x, y)));
    let mut pixels = pixels.filter(|&(x, y)| pixel(expected, x, y) != pixel(seen, x, y));
    let (x, y) = pixels.next()?;
    debug_assert!(x < COLUMNS);
    Some((x, y, pixel(expected, x, y), pixel(seen, x, y), 1 + pixels.count()))
}

/// The first word in which two records differ.
pub fn record_difference(record: u64, expected: Record, seen: Record) -> Option<Difference> {
    let word = (0..4).find(|&word| expected[word] != seen[word])?;
    Some(Difference::Trace { record, word, expected: expected[word], seen: seen[word] })
}
