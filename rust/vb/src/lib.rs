//! The console reference model as a safe Rust crate over the proved library.
//!
//! The caller passes the memories; the machine's records go by value. A call
//! that is refused changes nothing and says which rule of paper 01 it broke,
//! what was given and what is allowed.
//!
//! ```
//! let (rom, mut wram, mut vram) = (vec![0; 1024], vec![0; 65536], vec![0; 262144]);
//! let mut machine = vb::Machine::reset();
//! let mut memories = vb::Memories { rom: &rom, wram: &mut wram, vram: &mut vram, pak: &mut [] };
//! let ran = machine.run(&mut memories, 8).unwrap();
//! assert_eq!((ran.count, ran.stop), (8, vb::Stop::Budget));
//! machine.drawing.draw_frame(&mut vram, 0).unwrap();
//! let refused = machine.drawing.draw_frame(&mut vram, 2).unwrap_err();
//! assert_eq!(refused.to_string(), "refusal 7: frame 2 was asked for; frames are 0 and 1");
//! ```
#![forbid(unsafe_code)]
#![warn(missing_docs)]

mod brightness;
mod calls;
mod instructions;
mod lists;
mod pixel_bytes;
mod probe;
mod records;
mod refusal;
mod replays;
mod states;
mod undefined;

pub use brightness::{display, load_column_table, View};
pub use calls::{character, Answer, Cause, Ran, Stop};
pub use instructions::{decode, encode, left_out, op, Decoded, Halfwords, Instruction};
pub use lists::{read, write};
pub use pixel_bytes::NoList;
pub use probe::{Probe, Width};
pub use records::{Drawing, Hardware, Machine, Mode, Processor, RecordError};
pub use refusal::{grouped, Refusal};
pub use replays::{record, End, Replayed, Word, RECORD_LENGTH};
pub use states::{move_state, salvage_state, Salvaged};
pub use undefined::{Mask, Read, Undefined};
pub use vbsys::{refusal_text, version, version_text};
pub use vbsys::{state_2_bytes, state_bytes, Access, Memories, ProbeMemories, ReadMemories};

/// Bytes of WRAM.
pub const WRAM_LENGTH: usize = 65_536;
/// Bytes of VRAM.
pub const VRAM_LENGTH: usize = 262_144;
/// Bytes of a processor record: 43 little-endian words and four halfwords in vb.h's order.
pub const PROCESSOR_LENGTH: usize = 180;
/// Bytes of its words, which stand in a saved state: the request lines and the timer come after them.
pub const PROCESSOR_WORDS_LENGTH: usize = 172;
/// Bytes of a drawing record: 13 little-endian halfwords in vb.h's order.
pub const DRAWING_LENGTH: usize = 26;
/// Columns of a picture.
pub const COLUMNS: usize = 384;
/// Rows of a picture; the image has 256, and those below are never drawn.
pub const ROWS: usize = 224;
/// Bytes of an image: 384 columns of 64 bytes.
pub const IMAGE_LENGTH: usize = 24_576;

/// Bytes of an output buffer for the brightness of an eye's pixels, one per pixel.
pub const DISPLAY_LENGTH: usize = COLUMNS * ROWS;
/// The brightness that no pixel exceeds.
pub const FULL_BRIGHTNESS: u8 = 128;

/// Where the image of a frame (0 or 1) and an eye (0 left, 1 right) lies in VRAM.
pub fn image_offset(frame: u32, eye: u32) -> usize {
    0x8000 * (frame as usize) + 0x10000 * (eye as usize)
}

/// The value, 0 to 3, of the pixel (x, y) of an image.
pub fn pixel(image: &[u8], x: usize, y: usize) -> u8 {
    image[64 * x + y / 4] >> (2 * (y % 4)) & 3
}
