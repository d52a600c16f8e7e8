//! Faults of the frame buffers: what is stored of a picture that was drawn well.

use vb::{image_offset, COLUMNS, IMAGE_LENGTH};

use super::bits::Bits;

#[derive(Clone, Debug, PartialEq)]
pub enum Buffer {
    /// All pixels of a column of an eye have this shade.
    Column {
        x: usize,
        eye: usize,
        shade: u16,
    },
    /// All pixels of a row of an eye have this shade.
    Row {
        y: usize,
        eye: usize,
        shade: u16,
    },
    /// Bits of each halfword that is stored for an eye.
    Data {
        eye: usize,
        bits: Bits,
    },
    /// The number of the halfword in its image, 14 bits; stores beyond column 383 are lost.
    Address(Bits),
    /// Columns are stored from the other side.
    ColumnsMirrored,
    /// This byte of each image keeps what it held.
    ByteLost(usize),
    StripSkipped(usize),
    /// The strip is stored as the one above it.
    StripRepeats(usize),
    EyeLost(usize),
    EyesExchanged,
    FrameAlways(u32),
}

/// Halfwords of a column, of which the first 28 are drawn.
const HALVES: usize = 32;
const STRIPS: usize = 28;

/// VRAM before and after a drawing, and its frame buffer.
pub struct Drawn<'a> {
    pub before: &'a [u8],
    pub after: &'a mut [u8],
    pub frame: u32,
}

impl Drawn<'_> {
    fn image(&mut self, eye: usize) -> &mut [u8] {
        &mut self.after[image_offset(self.frame, eye as u32)..][..IMAGE_LENGTH]
    }

    fn image_before(&self, eye: usize) -> &[u8] {
        &self.before[image_offset(self.frame, eye as u32)..][..IMAGE_LENGTH]
    }

    /// Stores an eye's picture again, each halfword where and as this says, strip by strip from the left.
    fn store_again(&mut self, eye: usize, place: impl Fn(usize) -> (usize, Option<Bits>)) {
        let drawn = self.image(eye).to_vec();
        let before = self.image_before(eye).to_vec();
        let image = self.image(eye);
        image.copy_from_slice(&before);
        for number in (0..STRIPS).flat_map(|strip| (0..COLUMNS).map(move |x| HALVES * x + strip)) {
            let (at, bits) = place(number);
            if at < HALVES * COLUMNS {
                let half = u16::from_le_bytes([drawn[2 * number], drawn[2 * number + 1]]);
                let half = bits.map_or(half, |bits| bits.apply(half));
                image[2 * at..2 * at + 2].copy_from_slice(&half.to_le_bytes());
            }
        }
    }

    fn copy_strip(&mut self, from: usize, to: usize) {
        for eye in 0..2 {
            for column in self.image(eye).chunks_exact_mut(2 * HALVES) {
                column.copy_within(2 * from..2 * from + 2, 2 * to);
            }
        }
    }

    fn keep(&mut self, eye: usize, bytes: impl Iterator<Item = usize>) {
        for n in bytes {
            let byte = self.image_before(eye)[n];
            self.image(eye)[n] = byte;
        }
    }

    fn exchange_eyes(&mut self) {
        for n in (0..IMAGE_LENGTH).filter(|n| n % 64 < 2 * STRIPS) {
            let [left, right] = [0, 1].map(|eye| image_offset(self.frame, eye) + n);
            self.after.swap(left, right);
        }
    }

    /// The picture goes to this frame buffer.
    fn move_to(&mut self, frame: u32) {
        for eye in 0..2 {
            let [from, to] = [self.frame, frame].map(|frame| image_offset(frame, eye));
            for n in (0..IMAGE_LENGTH).filter(|n| n % 64 < 2 * STRIPS) {
                let byte = self.after[from + n];
                self.after[from + n] = self.before[from + n];
                self.after[to + n] = byte;
            }
        }
    }
}

impl Buffer {
    /// Changes what a drawing left.
    pub fn apply(&self, drawn: &mut Drawn) {
        match *self {
            Buffer::Column { x, eye, shade } => {
                drawn.image(eye)[64 * x..][..2 * STRIPS].fill((shade * 0x55) as u8);
            }
            Buffer::Row { y, eye, shade } => {
                for column in drawn.image(eye).chunks_exact_mut(64) {
                    let (byte, low) = (&mut column[y / 4], 2 * (y % 4));
                    *byte = *byte & !(3 << low) | (shade as u8) << low;
                }
            }
            Buffer::Data { eye, bits } => drawn.store_again(eye, |n| (n, Some(bits))),
            Buffer::Address(bits) => {
                for eye in 0..2 {
                    drawn.store_again(eye, |n| (usize::from(bits.apply(n as u16)), None));
                }
            }
            Buffer::ColumnsMirrored => {
                for eye in 0..2 {
                    let last = HALVES * (COLUMNS - 1);
                    drawn.store_again(eye, |n| (last - n / HALVES * HALVES + n % HALVES, None));
                }
            }
            Buffer::ByteLost(n) => (0..2).for_each(|eye| drawn.keep(eye, n..n + 1)),
            Buffer::StripSkipped(strip) => {
                let bytes = |x: usize| [64 * x + 2 * strip, 64 * x + 2 * strip + 1];
                (0..2).for_each(|eye| drawn.keep(eye, (0..COLUMNS).flat_map(bytes)));
            }
            Buffer::StripRepeats(strip) => drawn.copy_strip(strip - 1, strip),
            Buffer::EyeLost(eye) => drawn.keep(eye, 0..IMAGE_LENGTH),
            Buffer::EyesExchanged => drawn.exchange_eyes(),
            Buffer::FrameAlways(frame) if frame != drawn.frame => drawn.move_to(frame),
            Buffer::FrameAlways(_) => {}
        }
    }
}
