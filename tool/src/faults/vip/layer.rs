//! Pictures as words of 32 pixels: what one world or one group of objects paints, and layers laid over each other.

use vb::{image_offset, COLUMNS};

/// Words of a column: 224 rows, 32 each.
pub const WORDS: usize = 7;
/// Bytes of a column in a frame buffer, of which the last eight are never drawn.
const COLUMN_BYTES: usize = 64;

/// One eye's picture, column by column.
pub type Plane = Vec<u64>;

/// What is painted in each eye: pixels of `painted` are 3, and `shade` has their shade.
#[derive(Clone)]
pub struct Layer {
    pub painted: [Plane; 2],
    pub shade: [Plane; 2],
}

/// The picture of a frame buffer and an eye.
pub fn plane(vram: &[u8], frame: u32, eye: usize) -> Plane {
    let image = &vram[image_offset(frame, eye as u32)..];
    let mut plane = Vec::with_capacity(COLUMNS * WORDS);
    for column in image.chunks_exact(COLUMN_BYTES).take(COLUMNS) {
        for word in column.chunks_exact(8).take(WORDS) {
            plane.push(u64::from_le_bytes(word.try_into().expect("eight bytes")));
        }
    }
    plane
}

/// Stores a picture; the rows that are never drawn stay.
pub fn store(vram: &mut [u8], frame: u32, eye: usize, plane: &Plane) {
    let image = &mut vram[image_offset(frame, eye as u32)..];
    for (column, words) in image.chunks_exact_mut(COLUMN_BYTES).zip(plane.chunks_exact(WORDS)) {
        for (bytes, word) in column.chunks_exact_mut(8).zip(words) {
            bytes.copy_from_slice(&word.to_le_bytes());
        }
    }
}

/// All pixels of this shade.
pub fn filled(shade: u16) -> Plane {
    vec![u64::from(shade) * 0x5555_5555_5555_5555; COLUMNS * WORDS]
}

/// The pixels of some columns and rows.
pub fn area(columns: std::ops::Range<i32>, rows: std::ops::Range<i32>) -> Plane {
    let mut column = [0u64; WORDS];
    for y in rows.start.max(0)..rows.end.min(224) {
        column[y as usize / 32] |= 3 << (2 * (y % 32));
    }
    let mut plane = filled(0);
    for x in columns.start.max(0)..columns.end.min(384) {
        plane[x as usize * WORDS..][..WORDS].copy_from_slice(&column);
    }
    plane
}

impl Layer {
    pub fn empty() -> Layer {
        Layer { painted: [filled(0), filled(0)], shade: [filled(0), filled(0)] }
    }

    /// The layer between a drawing over shade 0 (frame 0) and one over shade 3 (frame 1): painted is what both agree on.
    pub fn between(vram: &[u8]) -> Layer {
        let mut layer = Layer { painted: [vec![], vec![]], shade: [vec![], vec![]] };
        for eye in 0..2 {
            let (mut dark, bright) = (plane(vram, 0, eye), plane(vram, 1, eye));
            let painted: Plane = dark.iter().zip(&bright).map(|(a, b)| !(a ^ b)).collect();
            dark.iter_mut().zip(&painted).for_each(|(shade, painted)| *shade &= painted);
            (layer.painted[eye], layer.shade[eye]) = (painted, dark);
        }
        layer
    }

    /// Lays one eye of the layer over a picture.
    pub fn over(&self, eye: usize, picture: &mut Plane) {
        let layer = self.painted[eye].iter().zip(&self.shade[eye]);
        for (pixels, (painted, shade)) in picture.iter_mut().zip(layer) {
            *pixels = *pixels & !painted | shade;
        }
    }

    /// Takes one eye's pixels of an area from another layer.
    pub fn take(&mut self, eye: usize, area: &Plane, from: &Layer) {
        for n in 0..area.len() {
            let (area, keep) = (area[n], !area[n]);
            let (painted, shade) = (&mut self.painted[eye][n], &mut self.shade[eye][n]);
            *painted = *painted & keep | from.painted[eye][n] & area;
            *shade = *shade & keep | from.shade[eye][n] & area;
        }
    }

    /// Takes one eye from another layer.
    pub fn take_eye(&mut self, eye: usize, from: Layer) {
        let Layer { mut painted, mut shade } = from;
        self.painted[eye] = std::mem::take(&mut painted[eye]);
        self.shade[eye] = std::mem::take(&mut shade[eye]);
    }
}
