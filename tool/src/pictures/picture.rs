//! Pictures: the pixels of an image of VRAM, and PNG files of them.

use png::{BitDepth, ColorType, Encoder};
use vb::{COLUMNS, ROWS};

/// The red of pixel values 0 to 3 in a PNG.
pub const SHADES: [u8; 4] = [0x00, 0x55, 0xAA, 0xFF];

/// How many times a pixel can be enlarged at most.
pub const LARGEST_SCALE: usize = 16;

/// Yellow and cyan, for pixels that a capture has brighter or darker.
const BRIGHTER: [u8; 3] = [0xFF, 0xE0, 0x00];
const DARKER: [u8; 3] = [0x00, 0xD0, 0xFF];

/// One eye's picture: 384 by 224 values of 0 to 3, row by row.
#[derive(Clone, Debug, PartialEq, Eq)]
pub struct Picture {
    values: Vec<u8>,
}

impl Picture {
    /// The picture of an image of 24,576 bytes. Rows 224 to 255 are left out.
    pub fn of_image(image: &[u8]) -> Picture {
        let mut values = vec![0; COLUMNS * ROWS];
        // a byte has four rows of a column, the uppermost in its low bits; byte after byte is quicker than pixel after pixel
        for (four, rows) in values.chunks_exact_mut(4 * COLUMNS).enumerate() {
            for x in 0..COLUMNS {
                let byte = image[64 * x + four];
                (0..4).for_each(|row| rows[row * COLUMNS + x] = byte >> (2 * row) & 3);
            }
        }
        Picture { values }
    }

    /// The picture of 384 by 224 values.
    pub fn of_values(values: Vec<u8>) -> Picture {
        assert_eq!(values.len(), COLUMNS * ROWS);
        Picture { values }
    }

    pub fn value(&self, x: usize, y: usize) -> u8 {
        self.values[y * COLUMNS + x]
    }

    /// Shades of red, as on the console.
    pub fn png(&self, scale: usize) -> Vec<u8> {
        Sheet::new(COLUMNS, reds(), |x, y| self.value(x, y)).png(scale)
    }

    /// The left eye's picture, then the right one's.
    pub fn side_by_side(&self, right: &Picture, scale: usize) -> Vec<u8> {
        let at = |x: usize, y: usize| match x {
            x if x < COLUMNS => self.value(x, y),
            x => right.value(x - COLUMNS, y),
        };
        Sheet::new(2 * COLUMNS, reds(), at).png(scale)
    }

    /// Red for the left eye, cyan for the right one.
    pub fn anaglyph(&self, right: &Picture, scale: usize) -> Vec<u8> {
        let palette = (0..16).flat_map(|i| [SHADES[i / 4], SHADES[i % 4], SHADES[i % 4]]).collect();
        let at = |x: usize, y: usize| 4 * self.value(x, y) + right.value(x, y);
        Sheet::new(COLUMNS, palette, at).png(scale)
    }

    /// This picture in grey; yellow where `seen` is brighter, cyan where it is darker.
    pub fn marked(&self, seen: &Picture, scale: usize) -> Vec<u8> {
        let mut palette: Vec<u8> = [0x00, 0x2A, 0x48, 0x66].iter().flat_map(|&g| [g; 3]).collect();
        palette.extend([BRIGHTER, DARKER].concat());
        let at = |x: usize, y: usize| match (self.value(x, y), seen.value(x, y)) {
            (expected, seen) if seen > expected => 4,
            (expected, seen) if seen < expected => 5,
            (expected, _) => expected,
        };
        Sheet::new(COLUMNS, palette, at).png(scale)
    }

    /// The pixels of `seen` that differ from this picture, in red; the others are transparent. Over this picture it
    /// shows `seen`.
    pub fn changes(&self, seen: &Picture) -> Vec<u8> {
        let at = |x: usize, y: usize| match (self.value(x, y), seen.value(x, y)) {
            (expected, seen) if seen == expected => 0,
            (_, seen) => seen + 1,
        };
        Sheet::over(&reds(), at).png(1)
    }

    /// Yellow where `seen` is brighter, cyan where it is darker; the other pixels are transparent.
    pub fn marks(&self, seen: &Picture) -> Vec<u8> {
        let at = |x: usize, y: usize| match (self.value(x, y), seen.value(x, y)) {
            (expected, seen) if seen > expected => 1,
            (expected, seen) if seen < expected => 2,
            _ => 0,
        };
        Sheet::over(&[BRIGHTER, DARKER].concat(), at).png(1)
    }
}

fn reds() -> Vec<u8> {
    SHADES.iter().flat_map(|&red| [red, 0, 0]).collect()
}

/// Pixels that name a colour of a palette.
pub struct Sheet {
    width: usize,
    palette: Vec<u8>,
    indices: Vec<u8>,
    /// Whether colour 0 is transparent.
    clear: bool,
}

impl Sheet {
    pub fn new(width: usize, palette: Vec<u8>, at: impl Fn(usize, usize) -> u8) -> Sheet {
        let indices = (0..width * ROWS).map(|i| at(i % width, i / width)).collect();
        Sheet { width, palette, indices, clear: false }
    }

    /// One to lay over another picture: index 0 is transparent, the palette's colours begin at 1.
    fn over(palette: &[u8], at: impl Fn(usize, usize) -> u8) -> Sheet {
        Sheet { clear: true, ..Sheet::new(COLUMNS, [&[0; 3], palette].concat(), at) }
    }

    /// A PNG with `scale` by `scale` pixels for each, in as few bits as the palette needs.
    pub fn png(&self, scale: usize) -> Vec<u8> {
        let (depth, bits) = match self.palette.len() / 3 {
            0..=2 => (BitDepth::One, 1),
            3..=4 => (BitDepth::Two, 2),
            5..=16 => (BitDepth::Four, 4),
            _ => (BitDepth::Eight, 8),
        };
        let mut pixels = Vec::with_capacity(self.indices.len() * scale * scale * bits / 8);
        for row in self.indices.chunks(self.width) {
            let wide: Vec<u8> = row.iter().flat_map(|&i| std::iter::repeat_n(i, scale)).collect();
            // the first pixel lies in a byte's high bits
            let pack = |some: &[u8]| {
                let byte = some.iter().fold(0, |byte: u32, &i| byte << bits | u32::from(i));
                (byte << (8 - bits * some.len())) as u8
            };
            let packed: Vec<u8> = wide.chunks(8 / bits).map(pack).collect();
            (0..scale).for_each(|_| pixels.extend_from_slice(&packed));
        }
        let mut bytes = Vec::new();
        let height = self.indices.len() / self.width;
        let mut encoder =
            Encoder::new(&mut bytes, (self.width * scale) as u32, (height * scale) as u32);
        encoder.set_color(ColorType::Indexed);
        encoder.set_depth(depth);
        encoder.set_palette(self.palette.as_slice());
        if self.clear {
            encoder.set_trns(vec![0]);
        }
        let mut writer = encoder.write_header().expect("a PNG in memory");
        writer.write_image_data(&pixels).expect("a PNG in memory");
        writer.finish().expect("a PNG in memory");
        bytes
    }
}

#[cfg(test)]
mod tests {
    use super::*;

    #[test]
    fn pixels_lie_where_the_papers_say() {
        // pixel (1, 9): offset 66, bits 2 and 3
        let mut image = vec![0; vb::IMAGE_LENGTH];
        image[66] = 2 << 2;
        let picture = Picture::of_image(&image);
        assert_eq!(
            (picture.value(1, 9), picture.values.iter().map(|&v| v as u32).sum()),
            (2, 2u32)
        );
        (0..image.len()).for_each(|at| image[at] = (at * 31 % 251) as u8);
        let picture = Picture::of_image(&image);
        for (x, y) in (0..ROWS).flat_map(|y| (0..COLUMNS).map(move |x| (x, y))) {
            assert_eq!(picture.value(x, y), vb::pixel(&image, x, y), "({x}, {y})");
        }
    }

    /// Width, height, bits of a pixel, and red, green, blue and opacity of each.
    fn read(bytes: &[u8]) -> (u32, u32, BitDepth, Vec<[u8; 4]>) {
        let depth = png::Decoder::new(bytes).read_info().unwrap().info().bit_depth;
        let mut decoder = png::Decoder::new(bytes);
        decoder.set_transformations(png::Transformations::EXPAND);
        let mut reader = decoder.read_info().unwrap();
        let mut buffer = vec![0; reader.output_buffer_size()];
        let frame = reader.next_frame(&mut buffer).unwrap();
        let samples = frame.color_type.samples();
        let pixel = |p: &[u8]| [p[0], p[1], p[2], p.get(3).copied().unwrap_or(0xFF)];
        (frame.width, frame.height, depth, buffer.chunks(samples).map(pixel).collect())
    }

    #[test]
    fn a_picture_has_two_bits_for_each_pixel() {
        let values: Vec<u8> = (0..COLUMNS * ROWS).map(|i| (i * 7 / 5 % 4) as u8).collect();
        let picture = Picture::of_values(values.clone());
        for scale in [1, 3] {
            let (width, height, depth, pixels) = read(&picture.png(scale));
            let size = ((COLUMNS * scale) as u32, (ROWS * scale) as u32);
            assert_eq!(((width, height), depth), (size, BitDepth::Two));
            for (i, pixel) in pixels.iter().enumerate() {
                let (x, y) = (i % (COLUMNS * scale) / scale, i / (COLUMNS * scale) / scale);
                let red = SHADES[usize::from(picture.value(x, y))];
                assert_eq!(*pixel, [red, 0, 0, 0xFF], "({x}, {y})");
            }
        }
    }

    #[test]
    fn changes_over_the_model_are_the_capture() {
        let model = Picture::of_values((0..COLUMNS * ROWS).map(|i| (i % 4) as u8).collect());
        let seen = (0..COLUMNS * ROWS).map(|i| if i % 11 == 0 { i / 11 % 4 } else { i % 4 } as u8);
        let seen = Picture::of_values(seen.collect());
        let (_, _, _, below) = read(&model.png(1));
        let (_, _, _, above) = read(&model.changes(&seen));
        let (_, _, _, marks) = read(&model.marks(&seen));
        let (_, _, _, wanted) = read(&seen.png(1));
        for (i, want) in wanted.iter().enumerate() {
            let shown = if above[i][3] == 0 { below[i] } else { above[i] };
            assert_eq!(shown, *want, "pixel {i}");
            let mark = match seen.values[i].cmp(&model.values[i]) {
                std::cmp::Ordering::Greater => [0xFF, 0xE0, 0x00, 0xFF],
                std::cmp::Ordering::Less => [0x00, 0xD0, 0xFF, 0xFF],
                std::cmp::Ordering::Equal => [0; 4],
            };
            assert_eq!(marks[i], mark, "mark {i}");
        }
    }
}
