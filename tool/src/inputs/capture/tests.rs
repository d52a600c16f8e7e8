use png::{BitDepth, ColorType, Encoder};

use super::*;

const PIXELS: usize = COLUMNS * ROWS;

fn pattern() -> Picture {
    Picture::of_values((0..PIXELS).map(|i| (i * 7 / 5 % 4) as u8).collect())
}

fn read(bytes: &[u8]) -> Result<Picture, String> {
    Capture::of_png(bytes, 0).map(|capture| capture.picture)
}

/// A PNG of 384 by 224 pixels with these stored samples.
fn png(colour: ColorType, depth: BitDepth, data: &[u8], trns: &[u8]) -> Vec<u8> {
    let mut bytes = Vec::new();
    let mut encoder = Encoder::new(&mut bytes, COLUMNS as u32, ROWS as u32);
    encoder.set_color(colour);
    encoder.set_depth(depth);
    if colour == ColorType::Indexed {
        encoder.set_palette(vec![0, 0, 0, 0x55, 0, 0, 0xAA, 0, 0, 0xFF, 0, 0]);
    }
    if !trns.is_empty() {
        encoder.set_trns(trns.to_vec());
    }
    let mut writer = encoder.write_header().unwrap();
    writer.write_image_data(data).unwrap();
    writer.finish().unwrap();
    bytes
}

fn refused(bytes: &[u8], part: &str) {
    let wrong = read(bytes).err().unwrap_or_else(|| panic!("taken: {part}"));
    assert!(wrong.contains(part), "{wrong}\nnot\n{part}");
}

fn refused_pixel(bytes: &[u8], what: &str) {
    refused(bytes, &format!("in the PNG, pixel (5, 0) {what}; {ALLOWED}"));
}

/// Samples of one kind, the fifth pixel's changed at byte `n` to `value`.
fn changed(sample: &[u8], n: usize, value: u8) -> Vec<u8> {
    let mut data = sample.repeat(PIXELS);
    data[5 * sample.len() + n] = value;
    data
}

#[test]
fn a_png_reads_back_as_its_picture() {
    for scale in [1, 2, 5] {
        assert!(read(&pattern().png(scale)) == Ok(pattern()), "scale {scale}");
    }
}

#[test]
fn a_palette_index_beyond_plte_is_refused() {
    let data = changed(&[3], 0, 4);
    let bytes = png(ColorType::Indexed, BitDepth::Eight, &data, &[]);
    refused_pixel(&bytes, "has the palette index 4; PLTE has 4 colours");
}

/// Readers take the colours from the first PLTE, and may not look for one after the image.
#[test]
fn a_palette_after_the_image_is_refused() {
    let mut bytes = png(ColorType::Indexed, BitDepth::Eight, &[0; PIXELS], &[]);
    let plte = bytes.windows(4).position(|name| name == b"PLTE").unwrap() - 4;
    let chunk = bytes[plte..plte + 24].to_vec();
    bytes.splice(bytes.len() - 12..bytes.len() - 12, chunk);
    refused(&bytes, "the PNG has a chunk PLTE after its image; it must come before");
}

#[test]
fn any_alpha_is_refused() {
    let opaque = png(ColorType::Rgba, BitDepth::Eight, &changed(&[0x55, 0, 0, 0xFF], 0, 0xAA), &[]);
    assert!(read(&opaque).is_ok());
    let rgba = changed(&[0xFF, 0, 0, 0xFF], 3, 0);
    refused_pixel(&png(ColorType::Rgba, BitDepth::Eight, &rgba, &[]), "has the alpha 0 of FF");
    let grey = changed(&[0x55, 0xFF], 1, 7);
    let grey = png(ColorType::GrayscaleAlpha, BitDepth::Eight, &grey, &[]);
    refused_pixel(&grey, "has the alpha 7 of FF");
    let deep = changed(&[0x55, 0x55, 0xFF, 0xFF], 3, 0xFE);
    let deep = png(ColorType::GrayscaleAlpha, BitDepth::Sixteen, &deep, &[]);
    refused_pixel(&deep, "has the alpha FFFE of FFFF");
    let palette = png(ColorType::Indexed, BitDepth::Eight, &changed(&[0], 0, 2), &[255, 255, 9]);
    refused_pixel(&palette, "has the alpha 9 of FF");
    let key = png(ColorType::Grayscale, BitDepth::Eight, &changed(&[0], 0, 0xFF), &[0, 0xFF]);
    refused_pixel(&key, "has the colour that tRNS makes transparent");
}

#[test]
fn samples_of_16_bits_between_the_levels_are_refused() {
    let right = png(ColorType::Grayscale, BitDepth::Sixteen, &[0xAA; 2 * PIXELS], &[]);
    assert!(read(&right) == Ok(Picture::of_values(vec![2; PIXELS])));
    for (n, value, given) in [(1, 0xFE, "00FE"), (0, 0x55, "5500")] {
        let data = changed(&[0, 0], n, value);
        let bytes = png(ColorType::Grayscale, BitDepth::Sixteen, &data, &[]);
        let what =
            format!("has the 16-bit sample {given}, which is not one of 0000, 5555, AAAA and FFFF");
        refused_pixel(&bytes, &what);
    }
    let data = changed(&[0x55, 0x55, 0, 0, 0, 0], 1, 0x80);
    let bytes = png(ColorType::Rgb, BitDepth::Sixteen, &data, &[]);
    refused_pixel(
        &bytes,
        "has the 16-bit sample 5580, which is not one of 0000, 5555, AAAA and FFFF",
    );
}

#[test]
fn bytes_after_iend_are_refused() {
    let one = pattern().png(1);
    for more in [vec![0], one.clone()] {
        let given = vb::grouped(more.len() as u64);
        let both = [one.clone(), more].concat();
        refused(&both, &format!("{given} bytes follow the PNG's IEND; it must be the file's end"));
    }
    refused(&one[..one.len() - 12], "the PNG cannot be read: it ends before its IEND");
    refused(&one[..one.len() - 13], "the PNG cannot be read: ");
    refused(&one[..100], "cannot be read");
}

#[test]
fn every_depth_of_grey_is_read() {
    let levels = |depth: usize| -> Vec<u8> {
        // values 0 and 3 alternate; a row has a whole number of bytes at each depth
        let ones = if depth == 1 { 0x55 } else { 0x0F };
        vec![ones; PIXELS * depth / 8]
    };
    for (depth, bits) in [(BitDepth::One, 1), (BitDepth::Four, 4)] {
        let read = read(&png(ColorType::Grayscale, depth, &levels(bits), &[])).unwrap();
        assert!((0..COLUMNS).all(|x| read.value(x, 9) == if x % 2 == 1 { 3 } else { 0 }));
    }
    let read =
        read(&png(ColorType::Grayscale, BitDepth::Two, &vec![0x1B; PIXELS / 4], &[])).unwrap();
    assert!((0..COLUMNS).all(|x| read.value(x, 100) == (x % 4) as u8));
}

#[test]
fn sizes_and_colours_that_are_not_allowed_are_named() {
    let wide = pattern().side_by_side(&pattern(), 1);
    refused(&wide, "the PNG has 768 by 224 pixels");
    refused(
        &pattern().marked(&pattern(), 1),
        "has the colour 2A2A2A; it must be opaque red or grey",
    );
    let both = pattern().anaglyph(&Picture::of_image(&[0xFF; IMAGE_LENGTH]), 1);
    refused(&both, "pixel (0, 0) has the colour 00FFFF");
}

#[test]
fn a_threshold_takes_the_nearest_level_and_says_what_it_saw() {
    let data = changed(&[0x50, 3, 0], 0, 0x5A);
    let bytes = png(ColorType::Rgb, BitDepth::Eight, &data, &[]);
    refused(&bytes, "pixel (0, 0) has the colour 500300");
    let taken = Capture::of_png(&bytes, 5).unwrap();
    assert!(taken.picture == Picture::of_values(vec![1; PIXELS]));
    let levels = taken.levels.unwrap();
    assert_eq!(levels[1].text(), "1 (55): 50 to 5A");
    assert_eq!(levels[3].text(), "3 (FF): not seen");
    let wrong = Capture::of_png(&bytes, 4).err().unwrap();
    assert!(wrong.ends_with("(values 0 to 3), by at most 4 (--threshold)"), "{wrong}");
    for sample in 0..=255 {
        assert!(value_of([sample; 3], LARGEST_THRESHOLD).is_some(), "{sample}");
    }
}

/// The mean of 00 and AA is 55: a pixel whose samples are of two levels has no level.
#[test]
fn a_threshold_is_kept_by_every_sample_of_a_pixel() {
    let dithered = |samples: [u8; 2]| {
        let mut bytes = Vec::new();
        let mut encoder = Encoder::new(&mut bytes, 2 * COLUMNS as u32, 2 * ROWS as u32);
        encoder.set_color(ColorType::Grayscale);
        encoder.set_depth(BitDepth::Eight);
        let mut writer = encoder.write_header().unwrap();
        writer.write_image_data(&samples.repeat(2 * PIXELS)).unwrap();
        writer.finish().unwrap();
        Capture::of_png(&bytes, 42)
    };
    assert!(dithered([0x50, 0x5A]).unwrap().picture == Picture::of_values(vec![1; PIXELS]));
    let wrong = dithered([0x00, 0xAA]).err().unwrap();
    assert_eq!(wrong, "in the PNG, pixel (0, 0) is not one square of 2 by 2");
}
