//! Captures in PNG: each chunk is known, each pixel is decoded from the file, and what could mean another picture is
//! refused.

mod common;

use common::{ihdr, packed, png_of_chunks, Folder, REDS};
use vbmodel::files::Input;
use vbmodel::inputs::capture::{Capture, Wanted};

type Chunk<'a> = (&'a [u8; 4], &'a [u8]);

/// The values' sum of a PNG's pixels where it is a valid capture, or why it is not.
fn read(bytes: &[u8]) -> Result<u64, String> {
    let input = Input { path: "a.png".into(), bytes: bytes.to_vec() };
    let read = Capture::read(&input, Wanted { frame: 0, eye: 0, threshold: 0 });
    let picture = read.map_err(|failure| failure.message)?.picture;
    let all = (0..224).flat_map(|y| (0..384).map(move |x| (x, y)));
    Ok(all.map(|(x, y)| u64::from(picture.value(x, y))).sum())
}

#[track_caller]
fn refused(chunks: &[Chunk], why: &str) {
    let error = read(&png_of_chunks(chunks)).expect_err(why);
    assert!(error.contains(why), "{error}\nnot\n{why}");
}

/// So many rows of 8-bit pixels of one kind.
fn rows(pixel: &[u8], count: usize) -> Vec<u8> {
    packed(&[&[0], &pixel.repeat(384)[..]].concat().repeat(count))
}

/// IHDR and image of 224 rows of 8-bit pixels.
fn image(colour: u8, pixel: &[u8]) -> (Vec<u8>, Vec<u8>) {
    (ihdr(384, 224, 8, colour, 0), rows(pixel, 224))
}

/// The contents of fcTL: the first frame of an animation, of this size, at the upper left.
fn frame(width: u32, height: u32) -> Vec<u8> {
    let [zero, width, height] = [0, width, height].map(u32::to_be_bytes);
    [zero, width, height, zero, zero].concat().into_iter().chain([0, 1, 0, 10, 0, 0]).collect()
}

#[test]
fn a_capture_of_which_only_a_frame_is_stored_is_refused() {
    let header = ihdr(384, 224, 8, 3, 0);
    for (width, height) in [(384, 56), (384, 1), (100, 224), (1, 1), (384, 224)] {
        let rows = packed(&[vec![0], vec![3; width]].concat().repeat(height));
        let control = frame(width as u32, height as u32);
        let why = "the PNG is an animation (chunk fcTL); a capture is one picture";
        let [ihdr, plte, idat, end]: [Chunk; 4] =
            [(b"IHDR", &header), (b"PLTE", &REDS), (b"IDAT", &rows), (b"IEND", &[])];
        refused(&[ihdr, plte, (b"fcTL", &control), idat, end], why);
        refused(&[ihdr, (b"fcTL", &control), plte, idat, end], why);
        if (width, height) != (384, 224) {
            assert!(read(&png_of_chunks(&[ihdr, plte, idat, end])).is_err());
        }
    }
    let (header, data) = image(3, &[3]);
    let [ihdr, plte, idat, end]: [Chunk; 4] =
        [(b"IHDR", &header), (b"PLTE", &REDS), (b"IDAT", &data), (b"IEND", &[])];
    for name in [b"acTL", b"fcTL", b"fdAT"] {
        let why = format!("animation (chunk {})", name.escape_ascii());
        for at in [1, 2, 3] {
            let mut chunks = vec![ihdr, plte, idat, end];
            chunks.insert(at, (name, &[0; 8]));
            refused(&chunks, &why);
        }
    }
}

#[test]
fn a_capture_with_any_transparency_is_refused() {
    let transparent = |colour: u8, pixel: &[u8], chunks: &[&[u8]]| {
        let (header, data) = image(colour, pixel);
        let mut all: Vec<Chunk> = vec![(b"IHDR", &header)];
        if colour == 3 {
            all.push((b"PLTE", &REDS));
        }
        all.extend(chunks.iter().map(|&trns| (b"tRNS", trns)));
        all.extend([(b"IDAT", &data[..]), (b"IEND", &[])]);
        read(&png_of_chunks(&all)).err()
    };
    // a key with bits that no sample has: readers leave them out, or look for a sample that has them
    let bits = "a sample of more than its 8 bits";
    for key in [[1, 0x55], [0xFF, 0x55], [0x80, 0xAA]] {
        assert!(transparent(0, &[0x55], &[&key]).unwrap().contains(bits));
        let key = [0, 0x55, key[0], key[1], 0, 0];
        assert!(transparent(2, &[0x55; 3], &[&key]).unwrap().contains(bits));
    }
    // a second tRNS, which may be empty
    for (colour, trns) in [(3, &[0xFF, 0, 0, 0][..]), (0, &[0, 0x55]), (2, &[0, 0x55, 0, 0, 0, 0])]
    {
        let pixel = [if colour == 3 { 1 } else { 0x55 }, 0, 0];
        let pixel = if colour == 2 { &pixel[..] } else { &pixel[..1] };
        for second in [&[][..], &[0xFF], &[0, 1], &[0, 1, 0, 1, 0, 1]] {
            assert!(transparent(colour, pixel, &[trns, second]).is_some(), "{colour} {second:?}");
            assert!(transparent(colour, pixel, &[second, trns]).is_some(), "{colour} {second:?}");
        }
        assert!(transparent(colour, pixel, &[trns]).is_some(), "{colour}");
        assert!(transparent(colour, pixel, &[&[]]).is_some(), "{colour}");
    }
    assert!(transparent(3, &[1], &[&[0xFF; 5]]).unwrap().contains("it must have 1 to 4"));
    assert!(transparent(4, &[0x55, 0xFF], &[&[0, 0]]).unwrap().contains("has alpha and a tRNS"));
    // one that makes no pixel transparent
    assert_eq!(transparent(3, &[1], &[&[0, 0xFF, 0]]), None);
    assert_eq!(transparent(0, &[0x55], &[&[0, 0x56]]), None);
    assert_eq!(transparent(2, &[0x55, 0, 0], &[&[0, 0x55, 0, 0, 0, 1]]), None);
}

/// Each with the places where it may stand: before PLTE, before the image, after it.
const KNOWN: [(&[u8; 4], [bool; 3]); 13] = [
    (b"cHRM", [true, false, false]),
    (b"gAMA", [true, false, false]),
    (b"iCCP", [true, false, false]),
    (b"sBIT", [true, false, false]),
    (b"sRGB", [true, false, false]),
    (b"bKGD", [false, true, false]),
    (b"hIST", [false, true, false]),
    (b"pHYs", [true, true, false]),
    (b"sPLT", [true, true, false]),
    (b"tIME", [true, true, true]),
    (b"tEXt", [true, true, true]),
    (b"zTXt", [true, true, true]),
    (b"iTXt", [true, true, true]),
];

#[test]
fn a_chunk_that_is_known_to_change_no_sample_is_accepted_where_it_may_stand() {
    let (header, data) = image(3, &[3]);
    let (one, two) = data.split_at(20);
    let [ihdr, plte, first, second, end]: [Chunk; 5] =
        [(b"IHDR", &header), (b"PLTE", &REDS), (b"IDAT", one), (b"IDAT", two), (b"IEND", &[])];
    assert_eq!(read(&png_of_chunks(&[ihdr, plte, first, second, end])), Ok(3 * 384 * 224));
    for (name, places) in KNOWN {
        let with = |at: usize, count: usize| {
            let mut chunks = vec![ihdr, plte, first, second, end];
            (0..count).for_each(|_| chunks.insert(at, (name, b"any")));
            read(&png_of_chunks(&chunks))
        };
        let text = name.escape_ascii();
        for (at, place) in [(1, 0), (2, 1), (4, 2)] {
            assert_eq!(with(at, 1).is_ok(), places[place], "{text} {at} {:?}", with(at, 1));
            let often = [b"sPLT", b"tEXt", b"zTXt", b"iTXt"].contains(&name);
            assert_eq!(with(at, 2).is_ok(), often && places[place], "two {text} {at}");
        }
        assert!(with(0, 1).unwrap_err().contains("it must be IHDR"), "{text}");
        assert!(with(3, 1).is_err(), "{text} in the image");
        assert!(with(5, 1).unwrap_err().contains("bytes follow the PNG's IEND"), "{text}");
    }
}

#[test]
fn a_chunk_that_is_not_known_is_refused_everywhere() {
    let (header, data) = image(3, &[3]);
    let [ihdr, plte, idat, end]: [Chunk; 4] =
        [(b"IHDR", &header), (b"PLTE", &REDS), (b"IDAT", &data), (b"IEND", &[])];
    for name in [b"eXIf", b"cICP", b"mDCV", b"CgBI", b"vpAg", b"idat", b"IDAt", b"\0\x1b[3"] {
        for at in 0..=4 {
            let mut chunks = vec![ihdr, plte, idat, end];
            chunks.insert(at, (name, &[]));
            let error = read(&png_of_chunks(&chunks)).unwrap_err();
            assert!(error.is_ascii() && !error.contains('\x1b'), "{error}");
            if (1..4).contains(&at) {
                let why = format!("has a chunk {}, which may change", name.escape_ascii());
                assert!(error.contains(&why), "{error}");
            }
        }
    }
}

#[test]
fn chunks_stand_once_and_in_their_order() {
    let (header, data) = image(3, &[3]);
    let [ihdr, plte, idat, end]: [Chunk; 4] =
        [(b"IHDR", &header), (b"PLTE", &REDS), (b"IDAT", &data), (b"IEND", &[])];
    let trns: Chunk = (b"tRNS", &[0xFF]);
    refused(&[plte, ihdr, idat, end], "begins with a chunk PLTE; it must be IHDR");
    refused(&[ihdr, ihdr, plte, idat, end], "two chunks IHDR");
    refused(&[ihdr, plte, plte, idat, end], "two chunks PLTE");
    refused(&[ihdr, plte, idat, plte, end], "PLTE after its image");
    refused(&[ihdr, plte, idat, trns, end], "tRNS after its image");
    refused(&[ihdr, trns, plte, idat, end], "tRNS before its PLTE");
    refused(&[ihdr, (b"bKGD", &[0]), plte, idat, end], "bKGD before its PLTE");
    refused(&[ihdr, idat, end], "indices and no PLTE");
    refused(&[ihdr, plte, end], "no image");
    refused(&[ihdr, plte, idat, (b"IEND", &[0])], "IEND has contents");
    refused(&[ihdr, plte, idat, end, end], "12 bytes follow the PNG's IEND");
    refused(&[ihdr, plte, idat], "ends before its IEND");
    refused(&[ihdr, (b"PLTE", &REDS[..11]), idat, end], "PLTE has 11 bytes");
    refused(&[ihdr, (b"PLTE", &[]), idat, end], "PLTE has 0 bytes");
    refused(&[ihdr, (b"PLTE", &[0; 771]), idat, end], "1 to 256 colours");
    refused(&[(b"IHDR", &header[..12]), plte, idat, end], "IHDR has 12 bytes; it must have 13");
    let (one, two) = data.split_at(data.len() / 2);
    let text: Chunk = (b"tEXt", b"a\0b");
    let apart = [ihdr, plte, (b"IDAT", one), text, (b"IDAT", two), end];
    refused(&apart, "image has a chunk in between");
    let grey = image(0, &[0xFF]);
    refused(&[(b"IHDR", &grey.0), plte, (b"IDAT", &grey.1), end], "grey and has a PLTE");
    for (at, value) in [(8, 3), (8, 16), (9, 1), (9, 7), (10, 1), (11, 1), (12, 2)] {
        let mut wrong = header.clone();
        wrong[at] = value;
        refused(&[(b"IHDR", &wrong), plte, idat, end], "the PNG's IHDR has");
    }
}

#[test]
fn a_capture_with_one_wrong_bit_is_refused() {
    let (header, data) = image(3, &[3]);
    let chunks: [Chunk; 5] =
        [(b"IHDR", &header), (b"PLTE", &REDS), (b"tEXt", b"a"), (b"IDAT", &data), (b"IEND", &[])];
    let right = png_of_chunks(&chunks);
    assert!(read(&right).is_ok());
    for bit in 0..8 * right.len() {
        let mut wrong = right.clone();
        wrong[bit / 8] ^= 1 << (bit % 8);
        assert!(read(&wrong).is_err(), "bit {bit}");
    }
    for length in 0..right.len() {
        assert!(read(&right[..length]).is_err(), "{length}");
    }
}

/// A zlib stream of one byte 0 and copies of 258 from so far back, and its sum.
fn going_back(distance_code: u8) -> Vec<u8> {
    let mut bits: Vec<bool> = vec![true, true, false];
    let mut put =
        |code: u32, length: u32| bits.extend((0..length).rev().map(|n| code >> n & 1 == 1));
    put(0x30, 8);
    for _ in 0..334 {
        put(0xC5, 8);
        put(u32::from(distance_code), 5);
    }
    put(0, 7);
    let mut bytes = vec![0x78, 0x01];
    bytes.extend(
        bits.chunks(8).map(|some| {
            some.iter().enumerate().fold(0, |byte, (n, &bit)| byte | u8::from(bit) << n)
        }),
    );
    // zeros: the sum is 1, and its upper half their number
    let count = 1 + 334 * 258;
    bytes.extend(((count % 65_521) << 16 | 1u32).to_be_bytes());
    bytes
}

#[test]
fn image_data_are_exactly_the_rows_of_ihdr() {
    let header = ihdr(384, 224, 8, 3, 0);
    let with = |data: &[u8]| {
        let chunks: [Chunk; 4] =
            [(b"IHDR", &header), (b"PLTE", &REDS), (b"IDAT", data), (b"IEND", &[])];
        read(&png_of_chunks(&chunks))
    };
    let row = [vec![0], vec![2; 384]].concat();
    let all = row.repeat(224);
    assert_eq!(with(&packed(&all)), Ok(2 * 384 * 224));
    assert!(with(&packed(&all[1..])).unwrap_err().contains("less image data"));
    assert!(with(&packed(&[])).unwrap_err().contains("less image data"));
    assert!(with(&packed(&[&all[..], &[0]].concat())).unwrap_err().contains("more image data"));
    let right = packed(&all);
    assert!(with(&[&right[..], &[0]].concat()).unwrap_err().contains("more image data"));
    let mut sum = right.clone();
    *sum.last_mut().unwrap() ^= 1;
    assert!(with(&sum).unwrap_err().contains("image data are damaged or cut off"));
    assert!(with(&right[..right.len() - 1])
        .unwrap_err()
        .contains("image data are damaged or cut off"));
    let mut filter = all.clone();
    filter[385] = 5;
    assert!(with(&packed(&filter)).unwrap_err().contains("a row of filter 5"));
    // copies from before the first byte have nothing to copy; a reader with a window of zeros would make zeros of them
    let short = |code: u8| with(&going_back(code)).unwrap_err();
    assert!(short(0).contains("less image data"), "{}", short(0));
    assert!(short(1).contains("image data are damaged or cut off"), "{}", short(1));
}

/// 256 MB of zeros, packed, in chunks that readers unpack before they look at the picture, and in the image: nothing of it
/// is unpacked. The tool has less memory than that.
#[test]
fn a_png_that_unpacks_to_too_much_is_judged_without_unpacking_it() {
    let folder = Folder::with_demo("png-bomb");
    let zeros = packed(&vec![0; 256 << 20]);
    let plain = folder.read("out/frame1-left.png");
    let profile = [b"name\0\0", &zeros[..]].concat();
    let (head, rest) = plain.split_at(33);
    let bomb = &png_of_chunks(&[(b"iCCP", &profile)])[8..];
    folder.write("profile.png", &[head, bomb, rest].concat());
    for (name, width, height) in
        [("large", 60_000, 60_000), ("other", 385, 224), ("image", 384, 224)]
    {
        let header = ihdr(width, height, 8, 0, 0);
        let chunks: [Chunk; 4] =
            [(b"IHDR", &header), (b"iCCP", &profile), (b"IDAT", &zeros), (b"IEND", &[])];
        folder.write(&format!("{name}.png"), &png_of_chunks(&chunks));
    }
    let compare =
        "compare --vram out/vram.bin --drawing out/drawing.bin --frame 1 --eyes left --left";
    let ran = |name: &str| folder.shell(&format!("ulimit -v 250000; $VB {compare} {name}.png"));
    assert_eq!(ran("profile").status, 0, "{}", ran("profile").error);
    for (name, why) in [
        ("large", "the PNG has 60000 by 60000 pixels"),
        ("other", "the PNG has 385 by 224 pixels"),
        ("image", "more image data than its 384 by 224 pixels"),
    ] {
        let ran = ran(name);
        assert!(ran.status == 2 && ran.error.contains(why), "{name} {} {}", ran.status, ran.error);
    }
}

#[test]
fn an_interlaced_capture_is_read_as_a_plain_one() {
    for (depth, colour) in [(1, 0), (2, 3), (4, 0), (8, 3), (8, 2), (8, 4), (16, 6), (16, 0)] {
        let samples = [1, 0, 3, 1, 2, 0, 4][usize::from(colour)];
        let bits = samples * usize::from(depth);
        // every other pixel is 0, by column and row; the others have all bits set, or index 3
        let lit = |x: usize, y: usize| (x * 5 + y * 3) % 7 < 3;
        let row = |xs: &[usize], y: usize| {
            let mut row = vec![0; 1 + xs.len() * bits / 8];
            for (i, &x) in xs.iter().enumerate() {
                let bit = |n: usize| if colour == 3 { n >= bits - 2 } else { true };
                let opaque = |n: usize| matches!(colour, 4 | 6) && n >= bits - usize::from(depth);
                for n in (0..bits).filter(|&n| opaque(n) || lit(x, y) && bit(n)) {
                    row[1 + (i * bits + n) / 8] |= 0x80 >> ((i * bits + n) % 8);
                }
            }
            row
        };
        let mut data = Vec::new();
        for [x, across, y, down] in [
            [0, 8, 0, 8],
            [4, 8, 0, 8],
            [0, 4, 4, 8],
            [2, 4, 0, 4],
            [0, 2, 2, 4],
            [1, 2, 0, 2],
            [0, 1, 1, 2],
        ] {
            let xs: Vec<usize> = (x..384).step_by(across).collect();
            (y..224).step_by(down).for_each(|y| data.extend(row(&xs, y)));
        }
        let header = ihdr(384, 224, depth, colour, 1);
        let data = packed(&data);
        let mut chunks: Vec<Chunk> = vec![(b"IHDR", &header)];
        if colour == 3 {
            chunks.push((b"PLTE", &REDS));
        }
        chunks.extend([(b"IDAT", &data[..]), (b"IEND", &[])]);
        let input = Input { path: "a.png".into(), bytes: png_of_chunks(&chunks) };
        let read = Capture::read(&input, Wanted { frame: 0, eye: 0, threshold: 0 });
        let picture =
            read.unwrap_or_else(|error| panic!("{depth} {colour}: {}", error.message)).picture;
        for (x, y) in (0..224).flat_map(|y| (0..384).map(move |x| (x, y))) {
            let wanted = if lit(x, y) { 3 } else { 0 };
            assert_eq!(picture.value(x, y), wanted, "{depth} {colour} ({x}, {y})");
        }
    }
}
