//! The bytes that a pixel answers to, through the safe crate.

use vb::{Drawing, NoList};

/// World 31 normal and shown to both eyes, its window the image; END below it.
fn scene() -> Vec<u8> {
    let mut vram = vec![0; vb::VRAM_LENGTH];
    let world = 0x3D800 + 31 * 32;
    for (half, value) in [(0, 0xC000u16), (7, 383), (8, 223)] {
        vram[world + 2 * half..][..2].copy_from_slice(&value.to_le_bytes());
    }
    vram[0x3D800 + 30 * 32] = 0x40;
    vram
}

#[test]
fn an_output_takes_as_many_addresses_as_fit() {
    let (vram, drawing) = (scene(), Drawing::default());
    // row 9 lies in the second row of cells, and in row 1 of its character
    let list = [0x20080, 0x20081, 0x6002, 0x6003];
    assert_eq!(drawing.pixel_bytes(&vram, 0, 3, 9).unwrap(), list);
    for length in 0..6 {
        let mut output = vec![7; length];
        assert_eq!(drawing.pixel_bytes_into(&vram, 1, 3, 9, &mut output), Ok(4));
        let due: Vec<u32> = list.into_iter().chain([7, 7]).take(length).collect();
        assert_eq!(output, due);
    }
}

#[test]
fn only_listed_bytes_count() {
    let (vram, drawing) = (scene(), Drawing { gplt: [0xE4; 4], ..Drawing::default() });
    let drawn = |vram: &[u8]| {
        let mut vram = vram.to_vec();
        drawing.draw_frame(&mut vram, 0).unwrap();
        vb::pixel(&vram[vb::image_offset(0, 0)..], 3, 9)
    };
    let list = drawing.pixel_bytes(&vram, 0, 3, 9).unwrap();
    let mut listed = vram.clone();
    listed[list[2] as usize] = 0xFF;
    assert_eq!((drawn(&vram), drawn(&listed)), (0, 3));
    let mut others = vram.clone();
    for (address, byte) in others[..0x3D800].iter_mut().enumerate() {
        if !list.contains(&(address as u32)) {
            *byte = 0xFF;
        }
    }
    assert_eq!(drawn(&others), 0);
}

#[test]
fn refusals_and_pixels_that_are_none() {
    let (vram, drawing) = (scene(), Drawing::default());
    let wide = Drawing { bkcol: 4, ..drawing };
    let refused = |drawing: &Drawing, vram: &[u8], eye, x, y| {
        let mut output = [7; 9];
        let none = drawing.pixel_bytes_into(vram, eye, x, y, &mut output).unwrap_err();
        assert_eq!(output, [7; 9]);
        none.to_string()
    };
    let outside = "; eyes are 0 and 1, columns 0 to 383 and rows 0 to 223";
    for (eye, x, y) in [(2, 0, 0), (0, 384, 0), (1, 0, 224)] {
        let asked = format!("pixel ({x}, {y}) of eye {eye} was asked for{outside}");
        assert_eq!(refused(&drawing, &vram, eye, x, y), asked);
        assert_eq!(drawing.pixel_bytes(&vram, eye, x, y), Err(NoList::Outside { eye, x, y }));
    }
    assert_eq!(
        refused(&wide, &vram, 2, 384, 224),
        "refusal 5: BKCOL is 0x00000004; it must be at most 3 (2 bits)"
    );
    assert_eq!(
        refused(&wide, &vram[1..], 2, 384, 224),
        "refusal 3: VRAM has 262,143 bytes; it must have 262,144"
    );
}
