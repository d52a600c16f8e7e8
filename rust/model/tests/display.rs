//! The display unit (W11) of the model: 000's printed table, and brightness by
//! hand.

use model::display::{column_table, display, entry_address, load_column_table, DISPLAY_LENGTH};
use model::world::Eye;
use model::Refusal;

#[test]
fn the_table_as_printed() {
    let printed = worked::column_table();
    let table = column_table();
    assert_eq!(table.len(), 256);
    let bytes: Vec<u8> = table.iter().flat_map(|entry| entry.to_le_bytes()).collect();
    assert_eq!(bytes, printed);
    for i in 0..256 {
        assert_eq!(table[i], table[255 - i], "entry {i}");
        assert!(table[i] < 256, "entry {i}");
    }
    assert!(table[..128].windows(2).all(|pair| pair[1] <= pair[0]));
    let places = [62, 110, 111, 127, 128, 144, 145, 193].map(|entry: usize| table[entry]);
    assert_eq!(places, [0xE0, 0x3E, 0x3C, 0x3C, 0x3C, 0x3C, 0x3E, 0xE0]);
    assert_eq!(table.iter().map(|&entry| u32::from(entry)).sum::<u32>(), 42_168);
}

#[test]
fn loading_changes_the_tables_alone() {
    let mut vram = vec![0x55; 262_144];
    load_column_table(&mut vram).unwrap();
    let printed = worked::column_table();
    assert_eq!(vram[0x3DC00..0x3DE00], printed);
    assert_eq!(vram[0x3DE00..0x3E000], printed);
    assert!(vram[..0x3DC00].iter().chain(&vram[0x3E000..]).all(|&byte| byte == 0x55));
    assert_eq!(load_column_table(&mut vram[1..]), Err(Refusal::VramLength));
}

/// One lit pixel for each shade, and repeats at the limit.
#[test]
fn brightness_of_pixels() {
    let mut vram = vec![0; 262_144];
    // frame 1, right: column 5 has shades 0, 1, 2, 3 from the top
    vram[0x18000 + 64 * 5] = 0b1110_0100;
    let entry = entry_address(Eye::Right, 200 - 1);
    for (high, brightness, expected) in [
        (0, [10, 20, 30], [0, 10, 20, 60]),
        (1, [10, 20, 30], [0, 20, 40, 120]),
        (0, [127, 128, 129], [0, 127, 128, 128]),
        (0, [0, 129, 0], [0, 0, 128, 128]),
        (255, [1, 0, 0], [0, 128, 0, 128]),
        (126, [1, 0, 0], [0, 127, 0, 127]),
        (127, [1, 0, 0], [0, 128, 0, 128]),
        (255, [255, 255, 255], [0, 128, 128, 128]),
        (255, [0, 0, 0], [0, 0, 0, 0]),
    ] {
        vram[entry + 1] = high;
        let mut output = vec![7; DISPLAY_LENGTH];
        display(&vram, 1, 1, 200, brightness, &mut output).unwrap();
        let found = [0, 1, 2, 3].map(|y| output[384 * y + 5]);
        assert_eq!(found, expected, "{high} {brightness:?}");
        assert!(output.iter().enumerate().all(|(at, &byte)| byte == 0 || at % 384 == 5));
    }
}

#[test]
fn refusals() {
    let vram = vec![0; 262_144];
    let mut output = vec![0; DISPLAY_LENGTH];
    for (frame, eye, start, length, expected) in [
        (0, 0, 95, DISPLAY_LENGTH, Ok(())),
        (1, 1, 255, DISPLAY_LENGTH, Ok(())),
        (2, 2, 0, 0, Err(Refusal::Frame)),
        (0, 2, 95, DISPLAY_LENGTH, Err(Refusal::Display)),
        (0, 0, 94, DISPLAY_LENGTH, Err(Refusal::Display)),
        (0, 0, 256, DISPLAY_LENGTH, Err(Refusal::Display)),
        (0, 0, 351, DISPLAY_LENGTH, Err(Refusal::Display)),
        (0, 0, 95, DISPLAY_LENGTH - 1, Err(Refusal::Display)),
        (0, 0, 95, 0, Err(Refusal::Display)),
    ] {
        let answer = display(&vram, frame, eye, start, [1; 3], &mut output[..length]);
        assert_eq!(answer, expected, "{frame} {eye} {start} {length}");
    }
    let answer = display(&vram[1..], 2, 2, 0, [1; 3], &mut []);
    assert_eq!(answer, Err(Refusal::VramLength));
}
