//! The display unit through the library: the recommended table as document 000 prints it, brightness at its limits, and
//! every refusal.

use vb::{display, load_column_table, Refusal, View, DISPLAY_LENGTH};

const TABLES: std::ops::Range<usize> = 0x3DC00..0x3E000;

const LEFT: View = View { frame: 0, eye: 0, start: 95, durations: [1, 2, 3] };

#[test]
fn the_table_is_the_printed_one_for_both_eyes() {
    let printed = worked::column_table();
    assert_eq!(printed.len(), 512);
    let mut vram: Vec<u8> = (0..262_144u32).map(|i| (i * 7 % 251) as u8).collect();
    let before = vram.clone();
    load_column_table(&mut vram).unwrap();
    assert_eq!(vram[TABLES], [printed.clone(), printed].concat());
    assert_eq!(vram[..TABLES.start], before[..TABLES.start]);
    assert_eq!(vram[TABLES.end..], before[TABLES.end..]);
    let short = &mut vram[1..];
    let kept = short.to_vec();
    assert_eq!(load_column_table(short), Err(Refusal::VramLength { given: 262_143 }));
    assert_eq!(short, kept);
}

/// The brightness of pixel (0, 0), of this value, where the first entry repeats so often.
fn first(value: u8, high: u8, durations: [u8; 3]) -> u8 {
    let mut vram = vec![0; 262_144];
    vram[0] = value;
    vram[0x3DC01 + 2 * 95] = high;
    let mut output = vec![0xEE; DISPLAY_LENGTH];
    display(&vram, View { durations, ..LEFT }, &mut output).unwrap();
    assert!(output[1..].iter().all(|&byte| byte == 0));
    output[0]
}

#[test]
fn brightness_is_time_times_repeats_up_to_128() {
    for (value, high, durations, seen) in [
        (0, 255, [255, 255, 255], 0),
        (1, 0, [127, 0, 0], 127),
        (1, 0, [128, 0, 0], 128),
        (1, 0, [129, 0, 0], 128),
        (2, 3, [0, 31, 0], 124),
        (2, 3, [0, 32, 0], 128),
        (2, 3, [0, 33, 0], 128),
        (3, 0, [1, 2, 4], 7),
        (3, 1, [20, 21, 23], 128),
        (3, 1, [20, 21, 22], 126),
        (3, 0, [255, 255, 255], 128),
        (3, 255, [255, 255, 255], 128),
        (3, 255, [0, 0, 0], 0),
        (1, 255, [1, 0, 0], 128),
        (1, 126, [1, 0, 0], 127),
    ] {
        assert_eq!(first(value, high, durations), seen, "{value} {high} {durations:?}");
    }
}

#[test]
fn each_group_of_columns_has_its_own_entry() {
    let mut vram = vec![0x55; 262_144];
    for entry in 0..256 {
        vram[0x3DC01 + 2 * entry] = entry as u8 / 2;
        vram[0x3DE01 + 2 * entry] = 127 - entry as u8 / 2;
    }
    let mut output = vec![0; DISPLAY_LENGTH];
    for (frame, eye, start) in [(0, 0, 95), (1, 0, 255), (0, 1, 200), (1, 1, 95)] {
        display(&vram, View { frame, eye, start, durations: [1, 0, 0] }, &mut output).unwrap();
        for (i, &seen) in output.iter().enumerate() {
            let entry = start as usize - i % 384 / 4;
            let high = if eye == 0 { entry / 2 } else { 127 - entry / 2 };
            assert_eq!(seen as usize, high + 1, "frame {frame}, eye {eye}, byte {i}");
        }
    }
}

#[test]
fn refusals_say_what_was_given() {
    let (vram, short) = (vec![0x55; 262_144], vec![0x55; 262_143]);
    let view = |frame, eye, start| View { frame, eye, start, ..LEFT };
    for (vram, view, length, message) in [
        (&vram, view(0, 2, 95), DISPLAY_LENGTH, "15: eye 2 was asked for; eyes are 0 (left) and 1 (right)"),
        (&vram, view(0, 0, 94), DISPLAY_LENGTH, "15: the column table is to start at entry 94; a start is from 95 to 255, since 384 columns use 96 entries downwards"),
        (&vram, view(1, 1, 256), DISPLAY_LENGTH, "15: the column table is to start at entry 256; a start is from 95 to 255, since 384 columns use 96 entries downwards"),
        (&vram, view(1, 1, 351), DISPLAY_LENGTH, "15: the column table is to start at entry 351; a start is from 95 to 255, since 384 columns use 96 entries downwards"),
        (&vram, view(1, 1, u32::MAX), 0, "15: the column table is to start at entry 4294967295; a start is from 95 to 255, since 384 columns use 96 entries downwards"),
        (&vram, view(0, 0, 95), 86_015, "15: the output buffer has 86,015 bytes; it must have 86,016, a byte for each pixel"),
        (&vram, view(0, 0, 95), 86_017, "15: the output buffer has 86,017 bytes; it must have 86,016, a byte for each pixel"),
        (&vram, view(0, 0, 95), 0, "15: the output buffer has 0 bytes; it must have 86,016, a byte for each pixel"),
        (&vram, view(2, 2, 94), 0, "7: frame 2 was asked for; frames are 0 and 1"),
        (&short, view(2, 2, 94), 0, "3: VRAM has 262,143 bytes; it must have 262,144"),
    ] {
        let mut output = vec![0xEE; length];
        let refusal = display(vram, view, &mut output).unwrap_err();
        assert_eq!(refusal.to_string(), format!("refusal {message}"));
        assert!(output.iter().all(|&byte| byte == 0xEE), "{message}");
    }
    let mut output = vec![0xEE; DISPLAY_LENGTH];
    for start in [95, 255] {
        assert_eq!(display(&vram, view(1, 1, start), &mut output), Ok(()));
    }
}
