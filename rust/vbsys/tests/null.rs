//! include/vb.h: "A pointer may be null only with length 0."

use std::ptr::{null, null_mut};

use vbsys::raw::*;
use vbsys::{Drawing, Hardware, Loaded, Stored};

/// The four memories of a call, for reading.
type Pointers = [(*const u8, usize); 4];

fn load(memories: Pointers, address: u32) -> Loaded {
    let [rom, wram, vram, pak] = memories;
    // SAFETY: each pointer is null with length 0 or passed with its length.
    unsafe {
        vb_load_word(
            rom.0,
            rom.1,
            wram.0,
            wram.1,
            vram.0,
            vram.1,
            pak.0,
            pak.1,
            Drawing::default(),
            Hardware::default(),
            address,
        )
    }
}

#[test]
fn empty_pak_ram_may_be_null() {
    let (rom, wram, vram) = (vec![7u8; 1_024], vec![8u8; 65_536], vec![9u8; 262_144]);
    let memories = [
        (rom.as_ptr(), rom.len()),
        (wram.as_ptr(), wram.len()),
        (vram.as_ptr(), vram.len()),
        (null(), 0),
    ];
    assert_eq!(load(memories, 0x0600_0000), Loaded { refusal: 0, value: 0, undefined: 0 });
    assert_eq!(
        load(memories, 0x0500_0000),
        Loaded { refusal: 0, value: 0x0808_0808, undefined: 0 }
    );
}

#[test]
fn a_store_to_null_pak_ram_writes_nothing() {
    let (rom, mut wram, mut vram) = (vec![7u8; 1_024], vec![8u8; 65_536], vec![9u8; 262_144]);
    // SAFETY: pak RAM is null with length 0; the others are passed with their lengths.
    let stored = unsafe {
        vb_store_word(
            rom.as_ptr(),
            rom.len(),
            wram.as_mut_ptr(),
            wram.len(),
            vram.as_mut_ptr(),
            vram.len(),
            null_mut(),
            0,
            Drawing::default(),
            Hardware::default(),
            0x0600_0000,
            0x1234_5678,
        )
    };
    assert_eq!(stored, Stored::default());
    assert!(wram.iter().all(|&byte| byte == 8) && vram.iter().all(|&byte| byte == 9));
}

#[test]
fn null_memories_of_length_0_are_refused() {
    let rom = vec![7u8; 1_024];
    assert_eq!(load([(null(), 0); 4], 0), Loaded { refusal: 1, value: 0, undefined: 0 });
    let memories = [(rom.as_ptr(), rom.len()), (null(), 0), (null(), 0), (null(), 0)];
    assert_eq!(load(memories, 0), Loaded { refusal: 2, value: 0, undefined: 0 });
}

#[test]
fn null_vram_of_length_0_is_refused() {
    // SAFETY: null is passed with length 0.
    let (frame, part) = unsafe {
        (vb_draw_frame(null_mut(), 0, Drawing::default(), 2), vb_character(null(), 0, 0))
    };
    assert_eq!(frame, 3);
    assert_eq!((part.refusal, part.length), (3, 0));
}

#[test]
fn a_null_output_of_length_0_takes_no_address() {
    let vram = vec![0xFFu8; 262_144];
    // SAFETY: null is passed with length 0; VRAM is passed with its length.
    let (none, listed) = unsafe {
        (
            vb_pixel_bytes(null(), 0, Drawing::default(), 2, 0, 0, null_mut(), 0),
            vb_pixel_bytes(vram.as_ptr(), 262_144, Drawing::default(), 1, 0, 0, null_mut(), 0),
        )
    };
    assert_eq!(none, vbsys::Listed { refusal: 3, count: 0 });
    // every world has END set, so nothing covers the pixel
    assert_eq!(listed, vbsys::Listed { refusal: 0, count: 0 });
}

#[test]
fn null_buffers_of_the_display_unit_are_refused() {
    let vram = vec![9u8; 262_144];
    // SAFETY: null is passed with length 0; VRAM is passed with its length.
    let (both, output, loaded) = unsafe {
        (
            vb_display(null(), 0, 2, 2, 0, 1, 2, 3, null_mut(), 0),
            vb_display(vram.as_ptr(), vram.len(), 0, 0, 95, 1, 2, 3, null_mut(), 0),
            vb_load_column_table(null_mut(), 0),
        )
    };
    assert_eq!((both, output, loaded), (3, 15, 3));
}

#[test]
fn a_probe_takes_null_memories_of_length_0() {
    let (rom, wram, mut vram) = (vec![7u8; 1_024], vec![8u8; 65_536], vec![9u8; 262_144]);
    // SAFETY: each pointer is null with length 0 or passed with its length.
    let probe = |wram: (*const u8, usize), vram: (*mut u8, usize)| unsafe {
        vb_probe_word(
            rom.as_ptr(),
            rom.len(),
            wram.0,
            wram.1,
            vram.0,
            vram.1,
            null(),
            0,
            0x0003_8000,
            0x1234_5678,
        )
    };
    assert_eq!(probe((null(), 0), (null_mut(), 0)), 2);
    assert_eq!(probe((wram.as_ptr(), wram.len()), (null_mut(), 0)), 3);
    assert_eq!(probe((wram.as_ptr(), wram.len()), (vram.as_mut_ptr(), vram.len())), 0);
    assert_eq!(vram[0x3_8000..0x3_8005], [0x78, 0x56, 0x34, 0x12, 9]);
}
