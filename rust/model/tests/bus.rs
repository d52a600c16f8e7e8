//! 01's worked rows about the bus, and facts of 000's memory map.

mod common;

use common::Machine;
use model::bus::{is_undefined, load_byte, load_half, load_word, place_of, Place};
use model::{DrawingRegisters, Loaded, ReadMemories, Refusal};

#[test]
fn rows_of_the_worked_table() {
    assert_eq!(place_of(0xFFFF_FFF0, 1_024, 0), Place::Rom(0x3F0));
    assert_eq!(place_of(0x0501_2345, 1_024, 0), Place::Wram(0x2345));
    assert_eq!(place_of(0x000F_A010, 1_024, 0), Place::Vram(0xE010));
}

#[test]
fn a_halfword_at_an_odd_address_is_the_one_before() {
    let mut machine = Machine::zeroed(0);
    machine.store(2, 0x0500_0001, 0xABCD);
    assert_eq!(machine.wram[..3], [0xCD, 0xAB, 0]);
    assert_eq!(machine.load(2, 0x0500_0001).value, 0xABCD);
    assert_eq!(machine.load(4, 0x0500_0003).value, 0xABCD);
}

#[test]
fn character_tables_and_their_mirrors() {
    for (mirror, table) in [
        (0x78000, 0x6000),
        (0x79FFF, 0x7FFF),
        (0x7A000, 0xE000),
        (0x7BFFF, 0xFFFF),
        (0x7C000, 0x16000),
        (0x7DFFF, 0x17FFF),
        (0x7E000, 0x1E000),
        (0x7FFFF, 0x1FFFF),
        (0x00F8_0000 + 0x7E000, 0x1E000),
    ] {
        assert_eq!(place_of(mirror, 1_024, 0), Place::Vram(table), "{mirror:X}");
    }
    assert_eq!(place_of(0x77FFF, 1_024, 0), Place::Unmapped);
}

#[test]
fn unmapped_ranges_and_regions() {
    for address in [0x40000, 0x5DFFF, 0x60000, 0x77FFF, 0x8005_DFFE] {
        assert_eq!(place_of(address, 1_024, 0), Place::Unmapped, "{address:X}");
    }
    for address in [0x0100_0000, 0x0200_0000, 0x0300_0000, 0x0400_0000, 0xF4FF_FFFF] {
        assert_eq!(place_of(address, 1_024, 0), Place::Absent, "{address:X}");
    }
}

#[test]
fn registers_keep_their_widths() {
    let mut machine = Machine::zeroed(0);
    for address in (0x5E000..0x60000).step_by(2) {
        machine.store(2, address, 0xFFFF);
    }
    let full = DrawingRegisters { spt: [0x3FF; 4], gplt: [0xFF; 4], jplt: [0xFF; 4], bkcol: 3 };
    assert_eq!(machine.drawing, full);
    assert!(machine.drawing.within_widths());
    assert_eq!(machine.load(2, 0x5F844).value, 2);
    assert_eq!(machine.load(2, 0x5F802).value, 0);
    assert_eq!(machine.load(4, 0x5F848).value, 0x03FF_03FF);
    assert_eq!(machine.load(1, 0x5F849).value, 3);
}

#[test]
fn a_byte_write_to_a_register_takes_sixteen_bits_of_the_source() {
    let mut machine = Machine::zeroed(0);
    machine.store(1, 0x5F84A, 0xFFFF_FE56);
    assert_eq!(machine.drawing.spt[1], 0x256);
    machine.store(1, 0x5F84D, 0x0000_0123);
    assert_eq!(machine.drawing.spt[2], 0x123);
    machine.store(4, 0x00D5_F84C, 0x0001_0002);
    assert_eq!(machine.drawing.spt[2..], [2, 1]);
}

#[test]
fn pak_ram_of_one_and_two_bytes() {
    let mut machine = Machine::zeroed(1);
    machine.store(4, 0x0600_0000, 0x4433_2211);
    assert_eq!(machine.pak, [0x44]);
    assert_eq!(machine.load(4, 0x06AB_CDEC).value, 0x4444_4444);
    let mut machine = Machine::zeroed(2);
    machine.store(4, 0x0600_0000, 0x4433_2211);
    assert_eq!(machine.pak, [0x33, 0x44]);
    assert_eq!(machine.load(1, 0x0600_0003).value, 0x44);
    let mut machine = Machine::zeroed(0);
    machine.store(4, 0x0600_0000, 0x4433_2211);
    assert_eq!(machine.load(4, 0x0600_0000).value, 0);
}

#[test]
fn rom_is_read_only() {
    let mut machine = Machine::zeroed(0);
    machine.store(4, 0x0700_0000, 0xFFFF_FFFF);
    assert_eq!(machine.load(4, 0x0700_0000).value, 0);
}

/// The request's table of which bytes of the VIP are defined, row by row: the
/// last byte of each range, and whether the range is defined.
const VIP_RANGES: [(u32, bool); 15] = [
    (0x3FFFF, true),
    (0x5F7FF, false),
    (0x5F805, true),
    (0x5F81F, false),
    (0x5F82B, true),
    (0x5F82D, false),
    (0x5F831, true),
    (0x5F83F, false),
    (0x5F845, true),
    (0x5F847, false),
    (0x5F84F, true),
    (0x5F85F, false),
    (0x5F871, true),
    (0x77FFF, false),
    (0x7FFFF, true),
];

#[test]
fn which_bytes_are_undefined() {
    let mut count = 0;
    for v in 0..0x80000 {
        let (_, defined) = VIP_RANGES.into_iter().find(|&(last, _)| v <= last).unwrap();
        assert_eq!(is_undefined(v), !defined, "{v:X}");
        for mirror in [0x80000, 0x00F8_0000, 0x0800_0000, 0xF800_0000] {
            assert_eq!(is_undefined(mirror | v), !defined, "{v:X} at {mirror:X}");
        }
        count += u32::from(!defined);
        for region in 1..8 {
            assert!(!is_undefined(region << 24 | v), "{v:X} of region {region}");
        }
    }
    assert_eq!(count, 229_322);
    let registers = (0x5E000..0x60000).filter(|&v| !is_undefined(v)).count();
    assert_eq!(registers, 54);
}

/// The aligned words with both kinds of bytes; aligned halfwords have one.
#[test]
fn masks_of_words_and_halfwords() {
    let mixed: Vec<(u32, u32)> = (0..0x80000)
        .step_by(4)
        .map(|v| (v, model::bus::undefined_bytes(v, 4)))
        .filter(|&(_, mask)| mask != 0 && mask != 15)
        .collect();
    let expected = [(0x5F804, 0xC), (0x5F82C, 3), (0x5F830, 0xC), (0x5F844, 0xC), (0x5F870, 0xC)];
    assert_eq!(mixed, expected);
    for v in (0..0x80000).step_by(2) {
        assert!([0, 3].contains(&model::bus::undefined_bytes(v, 2)), "{v:X}");
    }
}

/// The request's worked loads: size, address, value, undefined bytes.
#[test]
fn worked_loads() {
    let mut machine = Machine::zeroed(0);
    machine.vram[0x3FFFF] = 0x77;
    for (size, address, value, undefined) in [
        (1, 0x0003_FFFF, 0x77, 0),
        (1, 0x0004_0000, 0, 1),
        (2, 0x0005_F801, 0, 0),
        (2, 0x0005_F847, 0, 3),
        (4, 0x0005_F847, 2, 0xC),
        (4, 0x0005_F82D, 0, 3),
        (4, 0x000D_F82C, 0, 3),
        (4, 0xF805_F82C, 0, 3),
        (4, 0x0300_0000, 0, 0),
        (4, 0x0100_0000, 0, 0),
        (4, 0x0400_0000, 0, 0),
        (4, 0x0600_0000, 0, 0),
    ] {
        let load = match size {
            1 => load_byte,
            2 => load_half,
            _ => load_word,
        };
        let loaded = load(&machine.read(), &machine.drawing, &machine.processor.hardware, address);
        assert_eq!(loaded, Ok(Loaded { value, undefined }), "{size} bytes at {address:08X}");
    }
    let short = ReadMemories { wram: &[], ..machine.read() };
    let refused = load_byte(&short, &machine.drawing, &machine.processor.hardware, 0x0004_0000);
    assert_eq!(refused, Err(Refusal::WramLength));
}
