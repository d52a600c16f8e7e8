//! Refusals 1 to 5 of the six bus calls: both sides of each limit, and every
//! combination of broken conditions, where the lowest number must win.

use difftests::access::{by_library, by_model, Call, CALLS};
use difftests::machine::{register, Buffers};
use model::DrawingRegisters;

const MIB16: usize = 16_777_216;

/// Lengths and registers of one call.
#[derive(Clone, Copy, Debug)]
struct Given {
    rom: usize,
    wram: usize,
    vram: usize,
    pak: usize,
    drawing: DrawingRegisters,
}

const ACCEPTED: Given = Given {
    rom: 1_024,
    wram: 65_536,
    vram: 262_144,
    pak: 2,
    drawing: DrawingRegisters { spt: [1; 4], gplt: [2; 4], jplt: [3; 4], bkcol: 1 },
};

/// Makes the call on both sides; `expected` is the number by 01's table.
fn expect_number(call: Call, given: &Given, expected: u32) {
    let mut buffers = Buffers::zeroed(given.rom, given.wram, given.vram, given.pak);
    mark(&mut buffers);
    let mut other = buffers.clone();
    let before = buffers.clone();
    let (address, value) = (0x0500_0010, 0x1234_5678);
    let library = by_library(call, &mut buffers, &given.drawing, address, value);
    let model = by_model(call, &mut other, &given.drawing, address, value);
    assert_eq!(library.refusal, expected, "the library's number: {call:?} {given:?}");
    assert_eq!(model.refusal, expected, "the model's number: {call:?} {given:?}");
    assert_eq!(library, model, "{call:?} {given:?}");
    let what = || format!("{call:?} {given:?}");
    buffers.expect_equal(&other, &what);
    if expected != 0 {
        buffers.expect_equal(&before, &what);
        assert_eq!(library.drawing, given.drawing, "a refusal gives the registers back: {given:?}");
        let answer = (library.value, library.undefined);
        assert_eq!(answer, (0, 0), "a refused load answers 0: {given:?}");
    }
}

/// Bytes that a store would change, at both ends of each memory.
fn mark(buffers: &mut Buffers) {
    for memory in [&mut buffers.rom, &mut buffers.wram, &mut buffers.vram, &mut buffers.pak] {
        let length = memory.len();
        for at in (0..length.min(64)).chain(length.saturating_sub(64)..length) {
            memory[at] = (at % 251) as u8 + 1;
        }
    }
}

fn expect_for_all(given: &Given, expected: u32) {
    for call in CALLS {
        expect_number(call, given, expected);
    }
}

#[test]
fn rom_lengths() {
    for (rom, expected) in [
        (0, 1),
        (1, 1),
        (512, 1),
        (1_023, 1),
        (1_024, 0),
        (1_025, 1),
        (1_536, 1),
        (2_048, 0),
        (MIB16 - 1, 1),
        (MIB16, 0),
        (MIB16 + 1, 1),
        (2 * MIB16, 1),
    ] {
        expect_for_all(&Given { rom, ..ACCEPTED }, expected);
    }
}

#[test]
fn wram_lengths() {
    for (wram, expected) in
        [(0, 2), (32_768, 2), (65_535, 2), (65_536, 0), (65_537, 2), (131_072, 2)]
    {
        expect_for_all(&Given { wram, ..ACCEPTED }, expected);
    }
}

#[test]
fn vram_lengths() {
    for (vram, expected) in
        [(0, 3), (131_072, 3), (262_143, 3), (262_144, 0), (262_145, 3), (524_288, 3)]
    {
        expect_for_all(&Given { vram, ..ACCEPTED }, expected);
    }
}

#[test]
fn pak_lengths() {
    for (pak, expected) in [
        (0, 0),
        (1, 0),
        (2, 0),
        (3, 4),
        (4, 0),
        (5, 4),
        (6, 4),
        (7, 4),
        (8, 0),
        (8_191, 4),
        (8_192, 0),
        (MIB16 - 1, 4),
        (MIB16, 0),
        (MIB16 + 1, 4),
        (2 * MIB16, 4),
    ] {
        expect_for_all(&Given { pak, ..ACCEPTED }, expected);
    }
}

#[test]
fn register_widths() {
    for number in 0..13 {
        let (_, largest) = register(&mut ACCEPTED.drawing.clone(), number);
        for (value, expected) in [(largest, 0), (largest + 1, 5), (0x8000, 5), (0xFFFF, 5), (0, 0)]
        {
            let mut given = ACCEPTED;
            *register(&mut given.drawing, number).0 = value;
            expect_for_all(&given, expected);
        }
    }
}

/// Every set of broken conditions 1 to 5, each broken in two ways.
#[test]
fn the_lowest_number_wins() {
    for set in 0..32u32 {
        for way in 0..32u32 {
            if way & !set != 0 {
                continue;
            }
            let broken = |number: u32| set >> (number - 1) & 1 == 1;
            let second = |number: u32| way >> (number - 1) & 1 == 1;
            let mut given = ACCEPTED;
            if broken(1) {
                given.rom = if second(1) { 512 } else { 1_025 };
            }
            if broken(2) {
                given.wram = if second(2) { 65_535 } else { 65_537 };
            }
            if broken(3) {
                given.vram = if second(3) { 262_143 } else { 262_145 };
            }
            if broken(4) {
                given.pak = if second(4) { 3 } else { 24 };
            }
            if broken(5) {
                let number = if second(5) { 0 } else { 12 };
                let (register, largest) = register(&mut given.drawing, number);
                *register = largest + 1;
            }
            let expected = (1..=5).find(|&number| broken(number)).unwrap_or(0);
            expect_for_all(&given, expected);
        }
    }
}
