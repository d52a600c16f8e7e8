//! The probe's worked cases (W9).

use model::instruction::Width;
use model::probe::{probe, target, ProbeMemories};
use model::Refusal;

#[test]
fn worked_cases() {
    for (bytes, address, expected) in worked::PROBES {
        let width = if bytes == 1 { Width::Byte } else { Width::Word };
        assert_eq!(target(address, width), expected, "{width:?} 0x{address:08X}");
    }
}

#[test]
fn bytes_that_are_written() {
    let mut vram = vec![0; 262_144];
    let mut write = |width, address| {
        let (rom, wram) = (&[0; 1_024], &[0; 65_536]);
        let mut memories = ProbeMemories { rom, wram, vram: &mut vram, pak: &[] };
        probe(&mut memories, width, address, 0x4433_2211)
    };
    assert_eq!(write(Width::Word, 0x0001_E003), Ok(()));
    assert_eq!(write(Width::Half, 0x0003_8005), Ok(()));
    assert_eq!(write(Width::Byte, 0x0007_FFFF), Ok(()));
    assert_eq!(write(Width::Word, 0x0003_C000), Err(Refusal::ProbeTarget));
    assert_eq!(vram[0x1E000..0x1E004], [0x11, 0x22, 0x33, 0x44]);
    assert_eq!(vram[0x38004..0x38006], [0x11, 0x22]);
    assert_eq!(vram[0x1FFFF], 0x11);
    assert_eq!(vram.iter().filter(|&&byte| byte != 0).count(), 7);
}

#[test]
fn refusals_in_their_order() {
    let mut vram = vec![0; 262_144];
    for (rom, wram, length, pak, refusal) in [
        (512, 0, 0, 3, Refusal::RomLength),
        (1_024, 0, 0, 3, Refusal::WramLength),
        (1_024, 65_536, 0, 3, Refusal::VramLength),
        (1_024, 65_536, 262_144, 3, Refusal::PakLength),
        (1_024, 65_536, 262_144, 2, Refusal::ProbeTarget),
    ] {
        let (rom, wram, pak) = (vec![0; rom], vec![0; wram], vec![0; pak]);
        let vram = &mut vram[..length];
        let mut memories = ProbeMemories { rom: &rom, wram: &wram, vram, pak: &pak };
        assert_eq!(probe(&mut memories, Width::Byte, 0, 0), Err(refusal));
    }
}
