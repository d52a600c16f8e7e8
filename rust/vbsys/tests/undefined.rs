//! Where a call is refused or misused its masks are 0, as every other answer.

use vbsys::{Drawing, Hardware, Memories, Processor, ReadMemories, Undefined};

const UNMAPPED: u32 = 0x0004_0000;

fn step(
    rom: &[u8],
    wram: &mut [u8],
    mut processor: Processor,
    drawing: Drawing,
) -> (u32, Undefined) {
    let mut vram = vec![0; 262_144];
    if processor.pc == 0x0003_FFFE {
        vram[0x3FFFE..].copy_from_slice(&(0b111010u16 << 10).to_le_bytes());
    }
    processor.psw = 0;
    let mut memories = Memories { rom, wram, vram: &mut vram, pak: &mut [] };
    let done = vbsys::step(&mut memories, processor, drawing);
    (done.refusal, done.undefined)
}

#[test]
fn a_refused_step_has_no_masks() {
    let (rom, mut wram) = (vec![0; 1024], vec![0; 65_536]);
    let at = |pc| Processor { pc, ..vbsys::reset().processor };
    let defined = Undefined::default();
    let first = Undefined { first: 3, ..defined };
    let drawing = Drawing::default();
    assert_eq!(step(&rom, &mut wram, at(UNMAPPED), drawing), (0, first));
    assert_eq!(step(&rom[1..], &mut wram, at(UNMAPPED), drawing), (1, defined));
    assert_eq!(step(&rom, &mut wram[1..], at(UNMAPPED), drawing), (2, defined));
    let wide = Drawing { bkcol: 4, ..drawing };
    assert_eq!(step(&rom, &mut wram, at(UNMAPPED), wide), (5, defined));
    // CAXI in the last halfword of VRAM: refused by 6 with its second halfword undefined
    assert_eq!(step(&rom, &mut wram, at(0x0003_FFFE), drawing), (6, defined));
    let misused = Processor { mode: 3, ..at(UNMAPPED) };
    assert_eq!(step(&rom, &mut wram, misused, drawing), (vbsys::MISUSE, defined));
}

#[test]
fn a_refused_load_has_no_mask() {
    let (rom, wram, vram) = (vec![0; 1024], vec![0; 65_536], vec![0; 262_144]);
    let memories = |rom| ReadMemories { rom, wram: &wram, vram: &vram, pak: &[] };
    let load =
        |rom| vbsys::load_word(memories(rom), Drawing::default(), Hardware::default(), UNMAPPED);
    assert_eq!((load(&rom).refusal, load(&rom).undefined), (0, 0xF));
    assert_eq!((load(&rom[1..]).refusal, load(&rom[1..]).undefined), (1, 0));
}
