//! The papers' worked rows, asked of the library alone.

use vb::grouped;
use worked::floating;

/// Every row; a row that the library answers otherwise panics.
pub fn rows() -> String {
    let count = floating_rows() + probes() + ticks() + column_table();
    format!("{} rows as the specification prints them", grouped(count as u64))
}

fn floating_rows() -> usize {
    let (rom, mut vram) = (vec![0; 1_024], vec![0; vb::VRAM_LENGTH]);
    for (sub_opcode, reg2, reg1, after, psw) in floating::ENDED {
        let mut wram = vec![0; vb::WRAM_LENGTH];
        let first = 0b111110 << 10 | 1 << 5 | 2u16;
        wram[..2].copy_from_slice(&first.to_le_bytes());
        wram[2..4].copy_from_slice(&(sub_opcode << 10).to_le_bytes());
        let mut processor = vbsys::reset().processor;
        (processor.pc, processor.psw) = (0x0500_0000, 0);
        (processor.regs[1], processor.regs[2]) = (reg2, reg1);
        let mut memories =
            vbsys::Memories { rom: &rom, wram: &mut wram, vram: &mut vram, pak: &mut [] };
        let stepped = vbsys::step(&mut memories, processor, vbsys::Drawing::default());
        let seen =
            (stepped.refusal, stepped.answer, stepped.processor.regs[1], stepped.processor.psw);
        let what = format!("sub-opcode {sub_opcode:06b} of 0x{reg2:08X} and 0x{reg1:08X}");
        assert_eq!(seen, (0, vbsys::ENDED, after, psw), "{what}");
    }
    floating::ENDED.len()
}

fn probes() -> usize {
    let (rom, wram) = (vec![0; 1_024], vec![0; vb::WRAM_LENGTH]);
    for (size, address, place) in worked::PROBES {
        let mut vram = vec![0; vb::VRAM_LENGTH];
        let mut memories =
            vbsys::ProbeMemories { rom: &rom, wram: &wram, vram: &mut vram, pak: &[] };
        let refusal = match size {
            1 => vbsys::probe_byte(&mut memories, address, 0xFF),
            2 => vbsys::probe_half(&mut memories, address, 0xFFFF),
            _ => vbsys::probe_word(&mut memories, address, 0xFFFF_FFFF),
        };
        let what = format!("a probe of {size} bytes at 0x{address:08X}");
        assert_eq!(refusal, if place.is_some() { 0 } else { 13 }, "{what}");
        let written: Vec<usize> = (0..vram.len()).filter(|&at| vram[at] != 0).collect();
        assert_eq!(written, place.map_or(vec![], |at| (at..at + size).collect()), "{what}");
    }
    worked::PROBES.len()
}

fn ticks() -> usize {
    let hardware = |[lines, count, reload, control]: [u16; 4]| vbsys::Hardware {
        lines,
        count,
        reload,
        control,
    };
    for [before, after] in worked::TICKS {
        let ticked = vbsys::tick(hardware(before));
        assert_eq!((ticked.refusal, ticked.hardware), (0, hardware(after)), "a tick of {before:?}");
    }
    worked::TICKS.len()
}

fn column_table() -> usize {
    let mut vram = vec![0; vb::VRAM_LENGTH];
    assert_eq!(vbsys::load_column_table(&mut vram), 0, "the column table");
    let table = worked::column_table();
    assert!(vram[0x3DC00..0x3DC00 + table.len()] == table[..], "the column table's bytes");
    table.len() / 16
}
