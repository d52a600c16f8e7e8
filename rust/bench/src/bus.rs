//! A checked word load and store, 1,024 calls at a time over changing addresses.

use std::hint::black_box;

use crate::{least, Row};

const CALLS: u32 = 1024;

struct Buffers {
    rom: Vec<u8>,
    wram: Vec<u8>,
    vram: Vec<u8>,
}

pub fn rows() -> Vec<Row> {
    let mut buffers =
        Buffers { rom: vec![0; 1 << 20], wram: vec![0; 65_536], vram: vec![0; 262_144] };
    vec![
        load("word load from WRAM", 0x0500_0000, &buffers),
        load("word load from a ROM of 1 MiB", 0x0700_0000, &buffers),
        store("word store to WRAM", 0x0500_0000, &mut buffers),
        store("word store to VRAM", 0x0002_0000, &mut buffers),
        list("word load from WRAM, one of 256 in a list", 0, &mut buffers),
        list("word store to WRAM, one of 256 in a list", 1, &mut buffers),
    ]
}

/// An address of 64 KiB from `base` on; neighbours lie far apart.
fn address(base: u32, call: u32) -> u32 {
    base + call.wrapping_mul(0x9E4C) % 0x1_0000
}

fn load(what: &str, base: u32, buffers: &Buffers) -> Row {
    let Buffers { rom, wram, vram } = buffers;
    let library = vbsys::ReadMemories { rom, wram, vram, pak: &[] };
    let model = model::ReadMemories { rom, wram, vram, pak: &[] };
    let (first, second) = (vbsys::Drawing::default(), model::DrawingRegisters::default());
    let (timer, model_timer) = (vbsys::Hardware::default(), model::Hardware::default());
    Row {
        what: what.to_string(),
        library: least(|| {
            for call in 0..CALLS {
                let at = black_box(address(base, call));
                black_box(vbsys::load_word(library, first, timer, at));
            }
            u64::from(CALLS)
        }),
        model: least(|| {
            for call in 0..CALLS {
                let at = black_box(address(base, call));
                let _ = black_box(model::bus::load_word(&model, &second, &model_timer, at));
            }
            u64::from(CALLS)
        }),
    }
}

fn store(what: &str, base: u32, buffers: &mut Buffers) -> Row {
    let Buffers { rom, wram, vram } = buffers;
    let (first, timer) = (vbsys::Drawing::default(), vbsys::Hardware::default());
    let (mut second, mut model_timer) = Default::default();
    let library = least(|| {
        let mut memories = vbsys::Memories { rom, wram, vram, pak: &mut [] };
        for call in 0..CALLS {
            let at = black_box(address(base, call));
            black_box(vbsys::store_word(&mut memories, first, timer, at, call));
        }
        u64::from(CALLS)
    });
    let model = least(|| {
        let mut memories = model::Memories { rom, wram, vram, pak: &mut [] };
        for call in 0..CALLS {
            let at = black_box(address(base, call));
            let (second, timer) = (&mut second, &mut model_timer);
            let _ = black_box(model::bus::store_word(&mut memories, second, timer, at, call));
        }
        u64::from(CALLS)
    });
    Row { what: what.to_string(), library, model }
}

/// Lists of 256 accesses, 1,024 accesses at a time.
fn list(what: &str, write: u32, buffers: &mut Buffers) -> Row {
    let Buffers { rom, wram, vram } = buffers;
    let of = |call: u32| vbsys::Access {
        address: address(0x0500_0000, call),
        size: 4,
        write,
        value: call,
        undefined: 0,
    };
    let mut accesses: Vec<_> = (0..CALLS).map(of).collect();
    let same = |one: &vbsys::Access| model::access_list::Access {
        address: one.address,
        size: one.size,
        write: one.write,
        value: one.value,
        undefined: one.undefined,
    };
    let mut models: Vec<_> = accesses.iter().map(same).collect();
    let (drawing, hardware) = (vbsys::Drawing::default(), vbsys::Hardware::default());
    let library = least(|| {
        let mut memories = vbsys::Memories { rom, wram, vram, pak: &mut [] };
        for part in accesses.chunks_exact_mut(256) {
            let done = vbsys::access_list(&mut memories, drawing, hardware, black_box(part));
            assert_eq!(black_box(done).refusal, 0);
        }
        u64::from(CALLS)
    });
    let mut registers = model::DrawingRegisters::default();
    let mut timer = model::Hardware::default();
    let model = least(|| {
        let mut memories = model::Memories { rom, wram, vram, pak: &mut [] };
        for part in models.chunks_exact_mut(256) {
            let part = black_box(part);
            let done =
                model::access_list::access_list(&mut memories, &mut registers, &mut timer, part);
            assert!(black_box(done).is_ok());
        }
        u64::from(CALLS)
    });
    Row { what: what.to_string(), library, model }
}
