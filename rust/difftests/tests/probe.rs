//! The probe (W9): every address of the VIP by each width and mirror, the other
//! regions, refusals, and pictures that the probe must leave alone.

use difftests::machine::Buffers;
use difftests::random::Random;
use difftests::scene::{
    draw_by_library, draw_by_model, put_objects, visible_world, Draw, Scene, AFFINE, H_BIAS,
    NORMAL, OBJECT,
};
use model::answers::answers;
use model::drawing::pixel;
use model::instruction::Width;
use model::probe::{is_in_ranges, target};
use model::world::Eye;

const WIDTHS: [Width; 3] = [Width::Byte, Width::Half, Width::Word];
const MIRRORS: [u32; 4] = [0, 0x0058_0000, 0xA800_0000, 0xF8F8_0000];

/// The write made by the library; the refusal's number.
fn by_library(buffers: &mut Buffers, width: Width, address: u32, value: u32) -> u32 {
    let Buffers { rom, wram, vram, pak } = buffers;
    let mut memories = vbsys::ProbeMemories { rom, wram, vram, pak };
    match width {
        Width::Byte => vbsys::probe_byte(&mut memories, address, value),
        Width::Half => vbsys::probe_half(&mut memories, address, value),
        Width::Word => vbsys::probe_word(&mut memories, address, value),
    }
}

/// The write made by the model.
fn by_model(buffers: &mut Buffers, width: Width, address: u32, value: u32) -> u32 {
    let Buffers { rom, wram, vram, pak } = buffers;
    let mut memories = model::probe::ProbeMemories { rom, wram, vram, pak };
    let answer = model::probe::probe(&mut memories, width, address, value);
    answer.err().map_or(0, model::Refusal::number)
}

/// Memories held twice.
struct Pair {
    library: Buffers,
    model: Buffers,
}

impl Pair {
    fn random(random: &mut Random) -> Pair {
        let library = Buffers::random(random, 1_024, 4);
        Pair { model: library.clone(), library }
    }

    /// Makes the write on both sides; gives the number.
    fn write(&mut self, width: Width, address: u32, value: u32) -> u32 {
        let library = by_library(&mut self.library, width, address, value);
        let model = by_model(&mut self.model, width, address, value);
        assert_eq!(library, model, "{width:?} 0x{address:08X} value 0x{value:08X}");
        library
    }

    fn expect_equal(&self, what: &dyn Fn() -> String) {
        self.library.expect_equal(&self.model, what);
    }
}

/// Each of the 524,288 addresses, not only the aligned ones, by each width, at
/// each mirror; the memories are compared every 4,096 addresses. The numbers of
/// accepted writes are those of the two ranges and the mirror of the characters.
#[test]
fn every_address_of_the_vip() {
    let mut random = Random::new(0x9001_0000);
    let mut pair = Pair::random(&mut random);
    for mirror in MIRRORS {
        for width in WIDTHS {
            let mut accepted = 0;
            for v in 0..0x80000 {
                let number = pair.write(width, mirror | v, random.word());
                accepted += u32::from(number == 0);
                assert!(number == 0 || number == 13, "{width:?} 0x{v:X}");
                if v % 4_096 == 4_095 {
                    pair.expect_equal(&|| format!("{width:?} up to 0x{:08X}", mirror | v));
                }
            }
            assert_eq!(accepted, 0x2000 + 0x4000 + 0x2000, "{width:?} at 0x{mirror:08X}");
        }
    }
}

/// The borders of the ranges, all memories compared after each write; words,
/// halfwords and bytes there and on either side.
#[test]
fn borders_of_the_ranges() {
    let mut random = Random::new(0x9002_0000);
    let mut pair = Pair::random(&mut random);
    for border in [0x1E000u32, 0x20000, 0x38000, 0x3A000, 0x3C000, 0x78000, 0x7E000, 0x80000] {
        for step in 0..24 {
            for width in WIDTHS {
                let address = border.wrapping_add(step).wrapping_sub(12);
                for high in [0, 0x0100_0000, 0x0800_0000] {
                    pair.write(width, high | address & 0xFF_FFFF, random.word());
                    pair.expect_equal(&|| format!("{width:?} 0x{address:08X}"));
                }
            }
        }
    }
}

/// Regions 1 to 7 are never the probe's, whatever their low bits are.
#[test]
fn other_regions() {
    let mut random = Random::new(0x9003_0000);
    let mut pair = Pair::random(&mut random);
    for high in (0..256u32).filter(|high| high % 8 != 0) {
        for _ in 0..400 {
            let low = random.pick(&[0x1E000, 0x38000, 0x3BFFC, 0x7E000]) + random.below(8_192);
            let width = random.pick(&WIDTHS);
            let number = pair.write(width, high << 24 | low, random.word());
            assert_eq!(number, 13, "region {}, 0x{low:X}", high % 8);
        }
    }
    pair.expect_equal(&|| "other regions".into());
}

/// The request's cases.
#[test]
fn worked_cases() {
    for (bytes, address, offset) in worked::PROBES {
        let width = if bytes == 1 { Width::Byte } else { Width::Word };
        let mut buffers = Buffers::zeroed(1_024, 65_536, 262_144, 0);
        let mut expected = buffers.clone();
        let number = by_library(&mut buffers, width, address, 0x4433_2211);
        assert_eq!(number, if offset.is_some() { 0 } else { 13 }, "0x{address:08X}");
        if let Some(offset) = offset {
            let written = &[0x11, 0x22, 0x33, 0x44][..bytes];
            expected.vram[offset..offset + bytes].copy_from_slice(written);
        }
        buffers.expect_equal(&expected, &|| format!("{width:?} 0x{address:08X}"));
    }
}

/// An accepted write is the bus's store of that size, in VRAM and everywhere.
#[test]
fn a_write_is_a_store() {
    let mut random = Random::new(0x9004_0000);
    let probed = Buffers::random(&mut random, 1_024, 4);
    let (mut registers, mut timer) = Default::default();
    let (mut probed, mut stored) = (probed.clone(), probed);
    for number in 0..20_000 {
        let low = random.pick(&[0x1E000, 0x38000, 0x3A000, 0x7E000]) + random.below(8_192);
        let address = random.pick(&MIRRORS) | low;
        let (width, value) = (random.pick(&WIDTHS), random.word());
        assert_eq!(by_library(&mut probed, width, address, value), 0, "0x{address:08X}");
        let (memories, registers, timer) = (&mut stored.for_model(), &mut registers, &mut timer);
        let answer = match width {
            Width::Byte => model::bus::store_byte(memories, registers, timer, address, value),
            Width::Half => model::bus::store_half(memories, registers, timer, address, value),
            Width::Word => model::bus::store_word(memories, registers, timer, address, value),
        };
        assert_eq!(answer, Ok(()));
        if number % 64 == 0 {
            probed.expect_equal(&stored, &|| format!("{width:?} 0x{address:08X}"));
        }
    }
    probed.expect_equal(&stored, &|| "writes and stores".into());
}

/// Every set of broken conditions 1 to 4 and 13, each length broken in three
/// ways, empty memories among them.
#[test]
fn the_lowest_number_wins() {
    for set in 0..32u32 {
        let broken = |number: u32| set >> number & 1 == 1;
        for way in 0..3 {
            let length = |number: u32, good: usize, bad: [usize; 3]| {
                if broken(number) {
                    bad[way]
                } else {
                    good
                }
            };
            let before = Buffers::zeroed(
                length(0, 1_024, [0, 512, 1_025]),
                length(1, 65_536, [0, 65_535, 65_537]),
                length(2, 262_144, [0, 262_143, 262_145]),
                length(3, 0, [3, 5, 24]),
            );
            let address = if broken(4) { 0x3C000 } else { 0x38000 };
            let due = [1, 2, 3, 4, 13].into_iter().zip(0..5).find(|&(_, bit)| broken(bit));
            let number = due.map_or(0, |(number, _)| number);
            for width in WIDTHS {
                let (mut library, mut model) = (before.clone(), before.clone());
                let what = || format!("{width:?}, broken {set:05b}, way {way}");
                let found = by_library(&mut library, width, address, 0xFFFF_FFFF);
                assert_eq!(found, number, "{}", what());
                assert_eq!(by_model(&mut model, width, address, 0xFFFF_FFFF), number);
                library.expect_equal(&model, &what);
                if number != 0 {
                    library.expect_equal(&before, &what);
                }
            }
        }
    }
}

/// Only VRAM may be written, and no byte outside it is touched.
#[cfg(target_os = "linux")]
#[test]
fn between_fences() {
    use difftests::fence::{Fenced, Side};
    let mut random = Random::new(0x9005_0000);
    for side in [Side::Start, Side::End] {
        let mut model = Buffers::random(&mut random, 1_024, 1);
        let closed = |bytes: &[u8]| Fenced::closed(bytes, side);
        let (rom, wram, pak) = (closed(&model.rom), closed(&model.wram), closed(&model.pak));
        let mut vram = Fenced::new(&model.vram, side);
        for _ in 0..20_000 {
            let address = random.word() & random.pick(&[0x7_FFFF, 0x3_FFFF, 0xFFFF_FFFF]);
            let (width, value) = (random.pick(&WIDTHS), random.word());
            let mut memories = vbsys::ProbeMemories {
                rom: rom.bytes(),
                wram: wram.bytes(),
                vram: vram.bytes_mut(),
                pak: pak.bytes(),
            };
            let number = match width {
                Width::Byte => vbsys::probe_byte(&mut memories, address, value),
                Width::Half => vbsys::probe_half(&mut memories, address, value),
                Width::Word => vbsys::probe_word(&mut memories, address, value),
            };
            assert_eq!(number, by_model(&mut model, width, address, value));
        }
        assert!(vram.bytes() == &*model.vram);
    }
}

/// A scene of few worlds that takes maps 12 and 13, high characters and
/// parameters in those maps.
fn scene_of(random: &mut Random) -> Scene {
    let mut scene = Scene::random(random);
    put_objects(random, &mut scene);
    for _ in 0..1 + random.below(4) {
        let kind = random.pick(&[NORMAL, NORMAL, H_BIAS, AFFINE, OBJECT]);
        let mut world = visible_world(random, kind);
        let base = random.pick(&[10u16, 11, 12, 13, 0]);
        world.flags = world.flags & !0x0F8F | random.half() & 0x0580 | base;
        world.my = random.between(-100, 600);
        if random.one_in(2) {
            world.parameter_base = random.between(0xBFF0, 0xDFFF);
        }
        scene.put_world(random.below(32) as usize, &world);
        if kind == AFFINE {
            scene.put_affine_rows(random, world.parameter_base as u16, 224);
        }
    }
    scene
}

/// Random writes through the probe, refused ones among them.
fn overlay(random: &mut Random, vram: &mut Box<[u8]>) -> u32 {
    let mut buffers = Buffers::zeroed(1_024, 65_536, 0, 0);
    std::mem::swap(&mut buffers.vram, vram);
    let mut accepted = 0;
    for _ in 0..3_000 {
        let low = match random.below(4) {
            0 => random.word() & 0x7_FFFF,
            1 => 0x1E000 + random.below(8_192),
            2 => 0x7E000 + random.below(8_192),
            _ => 0x38000 + random.below(16_384),
        };
        let address = random.below(32) * 0x80000 + low;
        let (width, value) = (random.pick(&WIDTHS), random.word());
        let number = by_library(&mut buffers, width, address, value);
        assert_eq!(number == 0, target(address, width).is_some());
        accepted += u32::from(number == 0);
    }
    std::mem::swap(&mut buffers.vram, vram);
    accepted
}

/// Two drawings of one frame with nothing but probe writes between them, by the
/// frame call or the strip call: a pixel that both draw and whose list avoids
/// the ranges stays.
#[test]
fn undisturbed_pixels() {
    let (mut kept, mut moved, mut touched) = (0u32, 0u32, 0u32);
    for number in 0..60 {
        let seed = 0x9006_0000 + number;
        let mut random = Random::new(seed);
        let scene = scene_of(&mut random);
        let (frame, strip) = (random.below(2), random.below(28));
        let mut call = || match random.below(2) {
            0 => Draw::Frame { frame },
            _ => Draw::Strip { frame, strip },
        };
        let (first, second) = (call(), call());
        let mut vram = scene.vram.clone();
        assert_eq!(draw_by_library(first, &mut vram, &scene.drawing), 0);
        let before = vram.clone();
        assert!(overlay(&mut random, &mut vram) > 1_000);
        let mut model = vram.clone();
        assert_eq!(draw_by_library(second, &mut vram, &scene.drawing), 0);
        assert_eq!(draw_by_model(second, &mut model, &scene.drawing), 0);
        assert!(vram == model, "the second drawing, seed {seed:X}");
        for (eye, y) in Eye::BOTH.into_iter().flat_map(|eye| (0..8).map(move |row| (eye, row))) {
            let y = 8 * strip + y;
            for x in 0..384 {
                let account = answers(&scene.vram, &scene.drawing, eye, x, y).unwrap();
                let listed = account.bytes();
                let same = pixel(&before, frame, eye, x, y) == pixel(&vram, frame, eye, x, y);
                if listed.iter().any(|&address| is_in_ranges(address)) {
                    touched += 1;
                    moved += u32::from(!same);
                } else {
                    assert!(same, "{account:X?}, seed {seed:X}");
                    kept += u32::from(!listed.is_empty());
                }
            }
        }
    }
    assert!(kept > 50_000 && touched > 50_000 && moved > 10_000, "{kept}, {touched}, {moved}");
}
