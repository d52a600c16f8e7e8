//! The library touches no byte outside the caller's buffers, and writes no ROM: the
//! buffers lie between pages that may not be touched, at exactly their length.

#![cfg(target_os = "linux")]

use difftests::access::{biased_address, biased_value};
use difftests::fence::Fenced;
use difftests::fence::{FencedMemories, Side};
use difftests::machine::{
    hardware_to_library, hardware_to_model, random_drawing, random_hardware, to_library, to_model,
    Buffers,
};
use difftests::random::Random;
use model::{bus, DrawingRegisters, Hardware, Loaded, Memories, ReadMemories, Refusal};

const LENGTHS: [(usize, usize); 5] =
    [(1_024, 0), (1_024, 1), (2_048, 2), (1_024, 4), (4_096, 8_192)];

type Load = fn(vbsys::ReadMemories, vbsys::Drawing, vbsys::Hardware, u32) -> vbsys::Loaded;
type ModelLoad = fn(&ReadMemories, &DrawingRegisters, &Hardware, u32) -> Result<Loaded, Refusal>;
type Store = fn(&mut vbsys::Memories, vbsys::Drawing, vbsys::Hardware, u32, u32) -> vbsys::Stored;
type ModelStore =
    fn(&mut Memories, &mut DrawingRegisters, &mut Hardware, u32, u32) -> Result<(), Refusal>;

/// The calls of each width, the library's and the model's.
const WIDTHS: [(Load, ModelLoad, Store, ModelStore); 3] = [
    (vbsys::load_byte, bus::load_byte, vbsys::store_byte, bus::store_byte),
    (vbsys::load_half, bus::load_half, vbsys::store_half, bus::store_half),
    (vbsys::load_word, bus::load_word, vbsys::store_word, bus::store_word),
];

#[test]
fn loads_and_stores() {
    let mut random = Random::new(0xFE_0001);
    for side in [Side::Start, Side::End] {
        for (rom, pak) in LENGTHS {
            let mut model = Buffers::random(&mut random, rom, pak);
            let mut fenced = FencedMemories::new(&model, side);
            let mut drawing = random_drawing(&mut random);
            let mut hardware = random_hardware(&mut random);
            for _ in 0..20_000 {
                let address = biased_address(&mut random, rom, pak);
                let value = biased_value(&mut random);
                let registers = to_library(&drawing);
                let timer = hardware_to_library(&hardware);
                let (load, model_load, store, model_store) = random.pick(&WIDTHS);
                if random.one_in(2) {
                    let loaded = load(fenced.read(), registers, timer, address);
                    let memories = model.read_by_model();
                    let expected = model_load(&memories, &drawing, &hardware, address);
                    let vbsys::Loaded { value, undefined, .. } = loaded;
                    assert_eq!(Ok(Loaded { value, undefined }), expected);
                } else {
                    let stored = store(&mut fenced.write(), registers, timer, address, value);
                    let memories = &mut model.for_model();
                    model_store(memories, &mut drawing, &mut hardware, address, value).unwrap();
                    assert_eq!(to_model(&stored.drawing), drawing);
                    assert_eq!(hardware_to_model(&stored.hardware), hardware);
                }
            }
            fenced.expect_equal(&model);
        }
    }
}

/// Refused calls look at no byte either.
#[test]
fn refused_lengths() {
    let good = [1_024usize, 65_536, 262_144, 4];
    let bad: [&[usize]; 4] = [
        &[0, 1, 512, 1_023, 1_025, 4_095],
        &[0, 1, 65_535, 65_537],
        &[0, 1, 262_143, 262_145],
        &[3, 5, 4_095, 4_097],
    ];
    let (registers, timer) = (vbsys::Drawing::default(), vbsys::Hardware::default());
    for side in [Side::Start, Side::End] {
        for subject in 0..4 {
            for &length in bad[subject] {
                let mut lengths = good;
                lengths[subject] = length;
                let [rom, wram, vram, pak] = lengths;
                let mut fenced = FencedMemories::new(&Buffers::zeroed(rom, wram, vram, pak), side);
                for region in 0..8 {
                    let address = region << 24 | 0xFF_FFFC;
                    let loaded = vbsys::load_word(fenced.read(), registers, timer, address);
                    let stored =
                        vbsys::store_word(&mut fenced.write(), registers, timer, address, 1);
                    let number = subject as u32 + 1;
                    assert_eq!((loaded.refusal, stored.refusal), (number, number));
                }
            }
        }
    }
}

#[test]
fn runs() {
    use difftests::program::load_program;
    use difftests::twin::{processor_to_library, Twin};
    let mut random = Random::new(0xFE_0002);
    for side in [Side::Start, Side::End] {
        for (rom, pak) in LENGTHS {
            for _ in 0..60 {
                let buffers = Buffers::random(&mut random, rom, pak);
                let drawing = random_drawing(&mut random);
                let mut twin = Twin::new(buffers, Default::default(), drawing);
                load_program(&mut random, &mut twin, 150);
                let mut fenced = FencedMemories::new(&twin.model, side);
                let processor = processor_to_library(&twin.processor);
                let registers = to_library(&twin.drawing);
                let ran = vbsys::run(&mut fenced.write(), processor, registers, 500);
                let expected = twin.run(500, &|| "a run between fences".into());
                assert_eq!(
                    (ran.count, ran.processor),
                    (expected.count, processor_to_library(&twin.processor))
                );
                fenced.expect_equal(&twin.model);
            }
        }
    }
}

#[test]
fn drawings() {
    use difftests::scene::{crowded, draw_by_library, draw_by_model, Draw};
    let mut random = Random::new(0xFE_0003);
    for side in [Side::Start, Side::End] {
        for _ in 0..40 {
            let mut scene = crowded(&mut random, 12);
            let mut fenced = Fenced::new(&scene.vram, side);
            let draw = if random.one_in(2) {
                Draw::Frame { frame: random.below(2) }
            } else {
                Draw::Strip { frame: random.below(2), strip: random.below(28) }
            };
            assert_eq!(draw_by_library(draw, fenced.bytes_mut(), &scene.drawing), 0);
            assert_eq!(draw_by_model(draw, &mut scene.vram, &scene.drawing), 0);
            assert!(fenced.bytes() == &*scene.vram, "{draw:?}");
            for number in [0, 511, 512, 2_047, 2_048] {
                vbsys::character(fenced.bytes(), number);
            }
        }
    }
}

#[test]
fn pixel_lists() {
    use difftests::scene::crowded;
    use model::answers::answers;
    use model::world::Eye;
    let mut random = Random::new(0xFE_0004);
    for side in [Side::Start, Side::End] {
        for _ in 0..40 {
            let scene = crowded(&mut random, 24);
            let mut vram = Fenced::new(&scene.vram, side);
            vram.forbid_writing();
            let eye = random.pick(&Eye::BOTH);
            let (x, y) = (random.below(384), random.below(224));
            let list = answers(&scene.vram, &scene.drawing, eye, x, y).unwrap().listed();
            for words in 0..list.len() + 3 {
                let mut output = Fenced::new(&vec![0xA5; 4 * words], side);
                let (bytes, drawing) = (vram.bytes(), to_library(&scene.drawing));
                let listed =
                    vbsys::pixel_bytes(bytes, drawing, eye.number(), x, y, output.words_mut());
                assert_eq!((listed.refusal, listed.count), (0, list.len() as u64));
                for (n, word) in output.words_mut().iter().enumerate() {
                    let due = list.get(n).map_or(0xA5A5_A5A5, |&address| address as u32);
                    assert_eq!(*word, due, "word {n} of {words}");
                }
            }
        }
    }
}
