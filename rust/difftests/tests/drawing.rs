//! Strips and frames of the library against the model's, byte by byte over the
//! whole of VRAM.

use difftests::random::Random;
use difftests::scene::{
    crowded, expect_same_drawing, put_objects, random_groups, random_world, visible_world, Draw,
    Scene, WorldHalves, AFFINE, H_BIAS, NORMAL, OBJECT,
};

/// Frames of crowded scenes, in two tests.
const CROWDED: u32 = 600;
/// Frames of each kind of world alone.
const ALONE: u32 = 500;
/// Strips, eight of a scene.
const SCENES_OF_STRIPS: u32 = 2_600;

const GX: [i32; 9] = [-512, -511, -383, -1, 0, 1, 383, 384, 511];
const GP: [i32; 7] = [-512, -384, -1, 0, 1, 383, 511];
const W: [i32; 8] = [0, 7, 383, 0x3FF, 0x400, 0xFFF, 0x1000, 0x1FFF];
const GY: [i32; 12] = [-32_768, -225, -9, -8, -7, -1, 0, 3, 217, 223, 224, 32_767];
const H: [i32; 11] = [0, 1, 6, 7, 8, 223, 300, 0x7FFF, 0x8000, 0xFFFE, 0xFFFF];

fn frames(seed: u64, count: u32, scene_of: impl Fn(&mut Random) -> Scene) {
    for number in 0..count {
        let seed = seed + u64::from(number);
        let mut random = Random::new(seed);
        let scene = scene_of(&mut random);
        let frame = random.below(2);
        expect_same_drawing(&scene, Draw::Frame { frame }, &|| format!("seed 0x{seed:X}"));
    }
}

#[test]
fn crowded_frames() {
    frames(0xD0_0000, CROWDED, |random| crowded(random, 12));
}

#[test]
fn very_crowded_frames() {
    frames(0xD1_0000, CROWDED, |random| crowded(random, 40));
}

/// One world of `kind` on top of random memory, nothing else.
fn alone(random: &mut Random, kind: u16) -> Scene {
    let mut scene = Scene::random(random);
    let number = random.below(32) as usize;
    let world =
        if random.one_in(2) { visible_world(random, kind) } else { random_world(random, kind) };
    scene.put_world(number, &world);
    if kind == AFFINE && random.one_in(2) {
        scene.put_affine_rows(random, world.parameter_base as u16, 224);
    }
    scene
}

#[test]
fn normal_worlds_alone() {
    frames(0xD2_0000, ALONE, |random| alone(random, NORMAL));
}

#[test]
fn h_bias_worlds_alone() {
    frames(0xD3_0000, ALONE, |random| alone(random, H_BIAS));
}

#[test]
fn affine_worlds_alone() {
    frames(0xD4_0000, ALONE, |random| alone(random, AFFINE));
}

/// One to nine object worlds, dummies among them: the groups come round again.
#[test]
fn object_worlds_alone() {
    frames(0xD5_0000, ALONE, |random| {
        let mut scene = Scene::random(random);
        put_objects(random, &mut scene);
        for _ in 0..=random.below(9) {
            let world = random_world(random, OBJECT);
            scene.put_world(random.below(32) as usize, &world);
        }
        scene
    });
}

/// Strips of crowded scenes, each from memory as the ones before left it.
#[test]
fn random_strips() {
    for number in 0..SCENES_OF_STRIPS {
        let seed = 0xD6_0000 + u64::from(number);
        let mut random = Random::new(seed);
        let mut scene = crowded(&mut random, 12);
        for _ in 0..8 {
            let (frame, strip) = (random.below(2), random.below(28));
            let draw = Draw::Strip { frame, strip };
            scene.vram = expect_same_drawing(&scene, draw, &|| format!("seed 0x{seed:X}"));
            if random.one_in(4) {
                scene.drawing.spt = random_groups(&mut random);
            }
        }
    }
}

/// A frame is its strips in order, and in any other.
#[test]
fn a_frame_is_its_strips() {
    for number in 0..40 {
        let seed = 0xD7_0000 + number;
        let mut random = Random::new(seed);
        let scene = crowded(&mut random, 12);
        let frame = random.below(2);
        let whole = expect_same_drawing(&scene, Draw::Frame { frame }, &|| format!("{seed:X}"));
        let mut strips: Vec<u32> = (0..28).collect();
        for last in (1..28).rev() {
            strips.swap(last, random.below(last as u32 + 1) as usize);
        }
        let mut vram = scene.vram.clone();
        for strip in strips {
            let drawing = difftests::machine::to_library(&scene.drawing);
            assert_eq!(vbsys::draw_strip(&mut vram, drawing, frame, strip), 0);
        }
        assert!(vram == whole, "a frame isn't its strips, seed 0x{seed:X}");
    }
}

/// Horizontal extremes: every GX, GP and W, for each kind of background world.
#[test]
fn horizontal_extremes() {
    let mut random = Random::new(0xD8_0000);
    for kind in [NORMAL, H_BIAS, AFFINE] {
        let base = alone(&mut random, kind);
        for gx in GX {
            for gp in GP {
                for w in W {
                    let world = WorldHalves {
                        flags: 0xC000 | kind << 12 | random.half() & 0x0F8F,
                        gx,
                        gp,
                        w,
                        gy: 1,
                        h: 8,
                        parameter_base: random.between(0, 65_535),
                        ..random_world(&mut random, kind)
                    };
                    let mut scene = base.clone();
                    scene.put_world(20, &world);
                    let draw = Draw::Strip { frame: random.below(2), strip: 0 };
                    expect_same_drawing(&scene, draw, &|| format!("kind {kind}, {world:?}"));
                }
            }
        }
    }
}

/// Vertical extremes: every GY and H, for each kind of background world.
#[test]
fn vertical_extremes() {
    let mut random = Random::new(0xD9_0000);
    for kind in [NORMAL, H_BIAS, AFFINE] {
        for gy in GY {
            for h in H {
                let world = WorldHalves {
                    flags: 0xC000 | kind << 12 | random.half() & 0x0F8F,
                    gx: random.between(0, 300),
                    gp: 0,
                    gy,
                    h,
                    w: 20,
                    ..random_world(&mut random, kind)
                };
                let mut scene = Scene::random(&mut random);
                scene.put_world(31, &world);
                let draw = Draw::Frame { frame: random.below(2) };
                expect_same_drawing(&scene, draw, &|| format!("kind {kind}, {world:?}"));
            }
        }
    }
}

/// Every SCX, SCY and map base, OVER clear and set, over the whole background.
#[test]
fn background_sizes() {
    let mut random = Random::new(0xDA_0000);
    for sizes in 0..16u16 {
        for base in 0..16u16 {
            for over in [0u16, 0x80] {
                let flags = 0xC000 | sizes << 8 | over | base;
                let mut scene = Scene::random(&mut random);
                let columns = 512 << (sizes >> 2);
                let rows = 512 << (sizes & 3);
                for number in 0..6 {
                    let world = WorldHalves {
                        flags,
                        gx: 64 * number,
                        w: 63,
                        h: 7,
                        mx: random.between(-700, columns + 700),
                        my: random.between(-700, rows + 700),
                        mp: random.pick(&[0, 512, 1_024, 4_096, -2_048]),
                        overplane: random.between(0, 65_535),
                        ..WorldHalves::default()
                    };
                    scene.put_world(31 - number as usize, &world);
                }
                let draw = Draw::Strip { frame: 0, strip: 0 };
                expect_same_drawing(&scene, draw, &|| {
                    format!("sizes {sizes:X}, base {base}, OVER {over:X}")
                });
            }
        }
    }
}

/// Objects at both extremes of JX and JP, at every JY near 0 and 256.
#[test]
fn object_extremes() {
    let mut random = Random::new(0xDB_0000);
    for jx in GX.into_iter().chain([-8, -7, 376, 377]) {
        for jp in GP.into_iter().chain([-130, 128, 510]) {
            let mut scene = Scene::random(&mut random);
            let jys = [0, 1, 7, 8, 215, 216, 217, 223, 224, 247, 248, 249, 255];
            for (number, jy) in jys.into_iter().enumerate() {
                scene.put_object(number, jx, jp, jy, 3);
            }
            scene.drawing.spt = [12, 0, 0, 12];
            scene.put_world(9, &WorldHalves { flags: 0x7000, ..WorldHalves::default() });
            let draw = Draw::Frame { frame: random.below(2) };
            expect_same_drawing(&scene, draw, &|| format!("JX {jx}, JP {jp}"));
        }
    }
}

/// Memory that is random throughout, the tables too.
#[test]
fn random_memory() {
    for number in 0..60 {
        let seed = 0xDC_0000 + number;
        let mut random = Random::new(seed);
        let mut scene = Scene::random(&mut random);
        random.fill(&mut scene.vram);
        for world in 0..32 {
            scene.put_end(world, random.one_in(40));
        }
        scene.drawing.spt = random_groups(&mut random);
        expect_same_drawing(&scene, Draw::Frame { frame: 0 }, &|| format!("seed 0x{seed:X}"));
    }
}

/// VRAM of one byte throughout.
#[test]
fn uniform_memory() {
    let mut random = Random::new(0xDD_0000);
    for byte in [0x00, 0xFF, 0x55, 0xAA, 0xC0, 0x80, 0x3F, 0x8F] {
        let mut scene = Scene::random(&mut random);
        scene.vram.fill(byte);
        expect_same_drawing(&scene, Draw::Frame { frame: 1 }, &|| format!("all 0x{byte:02X}"));
    }
}

/// Every character: the part begins at its address and has 16 bytes.
#[test]
fn every_character() {
    let vram = crowded(&mut Random::new(0xAE_0001), 12).vram;
    for number in 0..2_048 {
        let part = vbsys::character(&vram, number);
        let model = model::character::character(&vram, number).unwrap();
        assert_eq!((part.refusal, part.length), (0, 16), "character {number}");
        let start = part.offset as usize;
        assert_eq!(start, model::character::character_address(number), "character {number}");
        assert_eq!(&vram[start..start + 16], model, "character {number}");
    }
}
