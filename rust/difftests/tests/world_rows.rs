//! The height of worlds (W3): every GY around the image and every small H, for
//! each kind of background world, and demand 3's list: in the rows that W3
//! adds, and where no strip holds GY, so that W3 adds none.

use difftests::machine::to_library;
use difftests::random::Random;
use difftests::scene::{
    draw_by_library, expect_same_drawing, random_world, Draw, Scene, WorldHalves, AFFINE, H_BIAS,
    NORMAL,
};
use model::answers::{answers, Answers, Covered};
use model::drawing::pixel;
use model::world::Eye;
use vbsys::{pixel_bytes, Listed};

const KINDS: [u16; 3] = [NORMAL, H_BIAS, AFFINE];
/// Pixels of added rows looked at.
const PIXELS: u64 = 400;

/// H from -3 to 17, and both extremes: 23 heights.
fn small_and_extreme() -> Vec<i32> {
    (-3..=17).chain([-32_768, 32_767]).collect()
}

/// A parameter base: even, odd, or so near to 65,535 that the rows wrap.
fn parameter_base(random: &mut Random) -> i32 {
    match random.below(3) {
        0 => 2 * random.between(0, 20_000),
        1 => 2 * random.between(0, 20_000) + 1,
        _ => 65_535 - random.between(0, 12),
    }
}

/// A scene with one world for each height, side by side, all with one GY. Its
/// parameters are random, so that each row has its own.
fn side_by_side(random: &mut Random, kind: u16, gy: i32) -> Scene {
    let mut scene = Scene::random(random);
    for (n, h) in small_and_extreme().into_iter().enumerate() {
        let world = WorldHalves {
            flags: 0xC000 | kind << 12 | random.half() & 0x0F8F,
            gx: 16 * n as i32,
            gp: random.between(-2, 2),
            gy,
            w: 14,
            h,
            parameter_base: parameter_base(random),
            ..random_world(random, kind)
        };
        scene.put_world(31 - n, &world);
    }
    scene
}

/// Every GY from -16 to 239 with each height, by frames.
#[test]
fn every_gy_and_height_by_frames() {
    for (kind, gy) in KINDS.into_iter().flat_map(|kind| (-16..=239).map(move |gy| (kind, gy))) {
        let mut random = Random::new(0x3001_0000 + 1_000 * u64::from(kind) + (gy + 16) as u64);
        let scene = side_by_side(&mut random, kind, gy);
        let frame = random.below(2);
        expect_same_drawing(&scene, Draw::Frame { frame }, &|| format!("kind {kind}, GY {gy}"));
    }
}

/// The same by strips: the strip above GY's, its own and the two below.
#[test]
fn every_gy_and_height_by_strips() {
    for (kind, gy) in KINDS.into_iter().flat_map(|kind| (-16..=239).map(move |gy| (kind, gy))) {
        let mut random = Random::new(0x3002_0000 + 1_000 * u64::from(kind) + (gy + 16) as u64);
        let mut scene = side_by_side(&mut random, kind, gy);
        for strip in -1..=2 {
            let strip = gy.div_euclid(8) + strip;
            if (0..28).contains(&strip) {
                let draw = Draw::Strip { frame: random.below(2), strip: strip as u32 };
                scene.vram = expect_same_drawing(&scene, draw, &|| format!("kind {kind}, GY {gy}"));
            }
        }
    }
}

/// The extremes of GY with the extremes of H, and of a window with no column.
#[test]
fn extremes() {
    let mut random = Random::new(0x3003_0000);
    for kind in KINDS {
        for gy in [-32_768, -32_767, -255, -8, -7, -1, 0, 223, 224, 225, 32_767] {
            for h in [-32_768, -32_767, -2, -1, 0, 6, 7, 8, 254, 255, 32_766, 32_767] {
                for w in [-4_096, -1, 0, 40] {
                    let world = WorldHalves {
                        flags: 0xC000 | kind << 12 | random.half() & 0x0F8F,
                        gx: random.between(0, 300),
                        gp: 0,
                        gy,
                        w,
                        h,
                        ..random_world(&mut random, kind)
                    };
                    let mut scene = Scene::random(&mut random);
                    scene.put_world(31, &world);
                    let draw = Draw::Frame { frame: random.below(2) };
                    expect_same_drawing(&scene, draw, &|| format!("kind {kind}, {world:?}"));
                }
            }
        }
    }
}

/// A scene whose every cell is one opaque character, with one world.
fn opaque(kind: u16, gy: i32, h: i32) -> Scene {
    let mut scene = Scene::random(&mut Random::new(0x3004_0000));
    scene.vram[0x6000..0x6010].fill(0xFF);
    scene.vram[0x20000..0x3D800].fill(0);
    scene.drawing.gplt = [0xE4; 4];
    scene.drawing.bkcol = 0;
    let flags = 0xC000 | kind << 12;
    scene.put_world(31, &WorldHalves { flags, gy, h, w: 383, ..WorldHalves::default() });
    scene
}

/// The request's table. The rows that the library lights are counted by
/// themselves.
#[test]
fn worked_rows() {
    for (gy, h, rows, affine_rows) in worked::HEIGHTS {
        for (kind, rows) in [(NORMAL, rows), (H_BIAS, rows), (AFFINE, affine_rows)] {
            let mut scene = opaque(kind, gy, h);
            assert_eq!(
                draw_by_library(Draw::Frame { frame: 0 }, &mut scene.vram, &scene.drawing),
                0
            );
            for eye in Eye::BOTH {
                let lit: Vec<i32> =
                    (0..224).filter(|&y| pixel(&scene.vram, 0, eye, 5, y as u32) == 3).collect();
                let due: Vec<i32> = (gy..gy + rows).filter(|y| (0..224).contains(y)).collect();
                assert_eq!(lit, due, "kind {kind}, GY {gy}, H {h}, {eye:?}");
            }
        }
    }
}

/// The request in its own words: every row from GY to the end of its strip is
/// covered, and a row that H + 1 does not give only there.
#[test]
fn everything_to_the_end_of_the_strip() {
    for kind in [NORMAL, H_BIAS] {
        for gy in 0..224 {
            for h in [-32_768, -1, 0, 1, 6, 9] {
                let mut scene = opaque(kind, gy, h);
                let frame = Draw::Frame { frame: 1 };
                assert_eq!(draw_by_library(frame, &mut scene.vram, &scene.drawing), 0);
                for y in 0..224 {
                    let due = y >= gy && (y / 8 == gy / 8 || y <= gy + h);
                    let lit = pixel(&scene.vram, 1, Eye::Right, 300, y as u32) == 3;
                    assert_eq!(lit, due, "kind {kind}, GY {gy}, H {h}, row {y}");
                }
            }
        }
    }
}

/// GY in the 16 rows above the image and in the 16 below it: no strip holds it.
fn gy_outside() -> impl Iterator<Item = i32> {
    (-16..0).chain(224..240)
}

/// Where no strip holds GY, the library lights rows GY to GY + H of the image and
/// no other, whatever the kind. Names every GY and H that differ.
#[test]
fn where_no_strip_holds_gy_rows_end_at_gy_plus_h() {
    let mut wrong = Vec::new();
    for kind in KINDS {
        let mut scene = opaque(kind, 0, 0);
        for gy in gy_outside() {
            for (n, h) in (-3..=17).enumerate() {
                let (flags, gx) = (0xC000 | kind << 12, 16 * n as i32);
                let world = WorldHalves { flags, gx, gy, w: 15, h, ..WorldHalves::default() };
                scene.put_world(31 - n, &world);
            }
            let frame = Draw::Frame { frame: 1 };
            assert_eq!(draw_by_library(frame, &mut scene.vram, &scene.drawing), 0);
            for (n, h) in (-3..=17).enumerate() {
                let due = |y: i32| gy <= y && y <= gy + h;
                let lit = |eye, x, y: i32| pixel(&scene.vram, 1, eye, x, y as u32) == 3;
                let columns = 16 * n as u32..16 * (n as u32 + 1);
                let differs =
                    |eye| columns.clone().any(|x| (0..224).any(|y| lit(eye, x, y) != due(y)));
                if Eye::BOTH.into_iter().any(differs) {
                    wrong.push(format!("kind {kind}, GY {gy}, H {h}"));
                }
            }
        }
    }
    assert!(wrong.is_empty(), "{} of 2,016 worlds differ: {wrong:#?}", wrong.len());
}

/// Compares the library's list of a pixel's bytes with the model's. Gives the
/// list's length.
fn expect_same_list(scene: &Scene, pixel: (Eye, u32, u32), what: &dyn Fn() -> String) -> usize {
    let (eye, x, y) = pixel;
    let account = answers(&scene.vram, &scene.drawing, eye, x, y).unwrap();
    let due: Vec<u32> = account.listed().iter().map(|&address| address as u32).collect();
    let mut output = vec![0; due.len() + 16];
    let registers = to_library(&scene.drawing);
    let listed = pixel_bytes(&scene.vram, registers, eye.number(), x, y, &mut output);
    let expected = Listed { refusal: 0, count: due.len() as u64 };
    assert_eq!(listed, expected, "{eye:?} ({x}, {y}); {}", what());
    assert_eq!(output[..due.len()], due, "{eye:?} ({x}, {y}); {}", what());
    due.len()
}

/// Where no strip holds GY: the lists of pixels in the image's first and last
/// strip, both eyes, at the columns where windows start and end.
#[test]
fn where_no_strip_holds_gy_byte_lists_agree() {
    let (mut covered, mut uncovered) = (0, 0);
    for (kind, gy) in KINDS.into_iter().flat_map(|kind| gy_outside().map(move |gy| (kind, gy))) {
        let mut random = Random::new(0x3006_0000 + 1_000 * u64::from(kind) + (gy + 16) as u64);
        let scene = side_by_side(&mut random, kind, gy);
        let what = || format!("kind {kind}, GY {gy}");
        for eye in Eye::BOTH {
            for x in (0..384).filter(|x| [0, 1, 7, 14, 15].contains(&(x % 16))) {
                for y in (0..8).chain(216..224) {
                    let length = expect_same_list(&scene, (eye, x, y), &what);
                    *(if length == 0 { &mut uncovered } else { &mut covered }) += 1;
                }
            }
        }
    }
    assert!(covered > 10_000 && uncovered > 10_000, "{covered} covered, {uncovered} uncovered");
}

/// The 32 world and the 1,024 object records.
fn in_tables(address: usize) -> bool {
    (0x3D800..0x3DC00).contains(&address) || (0x3E000..0x40000).contains(&address)
}

/// Whether a background world covers the pixel with a row that H + 1 does not
/// give.
fn in_added_row(account: &Answers) -> bool {
    account.covering.iter().any(|covering| match covering.what {
        Covered::Background { offset: (_, j), stored_rows, .. } => j >= stored_rows,
        Covered::Object { .. } => false,
    })
}

/// A pixel that lies in an added row.
fn pixel_of_added_row(random: &mut Random, scene: &Scene, gy: i32) -> Answers {
    loop {
        let eye = random.pick(&Eye::BOTH);
        let (x, y) = (random.below(384), (gy + random.between(0, 7)).clamp(0, 223) as u32);
        let account = answers(&scene.vram, &scene.drawing, eye, x, y).unwrap();
        if in_added_row(&account) {
            return account;
        }
    }
}

/// Draws the pixel's strip with the library and reads the pixel back.
fn drawn(vram: &[u8], scene: &Scene, of: &Answers) -> u8 {
    let mut vram: Box<[u8]> = vram.into();
    let draw = Draw::Strip { frame: 0, strip: of.y / 8 };
    assert_eq!(draw_by_library(draw, &mut vram, &scene.drawing), 0);
    pixel(&vram, 0, of.eye, of.x, of.y)
}

/// Demand 3 in added rows: each listed byte is changed by itself, and some
/// change moves the pixel; every byte that is neither listed nor in a table is
/// changed at once, and none does.
#[test]
fn pixels_of_added_rows_answer_to_their_bytes() {
    let (mut moved, mut parameters) = (0, 0);
    for number in 0..PIXELS {
        let mut random = Random::new(0x3005_0000 + number);
        let kind = random.pick(&[NORMAL, H_BIAS]);
        let gy = random.between(0, 223);
        let scene = side_by_side(&mut random, kind, gy);
        let account = pixel_of_added_row(&mut random, &scene, gy);
        let before = drawn(&scene.vram, &scene, &account);
        assert_eq!(before, account.shade(), "{account:X?}, number {number}");
        let bytes = account.bytes();
        for &address in bytes.iter().filter(|&&address| !in_tables(address)) {
            let mut changed = scene.vram.clone();
            changed[address] ^= 1 + random.below(255) as u8;
            moved += u32::from(drawn(&changed, &scene, &account) != before);
        }
        parameters += u32::from(kind == H_BIAS);
        for _ in 0..4 {
            let mut other = scene.vram.clone();
            random.fill(&mut other[..0x3D800]);
            random.fill(&mut other[0x3DC00..0x3E000]);
            for &address in &bytes {
                other[address] = scene.vram[address];
            }
            let after = drawn(&other, &scene, &account);
            assert_eq!(after, before, "bytes outside the list matter; {account:X?}, {number}");
        }
    }
    assert!(moved > 300 && parameters > 100, "{moved} bytes move a pixel, {parameters} H-bias");
}
