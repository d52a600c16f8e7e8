//! The call that lists the bytes a pixel answers to: its count and its output buffer
//! against the independent model's list, with output buffers of every kind of length,
//! and every refusal on both sides of its limit.

use difftests::machine::{drawings_about_limits, to_library, VRAM_LENGTHS};
use difftests::random::Random;
use difftests::scene::{crowded, put_objects, visible_world, Scene};
use model::answers::{answers, Answers, Covered};
use model::boundary;
use model::world::Eye;
use model::DrawingRegisters;
use vbsys::{pixel_bytes, Listed, MISUSE};

/// What a word of the output buffer holds before the call.
const KEPT: u32 = 0xA5C3_0FF0;

/// Scenes, and pixels of each.
const SCENES: u64 = 600;
const PIXELS: u32 = 40;

/// The output buffer's words after a call.
fn output_after(list: &[u32], length: usize) -> Vec<u32> {
    (0..length).map(|word| list.get(word).copied().unwrap_or(KEPT)).collect()
}

/// Makes the call with an output buffer of a length; VRAM is passed unchanged.
fn call(
    vram: &[u8],
    drawing: &DrawingRegisters,
    pixel: (u32, u32, u32),
    length: usize,
) -> (Listed, Vec<u32>) {
    let mut output = vec![KEPT; length];
    let (eye, x, y) = pixel;
    let listed = pixel_bytes(vram, to_library(drawing), eye, x, y, &mut output);
    (listed, output)
}

/// The count, and the output buffer's first words: output buffers of length 0, too short, exact
/// and too long.
fn expect_list(scene: &Scene, account: &Answers, what: &str) {
    let list: Vec<u32> = account.listed().iter().map(|&address| address as u32).collect();
    let pixel = (account.eye.number(), account.x, account.y);
    let count = list.len();
    let lengths = [0, 1, count / 2, count.saturating_sub(1), count, count + 1, count + 37, 2_600];
    for length in lengths {
        let (listed, output) = call(&scene.vram, &scene.drawing, pixel, length);
        assert_eq!(listed, Listed { refusal: 0, count: count as u64 }, "output {length}; {what}");
        assert_eq!(output, output_after(&list, length), "output {length}; {what}");
    }
}

/// What the pixels met, so that a test that no longer tries something says so.
#[derive(Debug, Default)]
struct Tally {
    normal: usize,
    bias: usize,
    affine: usize,
    overplanes: usize,
    objects: usize,
    again: usize,
    uncovered: usize,
}

impl Tally {
    fn add(&mut self, account: &Answers) {
        self.uncovered += usize::from(account.covering.is_empty());
        for covering in &account.covering {
            match &covering.what {
                Covered::Background { overplane, parameters, .. } => {
                    self.overplanes += usize::from(*overplane);
                    match parameters.len() {
                        0 => self.normal += 1,
                        1 => self.bias += 1,
                        _ => self.affine += 1,
                    }
                }
                Covered::Object { again: true, .. } => self.again += 1,
                Covered::Object { again: false, .. } => self.objects += 1,
            }
        }
    }

    fn expect_all_reached(&self) {
        let Tally { normal, bias, affine, overplanes, objects, again, uncovered } = *self;
        let least = [normal, bias, affine, overplanes, objects, again, uncovered].into_iter().min();
        assert!(least > Some(100), "the pixels no longer meet everything: {self:?}");
    }
}

#[test]
fn lists_of_random_scenes() {
    let mut tally = Tally::default();
    for number in 0..SCENES {
        let seed = 0xB7_0000 + number;
        let mut random = Random::new(seed);
        let mut scene = crowded(&mut random, 24);
        if random.one_in(2) {
            put_objects(&mut random, &mut scene);
            for _ in 0..6 {
                let kind = random.pick(&[0u16, 1, 2, 3, 3, 3]);
                let world = visible_world(&mut random, kind);
                scene.put_world(random.below(32) as usize, &world);
            }
        }
        for _ in 0..PIXELS {
            let eye = random.pick(&Eye::BOTH);
            let (x, y) = (random.below(384), random.below(224));
            let account = answers(&scene.vram, &scene.drawing, eye, x, y).unwrap();
            tally.add(&account);
            expect_list(&scene, &account, &format!("seed 0x{seed:X}, {eye:?} ({x}, {y})"));
        }
    }
    tally.expect_all_reached();
}

/// All 1,024 objects at one place, drawn by as many object worlds as there are
/// groups and more, and an affine world in every other: the longest lists.
#[test]
fn the_longest_lists() {
    for worlds in [0usize, 1, 2, 3, 4, 5, 8, 31, 32] {
        let mut random = Random::new(0xB8_0000 + worlds as u64);
        let mut scene = Scene::random(&mut random);
        scene.drawing.spt = [255, 511, 767, 1_023];
        for object in 0..1_024 {
            scene.put_object(object, 100, 0, 50, 3);
        }
        for world in 0..32 {
            let kind = if world < 32 - worlds { 2 } else { 3 };
            let mut halves = visible_world(&mut random, kind);
            halves.flags |= 0xC000;
            (halves.gx, halves.gp, halves.gy, halves.w, halves.h) = (0, 0, 0, 383, 223);
            scene.put_world(world, &halves);
        }
        for (eye, x, y) in [(Eye::Left, 100, 50), (Eye::Right, 107, 57), (Eye::Left, 108, 57)] {
            let account = answers(&scene.vram, &scene.drawing, eye, x, y).unwrap();
            let objects = if x < 108 { 256 * worlds.min(4) } else { 0 };
            assert_eq!(account.listed().len(), 14 * (32 - worlds) + 2 * objects);
            expect_list(&scene, &account, &format!("{worlds} object worlds, {eye:?} ({x}, {y})"));
        }
    }
}

/// Every corner of both images is a pixel; one beyond is not.
#[test]
fn both_sides_of_the_images() {
    let scene = crowded(&mut Random::new(0xB9_0000), 24);
    let far = [0xFFFF_FFFF, 0x8000_0000, 65_536];
    for eye in [0, 1, 2, 3].into_iter().chain(far) {
        for x in [0, 383, 384, 385].into_iter().chain(far) {
            for y in [0, 223, 224, 255, 256].into_iter().chain(far) {
                let (listed, output) = call(&scene.vram, &scene.drawing, (eye, x, y), 40);
                if eye < 2 && x < 384 && y < 224 {
                    let of = Eye::BOTH[eye as usize];
                    let account = answers(&scene.vram, &scene.drawing, of, x, y).unwrap();
                    expect_list(&scene, &account, &format!("{of:?} ({x}, {y})"));
                } else {
                    assert_eq!(listed, Listed { refusal: MISUSE, count: 0 }, "({eye}, {x}, {y})");
                    assert_eq!(output, [KEPT; 40], "a refusal stores: ({eye}, {x}, {y})");
                    let model =
                        boundary::pixel_bytes(&scene.vram, &scene.drawing, [eye, x, y], &mut []);
                    assert_eq!(model, Err(MISUSE), "({eye}, {x}, {y})");
                }
            }
        }
    }
}

const ACCEPTED: DrawingRegisters =
    DrawingRegisters { spt: [0x3FF; 4], gplt: [0xFF; 4], jplt: [0xFF; 4], bkcol: 3 };

/// The call's number with a VRAM of a length, and that nothing changes where it
/// is refused.
fn expect_number(length: usize, drawing: &DrawingRegisters, pixel: (u32, u32, u32), expected: u32) {
    let mut vram = vec![0; length];
    Random::new(0xBA_0000).fill(&mut vram);
    let before = vram.clone();
    let (listed, output) = call(&vram, drawing, pixel, 100);
    let what = format!("VRAM {length}, {drawing:X?}, {pixel:?}");
    assert_eq!(listed.refusal, expected, "{what}");
    assert!(vram == before, "VRAM changes: {what}");
    if expected != 0 {
        assert_eq!((listed.count, output), (0, vec![KEPT; 100]), "{what}");
    }
    if expected == 3 || expected == 5 {
        let of = Eye::BOTH[pixel.0 as usize % 2];
        let model = answers(&vram, drawing, of, pixel.1 % 384, pixel.2 % 224).unwrap_err();
        assert_eq!(model.number(), expected, "the model: {what}");
    }
}

#[test]
fn vram_lengths() {
    for (length, expected) in VRAM_LENGTHS {
        expect_number(length, &ACCEPTED, (0, 0, 0), expected);
        expect_number(length, &ACCEPTED, (1, 383, 223), expected);
    }
}

#[test]
fn register_widths() {
    for (drawing, expected) in drawings_about_limits(&ACCEPTED) {
        expect_number(262_144, &drawing, (1, 7, 9), expected);
    }
}

/// Every set of broken conditions: 3 before 5 before VB_MISUSE.
#[test]
fn the_order_of_the_refusals() {
    for set in 0..32u32 {
        let broken = |bit: u32| set >> bit & 1 == 1;
        let length = if broken(0) { 262_143 } else { 262_144 };
        let mut drawing = ACCEPTED;
        if broken(1) {
            drawing.spt[2] = 0x400;
        }
        let at = |bit, last, one_more| if broken(bit) { one_more } else { last };
        let pixel = (at(2, 1, 2), at(3, 383, 384), at(4, 223, 224));
        let expected = match (broken(0), broken(1), set >> 2) {
            (true, _, _) => 3,
            (_, true, _) => 5,
            (_, _, 0) => 0,
            _ => MISUSE,
        };
        expect_number(length, &drawing, pixel, expected);
    }
}
