//! The bytes a pixel answers to (01): every byte of VRAM that isn't listed and
//! lies in no table is changed at random, and the library draws the pixel as
//! before; by the frame call or the strip call on either side.

use difftests::random::Random;
use difftests::scene::{crowded, draw_by_library, put_objects, visible_world, Draw, Scene};
use model::answers::{answers, Answers, Covered};
use model::drawing::pixel;
use model::world::Eye;

/// Pixels looked at.
const PIXELS: u32 = 4_000;

/// The 32 world and the 1,024 object records.
fn in_tables(address: usize) -> bool {
    (0x3D800..0x3DC00).contains(&address) || (0x3E000..0x40000).contains(&address)
}

/// A pixel, likely one that something covers.
fn choose_pixel(random: &mut Random, scene: &Scene) -> Answers {
    let mut best: Option<Answers> = None;
    for _ in 0..=random.below(4) {
        let eye = random.pick(&Eye::BOTH);
        let (x, y) = (random.below(384), random.below(224));
        let found = answers(&scene.vram, &scene.drawing, eye, x, y).unwrap();
        let more = |best: &Answers| found.covering.len() > best.covering.len();
        if best.as_ref().is_none_or(more) {
            best = Some(found);
        }
    }
    best.unwrap()
}

/// The other memory: equal in the tables and at the listed bytes, random
/// everywhere else.
fn other_memory(random: &mut Random, scene: &Scene, bytes: &[usize]) -> Box<[u8]> {
    let mut other = scene.vram.clone();
    random.fill(&mut other[..0x3D800]);
    random.fill(&mut other[0x3DC00..0x3E000]);
    for &address in bytes {
        other[address] = scene.vram[address];
    }
    other
}

/// The frame call or the strip call, whichever; both draw row `y`.
fn some_call(random: &mut Random, frame: u32, y: u32) -> Draw {
    if random.one_in(8) {
        Draw::Frame { frame }
    } else {
        Draw::Strip { frame, strip: y / 8 }
    }
}

/// Draws with the library and reads the pixel back.
fn drawn(draw: Draw, vram: &[u8], scene: &Scene, of: &Answers, frame: u32) -> u8 {
    let mut vram: Box<[u8]> = vram.into();
    assert_eq!(draw_by_library(draw, &mut vram, &scene.drawing), 0);
    pixel(&vram, frame, of.eye, of.x, of.y)
}

/// What the pixels met, so that a test that no longer tries something says so.
#[derive(Debug, Default)]
struct Tally {
    backgrounds: usize,
    objects: usize,
    overplanes: usize,
    again: usize,
    parameters: usize,
    uncovered: usize,
    moved: usize,
}

impl Tally {
    fn add(&mut self, account: &Answers) {
        self.uncovered += usize::from(account.covering.is_empty());
        self.objects += account.covering_objects();
        self.backgrounds += account.covering_worlds();
        for covering in &account.covering {
            match &covering.what {
                Covered::Background { overplane, parameters, .. } => {
                    self.overplanes += usize::from(*overplane);
                    self.parameters += parameters.len();
                }
                Covered::Object { again, .. } => self.again += usize::from(*again),
            }
        }
    }

    fn expect_all_reached(&self) {
        let least = [
            self.backgrounds,
            self.objects,
            self.overplanes,
            self.again,
            self.parameters,
            self.uncovered,
            self.moved,
        ]
        .into_iter()
        .min();
        assert!(least > Some(100), "the pixels no longer meet everything: {self:?}");
    }
}

/// A scene with backgrounds and many object worlds.
fn scene_of(random: &mut Random) -> Scene {
    let mut scene = crowded(random, 24);
    if random.one_in(2) {
        put_objects(random, &mut scene);
        for _ in 0..6 {
            let kind = random.pick(&[0u16, 1, 2, 3, 3, 3]);
            let world = visible_world(random, kind);
            scene.put_world(random.below(32) as usize, &world);
        }
    }
    scene
}

#[test]
fn a_pixel_answers_to_its_listed_bytes_alone() {
    let mut tally = Tally::default();
    for number in 0..PIXELS {
        let seed = 0xA5_0000 + u64::from(number);
        let mut random = Random::new(seed);
        let scene = scene_of(&mut random);
        let account = choose_pixel(&mut random, &scene);
        tally.add(&account);
        let bytes = account.bytes();
        let bound = 14 * account.covering_worlds() + 2 * account.covering_objects();
        assert!(bytes.len() <= bound, "{} bytes listed, at most {bound} are due", bytes.len());

        let frame = random.below(2);
        let what = format!("seed 0x{seed:X}, frame {frame}, {account:X?}");
        let first = some_call(&mut random, frame, account.y);
        let before = drawn(first, &scene.vram, &scene, &account, frame);
        assert_eq!(before, account.shade(), "the account's shade; {what}");

        let other = other_memory(&mut random, &scene, &bytes);
        let second = some_call(&mut random, frame, account.y);
        let after = drawn(second, &other, &scene, &account, frame);
        assert_eq!(after, before, "bytes outside the list matter; {what}");

        tally.moved += usize::from(moves_with(&mut random, &scene, &account, &bytes, frame));
    }
    tally.expect_all_reached();
}

/// Whether the pixel changes when listed bytes are changed instead: over many
/// pixels some must, or the list would hold nothing that counts.
fn moves_with(
    random: &mut Random,
    scene: &Scene,
    account: &Answers,
    bytes: &[usize],
    frame: u32,
) -> bool {
    let mut changed = scene.vram.clone();
    for &address in bytes.iter().filter(|address| !in_tables(**address)) {
        changed[address] = random.half() as u8;
    }
    let draw = Draw::Strip { frame, strip: account.y / 8 };
    drawn(draw, &changed, scene, account, frame) != account.shade()
}

/// The account of every pixel of a few strips gives the shade that is drawn.
#[test]
fn accounts_give_what_is_drawn() {
    for number in 0..24 {
        let seed = 0xA6_0000 + number;
        let mut random = Random::new(seed);
        let scene = scene_of(&mut random);
        let (frame, strip) = (random.below(2), random.below(28));
        let mut vram = scene.vram.clone();
        let draw = Draw::Strip { frame, strip };
        assert_eq!(draw_by_library(draw, &mut vram, &scene.drawing), 0);
        for eye in Eye::BOTH {
            for y in 8 * strip..8 * strip + 8 {
                for x in 0..384 {
                    let account = answers(&scene.vram, &scene.drawing, eye, x, y).unwrap();
                    let shade = pixel(&vram, frame, eye, x, y);
                    assert_eq!(account.shade(), shade, "{account:X?}, seed 0x{seed:X}");
                }
            }
        }
    }
}
