//! Strips in any order (W14): lists of strip calls that name each strip leave
//! what the frame call leaves, refused calls counting as absent; and drawings of
//! frames 0 and 1 may be swapped.

use difftests::machine::expect_same_bytes;
use difftests::random::Random;
use difftests::scene::{crowded, draw_by_library, draw_by_model, random_groups, Draw, Scene};

/// Strip numbers that no frame has.
const REFUSED: [u32; 5] = [28, 31, 255, 256, 0xFFFF_FFFF];

/// A scene over random images; every strip of it is drawn over something else.
fn scene_of(random: &mut Random) -> Scene {
    let most = random.pick(&[2, 12, 30]);
    crowded(random, most)
}

/// 0 to 27 in a random order.
fn permutation(random: &mut Random) -> Vec<u32> {
    let mut strips: Vec<u32> = (0..28).collect();
    for last in (1..28).rev() {
        strips.swap(last, random.below(last as u32 + 1) as usize);
    }
    strips
}

/// A list that names each strip: a permutation, with repeats and refused numbers
/// strewn in.
fn list(random: &mut Random) -> Vec<u32> {
    let mut strips = permutation(random);
    let more = random.pick(&[0, 1, 10, 60]);
    for _ in 0..more {
        let refused = random.pick(&REFUSED);
        let strip = if random.one_in(3) { refused } else { random.below(28) };
        strips.insert(random.below(strips.len() as u32 + 1) as usize, strip);
    }
    strips
}

/// The library's VRAM after these calls; each answers the number due.
fn drawn(scene: &Scene, calls: &[Draw]) -> Box<[u8]> {
    let mut vram = scene.vram.clone();
    for &call in calls {
        let refused = matches!(call, Draw::Strip { strip, .. } if strip > 27);
        let number = draw_by_library(call, &mut vram, &scene.drawing);
        assert_eq!(number, if refused { 8 } else { 0 }, "{call:?}");
    }
    vram
}

fn strips(frame: u32, list: &[u32]) -> Vec<Draw> {
    list.iter().map(|&strip| Draw::Strip { frame, strip }).collect()
}

/// The frame as the model draws it.
fn frame_by_model(scene: &Scene, frame: u32) -> Box<[u8]> {
    let mut vram = scene.vram.clone();
    assert_eq!(draw_by_model(Draw::Frame { frame }, &mut vram, &scene.drawing), 0);
    vram
}

/// Any list that names each strip leaves the frame, the whole of VRAM compared.
#[test]
fn any_list_leaves_the_frame() {
    let mut refused = 0;
    for number in 0..80 {
        let seed = 0xE001_0000 + number;
        let mut random = Random::new(seed);
        let scene = scene_of(&mut random);
        let frame = random.below(2);
        let list = list(&mut random);
        refused += list.iter().filter(|&&strip| strip > 27).count();
        let what = || format!("frame {frame}, strips {list:?}, seed {seed:X}");
        let by_frame = drawn(&scene, &[Draw::Frame { frame }]);
        let by_strips = drawn(&scene, &strips(frame, &list));
        expect_same_bytes(
            "VRAM by the frame call",
            &by_frame,
            &frame_by_model(&scene, frame),
            &what,
        );
        expect_same_bytes("VRAM by strips", &by_strips, &by_frame, &what);
    }
    assert!(refused > 150, "only {refused} refused calls");
}

/// Forwards, backwards, every second one first, and all of it twice.
#[test]
fn some_orders() {
    let mut random = Random::new(0xE002_0000);
    for _ in 0..8 {
        let scene = scene_of(&mut random);
        for frame in 0..2 {
            let whole = frame_by_model(&scene, frame);
            let forwards: Vec<u32> = (0..28).collect();
            let backwards: Vec<u32> = (0..28).rev().collect();
            let seconds: Vec<u32> = (0..28).step_by(2).chain((1..28).step_by(2)).collect();
            let twice = [forwards.clone(), backwards.clone()].concat();
            for list in [forwards, backwards, seconds, twice] {
                let by_strips = drawn(&scene, &strips(frame, &list));
                expect_same_bytes("VRAM", &by_strips, &whole, &|| format!("{list:?}"));
            }
        }
    }
}

/// A list that leaves one strip out leaves that strip's image as it was, and
/// nothing else differs from the frame.
#[test]
fn a_strip_left_out() {
    for number in 0..56 {
        let mut random = Random::new(0xE003_0000 + number);
        let scene = scene_of(&mut random);
        let (frame, left_out) = (random.below(2), number as u32 % 28);
        let list: Vec<u32> =
            list(&mut random).into_iter().filter(|&strip| strip != left_out).collect();
        let by_strips = drawn(&scene, &strips(frame, &list));
        let whole = frame_by_model(&scene, frame);
        let mut expected = whole.clone();
        for eye in 0..2 {
            for column in 0..384 {
                let at = 0x8000 * frame as usize + 0x10000 * eye + 64 * column;
                let half = at + 2 * left_out as usize..at + 2 * left_out as usize + 2;
                expected[half.clone()].copy_from_slice(&scene.vram[half]);
            }
        }
        let what = || format!("frame {frame} without strip {left_out}");
        expect_same_bytes("VRAM", &by_strips, &expected, &what);
        // random images: the strip that was left out shows
        assert!(by_strips != whole, "{}", what());
    }
}

/// Frames 0 and 1 in both orders, whole, by strips and by strips of both mixed.
#[test]
fn frames_may_be_swapped() {
    for number in 0..30 {
        let seed = 0xE004_0000 + number;
        let mut random = Random::new(seed);
        let scene = scene_of(&mut random);
        let what = || format!("seed {seed:X}");
        let [first, second] = [0, 1].map(|frame| Draw::Frame { frame });
        let one = drawn(&scene, &[first, second]);
        let other = drawn(&scene, &[second, first]);
        expect_same_bytes("VRAM, frames swapped", &one, &other, &what);

        let [left, right] = [0, 1].map(|frame| strips(frame, &list(&mut random)));
        let mut mixed = Vec::new();
        let (mut left, mut right) = (left.into_iter(), right.into_iter());
        loop {
            let next = if random.one_in(2) {
                left.next().or_else(|| right.next())
            } else {
                right.next().or_else(|| left.next())
            };
            match next {
                Some(call) => mixed.push(call),
                None => break,
            }
        }
        expect_same_bytes("VRAM, strips mixed", &drawn(&scene, &mixed), &one, &what);
    }
}

/// Two single calls of different frames, each the frame call or a strip call,
/// refused ones too, with separate registers for each.
#[test]
fn two_calls_may_be_swapped() {
    for number in 0..150 {
        let seed = 0xE005_0000 + number;
        let mut random = Random::new(seed);
        let scene = scene_of(&mut random);
        let mut call = |frame: u32| {
            let strip = if random.one_in(8) { 28 } else { random.below(28) };
            let draw =
                if random.one_in(3) { Draw::Frame { frame } } else { Draw::Strip { frame, strip } };
            let mut drawing = scene.drawing;
            drawing.spt = random_groups(&mut random);
            drawing.bkcol = random.below(4) as u16;
            (draw, drawing)
        };
        let calls = [call(0), call(1)];
        let after = |order: [usize; 2]| {
            let mut vram = scene.vram.clone();
            for (draw, drawing) in order.map(|n| calls[n]) {
                draw_by_library(draw, &mut vram, &drawing);
            }
            vram
        };
        let what = || format!("{calls:?}, seed {seed:X}");
        expect_same_bytes("VRAM, calls swapped", &after([0, 1]), &after([1, 0]), &what);
    }
}

/// Refused alike: with VRAM of another length, a register too wide or a frame
/// above 1, every call of a list is refused and nothing changes.
#[test]
fn refused_lists() {
    let mut random = Random::new(0xE006_0000);
    let scene = scene_of(&mut random);
    let mut wide = scene.drawing;
    wide.bkcol = 4;
    for (length, drawing, frame, number) in [
        (262_143, scene.drawing, 0, 3),
        (0, scene.drawing, 0, 3),
        (262_144, wide, 1, 5),
        (262_144, scene.drawing, 2, 7),
        (262_144, scene.drawing, 0xFFFF_FFFF, 7),
    ] {
        let before: Box<[u8]> = scene.vram[..length].into();
        let mut vram = before.clone();
        for strip in list(&mut random) {
            let call = Draw::Strip { frame, strip };
            assert_eq!(draw_by_library(call, &mut vram, &drawing), number, "{call:?}");
        }
        assert_eq!(draw_by_library(Draw::Frame { frame }, &mut vram, &drawing), number);
        assert!(vram == before, "VRAM {length}, frame {frame}");
    }
}
