mod agree;

use std::collections::BTreeMap;

use difftests::random::Random;
use difftests::scene::{self, crowded};
use vb::Drawing;

use super::{draw, list, Effect, Fault, Scene};

fn registers(scene: &scene::Scene) -> Drawing {
    let model::DrawingRegisters { spt, gplt, jplt, bkcol } = scene.drawing;
    Drawing { spt, gplt, jplt, bkcol }
}

#[test]
fn nothing_injected_is_the_plain_drawing() {
    let nothing = Fault::picture("vip.nothing".into(), "none", "Nothing.".into(), Effect::Nothing);
    for seed in 0..40 {
        let scene = crowded(&mut Random::new(seed), 24);
        let (drawing, frame) = (registers(&scene), seed as u32 % 2);
        let mut plain = scene.vram.to_vec();
        drawing.draw_frame(&mut plain, frame).expect("a random scene is accepted");
        let composed = Scene::new(&scene.vram, &drawing, frame);
        assert!(composed.composes(), "worlds drawn one by one, seed {seed}");
        let mut injected = scene.vram.to_vec();
        draw(&nothing, &mut injected, &drawing, frame);
        assert!(injected == plain, "seed {seed}");
    }
}

#[test]
fn a_fault_changes_nothing_but_the_frame_buffers() {
    let scene = crowded(&mut Random::new(5), 24);
    let drawing = registers(&scene);
    let composed = Scene::new(&scene.vram, &drawing, 0);
    for fault in list().iter().step_by(7) {
        let crate::faults::Effect::Picture(effect) = &fault.effect else { continue };
        let Some(after) = composed.after(effect) else { continue };
        for (at, (after, before)) in after.iter().zip(scene.vram.iter()).enumerate() {
            let in_frame_buffer = at < 0x20000 && at % 0x8000 < 0x6000;
            assert!(in_frame_buffer || after == before, "{}: 0x{at:05X}", fault.name);
        }
    }
}

#[test]
fn the_list_has_every_class_whole() {
    let mut counts = BTreeMap::new();
    let list = list();
    for fault in &list {
        *counts.entry(fault.class).or_insert(0) += 1;
    }
    let at_least = [
        ("vip world field bit", 304),
        ("vip object field bit", 90),
        ("vip cell field bit", 30),
        ("vip parameter bit", 186),
        ("vip palette/BKCOL bit", 100),
        ("vip SPT bit", 80),
        ("vip character address/data", 66),
        ("vip map/cell address", 32),
        ("vip window edge", 30),
        ("vip order/groups", 12),
        ("vip parallax", 12),
        ("vip affine rounding", 2),
        ("vip pixel column/row line", 2_432),
        ("vip frame buffer data/address", 92),
        ("vip other", 12),
    ];
    for (class, least) in at_least {
        assert!(counts[class] >= least, "{class}: {}", counts[class]);
    }
    let equivalent = list.iter().filter(|fault| fault.equivalent.is_some());
    assert_eq!(
        equivalent.map(|fault| fault.name.as_str()).collect::<Vec<_>>(),
        ["vip.image.last-byte-lost"]
    );
}
