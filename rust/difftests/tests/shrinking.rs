//! Programs and scenes whose failures shrink: where the library and the model
//! differ, the fewest instructions, worlds and objects that show it are printed.

use difftests::machine::{random_drawing, Buffers};
use difftests::program::{aim_pointers, instruction, put_handlers, random_processor};
use difftests::random::Random;
use difftests::scene::{expect_same_drawing, Draw, Scene, WorldHalves};
use difftests::twin::Twin;
use proptest::collection::vec;
use proptest::prelude::*;
use proptest::test_runner::{Config, TestError, TestRunner};

/// Where programs lie.
const CODE: u32 = 0x0500_0100;

fn config(cases: u32) -> Config {
    Config { cases, failure_persistence: None, ..Config::default() }
}

/// One instruction of one or two halfwords. Another instruction is not simpler,
/// fewer of them are.
fn one_instruction() -> impl Strategy<Value = Vec<u16>> {
    any::<u64>().prop_map(|seed| instruction(&mut Random::new(seed))).no_shrink()
}

/// A machine of random contents with this program at its start.
fn twin_with(seed: u64, program: &[Vec<u16>]) -> Twin {
    let mut random = Random::new(seed);
    let buffers = Buffers::random(&mut random, 1_024, 64);
    let drawing = random_drawing(&mut random);
    let mut twin = Twin::new(buffers, random_processor(&mut random), drawing);
    put_handlers(&mut random, &mut twin);
    twin.put_code(CODE, &program.concat());
    twin.processor.pc = CODE;
    twin.processor.psw &= !0xC000;
    aim_pointers(&mut random, &mut twin.processor, CODE);
    twin
}

/// A world's fields; a simpler one is nearer to 0.
fn world() -> impl Strategy<Value = (usize, WorldHalves)> {
    let flags = (0u16..4, 0u16..4, 0u16..16, any::<bool>(), 0u16..16);
    let flags = flags.prop_map(|(shown, kind, sizes, over, base)| {
        shown << 14 | kind << 12 | sizes << 8 | u16::from(over) << 7 | base
    });
    let fields = (
        flags,
        -512i32..512,
        -40i32..40,
        -60i32..240,
        -4_096i32..4_096,
        -40i32..40,
        -4_096i32..4_096,
        0i32..400,
        -2i32..240,
        0i32..65_536,
        0i32..65_536,
    );
    let halves =
        fields.prop_map(|(flags, gx, gp, gy, mx, mp, my, w, h, parameter_base, overplane)| {
            WorldHalves { flags, gx, gp, gy, mx, mp, my, w, h, parameter_base, overplane }
        });
    (0usize..32, halves)
}

/// An object: number, JX, JP, JY, and the eyes it is shown to.
fn object() -> impl Strategy<Value = (usize, i32, i32, i32, u16)> {
    (0usize..1_024, -512i32..512, -40i32..40, 0i32..256, 0u16..4)
}

/// Random memory with these worlds and objects; the others are hidden.
fn scene_with(
    seed: u64,
    worlds: &[(usize, WorldHalves)],
    objects: &[(usize, i32, i32, i32, u16)],
) -> Scene {
    let mut scene = Scene::random(&mut Random::new(seed));
    (0..1_024).for_each(|number| scene.put_object(number, 0, 0, 0, 0));
    for &(number, jx, jp, jy, shown) in objects {
        scene.put_object(number, jx, jp, jy, shown);
    }
    for (number, halves) in worlds {
        scene.put_world(*number, halves);
    }
    scene.drawing.spt = [0x0FF, 0x1FF, 0x2FF, 0x3FF];
    scene
}

proptest! {
    #![proptest_config(config(400))]

    #[test]
    fn programs_agree_or_shrink(
        seed in any::<u64>(),
        program in vec(one_instruction(), 1..40),
    ) {
        let mut twin = twin_with(seed, &program);
        twin.run(60, &|| String::new());
        twin.expect_equal(&|| String::new());
    }
}

proptest! {
    #![proptest_config(config(150))]

    #[test]
    fn scenes_agree_or_shrink(
        seed in any::<u64>(),
        worlds in vec(world(), 0..8),
        objects in vec(object(), 0..30),
        frame in 0u32..2,
    ) {
        let scene = scene_with(seed, &worlds, &objects);
        expect_same_drawing(&scene, Draw::Frame { frame }, &|| String::new());
    }
}

/// A mistake that only MUL shows is found by a program of one instruction.
#[test]
fn a_failing_program_shrinks_to_the_instruction_that_fails() {
    let mut runner = TestRunner::new(config(2_000));
    let programs = vec(one_instruction(), 1..40);
    let found = runner.run(&programs, |program| {
        let wrong = program.iter().any(|halves| halves[0] >> 10 == 0b001000);
        prop_assert!(!wrong);
        Ok(())
    });
    let Err(TestError::Fail(_, program)) = found else { panic!("no program had a MUL") };
    assert_eq!(program.len(), 1, "{program:04X?}");
    assert_eq!(program[0][0] >> 10, 0b001000);
}

/// A mistake in wide affine worlds is found by one world with the least width.
#[test]
fn a_failing_scene_shrinks_to_the_world_that_fails() {
    let mut runner = TestRunner::new(config(2_000));
    let found = runner.run(&vec(world(), 0..8), |worlds| {
        let wrong = worlds.iter().any(|(_, one)| one.flags >> 12 & 3 == 2 && one.w > 100);
        prop_assert!(!wrong);
        Ok(())
    });
    let Err(TestError::Fail(_, worlds)) = found else { panic!("no world was wide and affine") };
    assert_eq!(worlds.len(), 1, "{worlds:?}");
    let (_, one) = worlds[0];
    assert_eq!((one.flags, one.w, one.gx, one.h), (2 << 12, 101, 0, 0));
}
