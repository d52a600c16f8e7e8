//! Salvage of a saved state (W13): the fixed cases, and each condition of a body.

use model::processor::reset;
use model::salvage::{salvage_state, Salvaged};
use model::saved::{write_state_2, Form};
use model::{DrawingRegisters, Hardware, Processor, ReadMemories, Refusal};

fn written(processor: &Processor, wram: u8, pak: &[u8]) -> Vec<u8> {
    let (wram, vram) = (vec![wram; 65_536], vec![0; 262_144]);
    let memories = ReadMemories { rom: &[0; 1_024], wram: &wram, vram: &vram, pak };
    let mut output = vec![0xEE; model::saved::file_length(Form::Two, pak.len())];
    write_state_2(&memories, processor, &DrawingRegisters::default(), &mut output).unwrap();
    output
}

fn salvaged(file: &[u8]) -> (Vec<u16>, bool, Vec<u8>) {
    let mut output = vec![0xEE; file.len()];
    let Salvaged { replaced, contents_differ } = salvage_state(file, &mut output).unwrap();
    let mut again = vec![0xEE; file.len()];
    assert_eq!(salvage_state(&output, &mut again), Ok(Salvaged::default()));
    assert!(again == output, "salvaging the output changes nothing");
    (replaced, contents_differ, output)
}

/// Puts the right sum of a body into the file.
fn sum_again(file: &mut [u8], sum_place: usize, body: std::ops::Range<usize>) {
    let sum: u32 = file[body].iter().map(|&byte| u32::from(byte)).sum();
    file[sum_place..sum_place + 4].copy_from_slice(&sum.to_le_bytes());
}

#[test]
fn fixed_cases() {
    let file = written(&reset().0, 0, &[]);
    assert_eq!(salvaged(&file), (vec![], false, file.clone()));
    for (at, replaced, differs) in [(8, vec![], true), (44, vec![3], false), (204, vec![1], false)]
    {
        let mut changed = file.clone();
        changed[at] ^= 0x5A;
        assert_eq!(salvaged(&changed), (replaced, differs, file.clone()), "byte {at}");
    }
}

#[test]
fn what_is_lost_and_kept() {
    let (mut processor, _) = reset();
    processor.pc = 0x0700_0000;
    processor.hardware = Hardware { lines: 3, count: 4, reload: 5, control: 1 };
    let file = written(&processor, 7, &[9; 4]);
    // one byte of WRAM: WRAM alone is lost, and becomes zeros
    let mut changed = file.clone();
    changed[300] ^= 1;
    let (replaced, differs, output) = salvaged(&changed);
    assert_eq!((replaced, differs), (vec![3], false));
    assert!(output[288..65_824].iter().all(|&byte| byte == 0));
    assert_eq!(output[44..48], [0; 4]);
    assert!(output[65_824..] == file[65_824..] && output[90..288] == file[90..288]);
    // kinds 1 and 6, and the count of the contents
    let mut changed = file.clone();
    changed[91] ^= 1;
    changed[327_972] ^= 1;
    changed[4] = 5;
    let (replaced, differs, output) = salvaged(&changed);
    assert_eq!((replaced, differs), (vec![1, 6], true));
    assert_eq!(output[90 + 4 * 32..90 + 4 * 33], 0xFFFF_FFF0u32.to_le_bytes());
    assert_eq!(output[90 + 4 * 37..90 + 4 * 39], [0xF0, 0xFF, 0, 0, 0, 0x80, 0, 0]);
    assert_eq!(output[327_972..], [0; 8]);
    assert_eq!(output[4], 6);
}

/// A body whose sum matches and which no accepted state has is replaced.
#[test]
fn sums_are_not_enough() {
    let file = written(&reset().0, 0, &[]);
    let (first, second, sixth) = (76..248, 248..274, 327_954..327_962);
    for (sum_place, body, at, value, kind) in [
        (16, first.clone(), 76, 1, 1),
        (16, first.clone(), 76 + 4 * 32, 1, 1),
        (16, first.clone(), 76 + 4 * 42, 3, 1),
        (16, first.clone(), 76 + 4 * 41 + 3, 0x81, 1),
        (30, second.clone(), 249, 4, 2),
        (30, second.clone(), 248 + 24, 4, 2),
        (72, sixth.clone(), 327_954, 0x20, 6),
        (72, sixth.clone(), 327_960, 0x04, 6),
    ] {
        let mut changed = file.clone();
        changed[at] = value;
        sum_again(&mut changed, sum_place, body);
        assert_eq!(salvaged(&changed), (vec![kind], false, file.clone()), "byte {at}");
    }
    for (sum_place, body, at, value) in [
        (16, first, 76 + 4 * 42, 2),
        (30, second, 249, 3),
        (72, sixth.clone(), 327_954, 0x1F),
        (72, sixth, 327_960, 0x1B),
    ] {
        let mut changed = file.clone();
        changed[at] = value;
        sum_again(&mut changed, sum_place, body);
        assert_eq!(salvaged(&changed), (vec![], false, changed.clone()), "byte {at}");
    }
}

/// 9 where the lengths differ, legal or not; then 17.
#[test]
fn lengths() {
    let salvage = |file: usize, output: usize| {
        let answer = salvage_state(&vec![0; file], &mut vec![0; output]);
        answer.map(|_| ()).map_err(Refusal::number)
    };
    for (file, output, expected) in [
        (327_962, 327_962, Ok(())),
        (327_977, 327_977, Ok(())),
        (327_962, 327_961, Err(9)),
        (327_961, 327_962, Err(9)),
        (5, 6, Err(9)),
        (0, 1, Err(9)),
        (0, 0, Err(17)),
        (327_920, 327_920, Err(17)),
        (327_963, 327_963, Err(17)),
        (327_976, 327_976, Err(17)),
        (327_979, 327_979, Err(17)),
    ] {
        assert_eq!(salvage(file, output), expected, "file {file}, output {output}");
    }
}
