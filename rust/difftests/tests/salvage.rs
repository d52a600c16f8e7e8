//! Salvage of a saved state (W13): damaged files of form 2, by single bytes and
//! whole; which bodies are kept, what is reported, and that the output is right.

use difftests::machine::expect_same_bytes;
use difftests::random::Random;
use difftests::state::{bodies, field_values, filled, is_untouched, pak_lengths, sum, Body, State};
use model::saved::{file_length, Form};

/// What a salvage reported and wrote.
#[derive(Clone, Debug, PartialEq, Eq)]
struct Salvage {
    kinds: Vec<u32>,
    contents_differ: bool,
    output: Box<[u8]>,
}

/// Salvages on both sides into an output buffer of this length and compares; none where it is
/// refused, with its number.
fn salvage_into(file: &[u8], output: usize, what: &str) -> Result<Salvage, u32> {
    let (mut library, mut model) = (filled(output), filled(output));
    let found = vbsys::salvage_state(file, &mut library);
    let answer = model::salvage::salvage_state(file, &mut model);
    let mut expected = vbsys::Salvaged::default();
    match &answer {
        Err(refusal) => expected.refusal = refusal.number(),
        Ok(salvaged) => {
            expected.replaced = salvaged.replaced.len() as u32;
            for (place, &kind) in expected.kinds.iter_mut().zip(&salvaged.replaced) {
                *place = u32::from(kind);
            }
            expected.contents_differ = u32::from(salvaged.contents_differ);
        }
    }
    assert_eq!(found, expected, "{what}");
    expect_same_bytes("the output", &library, &model, &|| what.into());
    if found.refusal != 0 {
        assert!(is_untouched(&library), "a refused salvage has written; {what}");
        return Err(found.refusal);
    }
    let kinds = found.kinds[..found.replaced as usize].to_vec();
    Ok(Salvage { kinds, contents_differ: found.contents_differ == 1, output: library })
}

/// Salvages a file of a length that is due; the output, salvaged again, is the same
/// and nothing is reported about it.
fn salvage(file: &[u8], what: &str) -> Salvage {
    let salvage = salvage_into(file, file.len(), what).unwrap();
    let again = salvage_into(&salvage.output, file.len(), what).unwrap();
    assert_eq!((again.kinds.len(), again.contents_differ), (0, false), "{what}");
    assert!(again.output == salvage.output, "salvaged again; {what}");
    salvage
}

/// The output is a valid file: it is read without refusal and written as it is.
fn expect_right(output: &[u8], pak: usize, what: &str) {
    let other = State::random(&mut Random::new(0x1300_0000), pak);
    let (number, read) = other.read(output, what);
    assert_eq!(number, 0, "{what}");
    assert!(*read.file(Form::Two, what) == *output, "{what}");
}

/// The reset values of a body.
fn reset_values(kind: u32, length: usize) -> Vec<u8> {
    let mut bytes = vec![0; length];
    if kind == 1 {
        let mut put = |word: usize, value: u32| {
            bytes[4 * word..4 * word + 4].copy_from_slice(&value.to_le_bytes());
        };
        put(32, 0xFFFF_FFF0);
        put(37, 0x0000_FFF0);
        put(38, 0x0000_8000);
    }
    bytes
}

/// What the request's sentences give for damage of one body and of the contents.
fn expect_lost(
    found: &Salvage,
    file: &[u8],
    pak: usize,
    lost: &[u32],
    contents_differ: bool,
    what: &str,
) {
    assert_eq!((&found.kinds[..], found.contents_differ), (lost, contents_differ), "{what}");
    for Body { kind, place, length, sum_place } in bodies(pak) {
        let body = &found.output[place..place + length];
        if lost.contains(&kind) {
            assert!(*body == reset_values(kind, length), "kind {kind} is reset; {what}");
        } else {
            assert!(*body == file[place..place + length], "kind {kind} is kept; {what}");
        }
        assert_eq!(found.output[sum_place..sum_place + 4], sum(body).to_le_bytes(), "{what}");
    }
}

/// Undamaged files come out equal, at every length of pak RAM.
#[test]
fn undamaged_files() {
    for pak in pak_lengths() {
        let mut random = Random::new(0x1301_0000);
        let file = State::random(&mut random, pak).file(Form::Two, "undamaged");
        let what = format!("pak RAM {pak}");
        let found = salvage_into(&file, file.len(), &what).unwrap();
        assert_eq!((found.kinds.len(), found.contents_differ), (0, false), "{what}");
        assert!(found.output == file, "{what}");
    }
}

/// The request's fixed cases: a machine at reset over memories of zeros.
#[test]
fn fixed_cases() {
    let machine = vbsys::reset();
    let buffers = difftests::machine::Buffers::zeroed(1_024, 65_536, 262_144, 0);
    let mut file = filled(327_962);
    let memories = buffers.read_by_library();
    assert_eq!(vbsys::write_state_2(memories, machine.processor, machine.drawing, &mut file), 0);
    for change in 1..=255u8 {
        for (at, kinds, contents_differ) in
            [(8, vec![], true), (44, vec![3], false), (204, vec![1], false)]
        {
            let mut changed = file.clone();
            changed[at] ^= change;
            let found = salvage_into(&changed, changed.len(), "fixed cases").unwrap();
            assert_eq!((found.kinds, found.contents_differ), (kinds, contents_differ), "byte {at}");
            assert!(found.output == file, "byte {at}");
        }
    }
}

/// Each byte before the first body, changed one at a time: a sum loses its body,
/// any other byte nothing.
#[test]
fn every_byte_of_the_contents() {
    let mut random = Random::new(0x1302_0000);
    for (pak, length) in [(0, 76), (4, 90)] {
        let file = State::random(&mut random, pak).file(Form::Two, "contents");
        for at in 0..length {
            for change in [1u8, 0x10, 0x80, 0xFF] {
                let mut changed = file.clone();
                changed[at] ^= change;
                let what = format!("byte {at} changed by {change:X}, pak RAM {pak}");
                let found = salvage(&changed, &what);
                let of_sum = bodies(pak)
                    .into_iter()
                    .find(|body| (body.sum_place..body.sum_place + 4).contains(&at));
                let lost: Vec<u32> = of_sum.iter().map(|body| body.kind).collect();
                expect_lost(&found, &file, pak, &lost, lost.is_empty(), &what);
                if change == 1 {
                    expect_right(&found.output, pak, &what);
                }
            }
        }
    }
}

/// One changed byte of each body, and two or three bodies at once, with damage of
/// the contents too.
#[test]
fn bytes_of_bodies() {
    let mut random = Random::new(0x1303_0000);
    for pak in [0, 1, 2, 64, 8_192] {
        let file = State::random(&mut random, pak).file(Form::Two, "bodies");
        let all = bodies(pak);
        for number in 0..120 {
            let mut changed = file.clone();
            let hit: Vec<&Body> = match number {
                0..40 => vec![&all[number % all.len()]],
                _ => all.iter().filter(|_| random.one_in(2)).collect(),
            };
            for body in &hit {
                let at = body.place + random.below(body.length as u32) as usize;
                changed[at] ^= 1 << random.below(8);
            }
            let contents = random.one_in(3);
            if contents {
                // a byte that belongs to no sum
                let at = random.pick(&[0, 1, 2, 3, 4, 5, 6, 7, 8, 12, 20, 24, 34, 38]);
                changed[at] ^= 1 << random.below(8);
            }
            let lost: Vec<u32> = hit.iter().map(|body| body.kind).collect();
            let what = format!("kinds {lost:?} damaged, pak RAM {pak}, number {number}");
            let found = salvage(&changed, &what);
            expect_lost(&found, &file, pak, &lost, contents, &what);
            if number % 10 == 0 {
                expect_right(&found.output, pak, &what);
            }
        }
    }
}

/// Every field of the records, each bit alone and both sides of its limit, with the
/// right sum: the body is kept exactly where an accepted state has it.
#[test]
fn conditions_of_the_records() {
    for pak in [0, 2] {
        let mut random = Random::new(0x1304_0000);
        let file = State::random(&mut random, pak).file(Form::Two, "records");
        for (kind, offset, value, legal) in field_values() {
            let body = bodies(pak).into_iter().find(|body| body.kind == kind).unwrap();
            let mut changed = file.clone();
            let at = body.place + offset;
            changed[at..at + value.len()].copy_from_slice(&value);
            body.sum_again(&mut changed);
            let what = format!("{value:X?} at {offset} of kind {kind}, pak RAM {pak}");
            let found = salvage_into(&changed, changed.len(), &what).unwrap();
            let lost: &[u32] = if legal { &[] } else { &[kind] };
            expect_lost(&found, &changed, pak, lost, false, &what);
        }
    }
}

/// Damage that leaves the sums as they were is kept, where the body stays legal; so
/// are two bodies' bytes that were exchanged together with their sums.
#[test]
fn damage_that_is_not_seen() {
    let mut random = Random::new(0x1305_0000);
    let file = State::random(&mut random, 64).file(Form::Two, "not seen");
    for body in bodies(64).into_iter().filter(|body| matches!(body.kind, 3..=5)) {
        for _ in 0..20 {
            let mut changed = file.clone();
            let first = body.place + random.below(body.length as u32) as usize;
            let second = body.place + random.below(body.length as u32) as usize;
            changed.swap(first, second);
            let found = salvage(&changed, "bytes exchanged");
            expect_lost(&found, &changed, 64, &[], false, "bytes exchanged");
            let mut changed = file.clone();
            changed[first] = changed[first].wrapping_add(1);
            changed[second] = changed[second].wrapping_sub(1);
            if changed != file {
                let found = salvage(&changed, "bytes against each other");
                let kept = sum(&changed[body.place..body.place + body.length])
                    == sum(&file[body.place..body.place + body.length]);
                let lost: &[u32] = if kept { &[] } else { &[body.kind] };
                expect_lost(&found, &changed, 64, lost, false, "bytes against each other");
            }
        }
    }
    // pak RAM as long as the record of the drawing registers, of lines and timer
    let state = State::random(&mut random, 8);
    let file = state.file(Form::Two, "bodies exchanged");
    let all = bodies(8);
    let (fifth, sixth) = (all[4], all[5]);
    for with_sums in [false, true] {
        let mut changed = file.clone();
        for k in 0..8 {
            changed.swap(fifth.place + k, sixth.place + k);
        }
        if with_sums {
            for k in 0..4 {
                changed.swap(fifth.sum_place + k, sixth.sum_place + k);
            }
        }
        let found = salvage(&changed, "bodies exchanged");
        let lost: &[u32] = if with_sums { &[6] } else { &[5, 6] };
        expect_lost(&found, &changed, 8, lost, false, "bodies exchanged");
    }
}

/// A body that is replaced by its own bytes is reported: memories of zeros whose stored
/// sum was damaged.
#[test]
fn replaced_by_its_own_bytes() {
    let mut random = Random::new(0x1306_0000);
    let mut state = State::at_reset(&mut random, 4);
    state.buffers.wram.fill(0);
    state.buffers.vram.fill(0);
    state.buffers.pak.fill(0);
    state.drawing = Default::default();
    state.processor = model::processor::reset().0;
    let file = state.file(Form::Two, "zeros");
    for set in 0..64u32 {
        let hit: Vec<Body> = bodies(4)
            .into_iter()
            .zip(0..)
            .filter(|&(_, n)| set >> n & 1 == 1)
            .map(|(b, _)| b)
            .collect();
        let mut changed = file.clone();
        for body in &hit {
            changed[body.sum_place + random.below(4) as usize] ^= 1 << random.below(8);
        }
        let found = salvage(&changed, &format!("sums {set:06b}"));
        let lost: Vec<u32> = hit.iter().map(|body| body.kind).collect();
        assert_eq!((found.kinds, found.contents_differ), (lost, false), "sums {set:06b}");
        assert!(found.output == file, "sums {set:06b}");
    }
}

/// Files of random bytes, of one byte, and with long damaged stretches.
#[test]
fn wholly_damaged_files() {
    let mut random = Random::new(0x1307_0000);
    for number in 0..120 {
        let pak = random.pick(&[0, 1, 2, 16, 64, 1_024]);
        let mut file = State::random(&mut random, pak).file(Form::Two, "damaged");
        let what = format!("wholly damaged, number {number}, pak RAM {pak}");
        match number % 4 {
            0 => random.fill(&mut file),
            1 => file.fill(random.pick(&[0x00, 0xFF, 0x01])),
            _ => {
                for _ in 0..1 + random.below(4) {
                    let from = random.below(file.len() as u32) as usize;
                    let length = 1 + random.below(100_000) as usize;
                    let to = (from + length).min(file.len());
                    random.fill(&mut file[from..to]);
                }
            }
        }
        let found = salvage(&file, &what);
        expect_right(&found.output, pak, &what);
        assert!(found.kinds.windows(2).all(|pair| pair[0] < pair[1]), "{what}");
    }
}

/// Damage at every length of pak RAM.
#[test]
fn every_pak_length() {
    for pak in pak_lengths() {
        let mut random = Random::new(0x1308_0000 + pak as u64);
        let file = State::random(&mut random, pak).file(Form::Two, "every length");
        let what = format!("pak RAM {pak}");
        let mut changed = file.clone();
        let last = changed.len() - 9;
        changed[last] ^= 0x20;
        changed[16] ^= 1;
        let found = salvage_into(&changed, changed.len(), &what).unwrap();
        let lost = if pak == 0 { [1, 4] } else { [1, 5] };
        expect_lost(&found, &file, pak, &lost, false, &what);
        if pak <= 1 << 20 {
            expect_right(&found.output, pak, &what);
        }
    }
}

/// A form 1 file of 327,962 bytes is taken for form 2 without pak RAM; one of
/// another length has no layout.
#[test]
fn files_of_form_1() {
    let mut random = Random::new(0x1309_0000);
    for pak in [0, 1, 16, 32, 64, 8_192] {
        let file = State::at_reset(&mut random, pak).file(Form::One, "form 1");
        let what = format!("form 1, pak RAM {pak}");
        let found = salvage_into(&file, file.len(), &what);
        if pak == 32 {
            let found = found.unwrap();
            assert!(found.contents_differ && !found.kinds.is_empty());
            expect_right(&found.output, 0, &what);
        } else {
            assert_eq!(found, Err(17), "{what}");
        }
    }
}

/// 9 where output buffer and file differ in length, legal or not; then 17. Two empty slices
/// are 17.
#[test]
fn lengths() {
    let mut lengths =
        vec![0, 1, 2, 8, 76, 90, 327_961, 327_963, 327_976, 327_979, 327_982, 400_000];
    lengths.extend([0, 1, 2, 4, 8].map(|pak| file_length(Form::Two, pak)));
    lengths.extend([0, 1, 32].map(|pak| file_length(Form::One, pak)));
    for &file in &lengths {
        let bytes = vec![0; file];
        for &output in &lengths {
            let legal = pak_lengths().any(|pak| file_length(Form::Two, pak) == file);
            let number = match (file == output, legal) {
                (false, _) => Some(9),
                (true, false) => Some(17),
                (true, true) => None,
            };
            let what = format!("file {file}, output {output}");
            assert_eq!(salvage_into(&bytes, output, &what).err(), number, "{what}");
        }
    }
    for pak in pak_lengths().filter(|&pak| pak > 1 << 20) {
        let due = file_length(Form::Two, pak);
        let bytes = vec![0; due + 1];
        assert_eq!(salvage_into(&bytes, due + 1, "one more").err(), Some(17));
        assert_eq!(salvage_into(&bytes[..due], due + 1, "output longer").err(), Some(9));
        assert_eq!(salvage_into(&bytes[..due - 1], due - 1, "one less").err(), Some(17));
    }
}

/// No byte outside the caller's buffers is touched; the file is only read; both may be
/// empty.
#[cfg(target_os = "linux")]
#[test]
fn between_fences() {
    use difftests::fence::{Fenced, Side};
    let mut random = Random::new(0x130A_0000);
    for (side, pak) in [Side::Start, Side::End].into_iter().flat_map(|s| [(s, 0), (s, 1), (s, 64)])
    {
        let mut file = State::random(&mut random, pak).file(Form::Two, "between fences");
        let at = random.below(file.len() as u32) as usize;
        file[at] ^= 0x10;
        let expected = salvage(&file, "between fences");
        let due = file.len();
        for (length, output) in [(due, due), (due, 0), (0, due), (0, 0), (1, 1), (due - 1, due - 1)]
        {
            let mut source = Fenced::new(&file[..length], side);
            source.forbid_writing();
            let mut output = Fenced::new(&filled(output), side);
            let found = vbsys::salvage_state(source.bytes(), output.bytes_mut());
            let number = match (length == output.bytes().len(), length == due) {
                (false, _) => 9,
                (true, false) => 17,
                (true, true) => 0,
            };
            assert_eq!(found.refusal, number, "{length} bytes");
            if number == 0 {
                assert!(*output.bytes() == *expected.output);
            }
        }
    }
}
