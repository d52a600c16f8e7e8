//! The second saved form (W12): files written, read and moved by the library and
//! the model, at every length of pak RAM; every condition of 9, 10 and 16.

use difftests::broken::Broken;
use difftests::machine::{expect_same_bytes, to_library, Buffers};
use difftests::random::Random;
use difftests::state::{
    bodies, field_values, filled, is_untouched, pak_lengths, rounds_of_paks, sum, Body, State,
};
use difftests::twin::processor_to_library;
use model::saved::{file_length, Form};
use model::{Hardware, Refusal};

/// Moves a file on both sides into an output buffer of this length and compares.
fn moved(file: &[u8], output: usize, what: &str) -> (u32, Box<[u8]>) {
    let (mut library, mut model) = (filled(output), filled(output));
    let number = vbsys::move_state(file, &mut library);
    let answer = model::saved::move_state(file, &mut model);
    assert_eq!(number, answer.err().map_or(0, Refusal::number), "{what}");
    expect_same_bytes("the moved file", &library, &model, &|| what.into());
    assert!(number == 0 || is_untouched(&library), "a refused move has written; {what}");
    (number, library)
}

/// States at every length of pak RAM: the file is the model's, it is read back
/// whole, lines and timer among it, and written again.
#[test]
fn every_pak_length() {
    for (pak, mut random, what) in rounds_of_paks(0x1201_0000) {
        let state = State::random(&mut random, pak);
        let file = state.expect_kept(Form::Two, &State::random(&mut random, pak), &what);
        assert_eq!(file.len(), if pak == 0 { 327_962 } else { 327_976 + pak });
        for Body { kind, place, length, sum_place } in bodies(pak) {
            let stored = u32::from_le_bytes(file[sum_place..sum_place + 4].try_into().unwrap());
            assert_eq!(stored, sum(&file[place..place + length]), "kind {kind}, {what}");
        }
    }
}

/// Moves both ways at every length of pak RAM: what the other form's writer makes
/// for the state held, and back the same bytes.
#[test]
fn moves() {
    for pak in pak_lengths() {
        let mut random = Random::new(0x1202_0000);
        let state = State::at_reset(&mut random, pak);
        let what = format!("pak RAM {pak}");
        let (one, two) = (state.file(Form::One, &what), state.file(Form::Two, &what));
        let (number, found) = moved(&one, two.len(), &what);
        assert!(number == 0 && found == two, "to form 2, {what}");
        let (number, found) = moved(&two, one.len(), &what);
        assert!(number == 0 && found == one, "to form 1, {what}");
        if pak > 1 << 16 {
            continue;
        }
        for (file, due) in [(&one, two.len()), (&two, one.len())] {
            for output in [0, 1, due - 1, due + 1, due + 14, file.len(), file.len() + 1] {
                if output != due {
                    assert_eq!(moved(file, output, &what).0, 9, "output {output}, {what}");
                }
            }
            let mut longer = file.to_vec();
            longer.push(0);
            assert_eq!(moved(&longer, due, &what).0, 9, "{what}");
            assert_eq!(moved(&file[..file.len() - 1], due, &what).0, 9, "{what}");
        }
    }
}

/// File lengths from 0 on that fit one form, the other, both or none, with each
/// first halfword and each output length that could be due.
#[test]
fn lengths_of_moved_files() {
    let mut lengths =
        vec![0, 1, 2, 6, 42, 76, 327_919, 327_921, 327_930, 327_961, 327_963, 327_976];
    for pak in [0, 1, 2, 4, 16, 32, 64, 1_024] {
        lengths.extend([Form::One, Form::Two].map(|form| file_length(form, pak)));
    }
    lengths.extend([327_930 + 3, 327_976 + 3, 327_976 + 48]);
    let outputs: Vec<usize> = [0, 1, 2, 32, 64]
        .into_iter()
        .flat_map(|pak| [Form::One, Form::Two].map(|form| file_length(form, pak)))
        .chain([0, 1])
        .collect();
    for &length in &lengths {
        for first in [[0, 0], [0, 1], [4, 0], [5, 0], [0xFF, 0xFF]] {
            let mut file = vec![0; length];
            for (place, byte) in file.iter_mut().zip(first) {
                *place = byte;
            }
            let form = if first == [0, 0] { Form::Two } else { Form::One };
            let pak = pak_lengths().find(|&pak| file_length(form, pak) == length);
            for &output in &outputs {
                let what = format!("{length} bytes, first {first:?}, output {output}");
                let (number, _) = moved(&file, output, &what);
                let due = match form {
                    Form::One => pak.map(|pak| file_length(Form::Two, pak)),
                    Form::Two => pak.map(|pak| file_length(Form::One, pak)),
                };
                // zeros are no file: 10 where the lengths fit
                assert_eq!(number, if due == Some(output) { 10 } else { 9 }, "{what}");
            }
        }
    }
}

/// The contents that the request prints, byte for byte.
#[test]
fn worked_contents() {
    let text = "00 00 02 00 05 00 | 01 00 4C 00 00 00 AC 00 00 00 5C 06 00 00 | \
                02 00 F8 00 00 00 1A 00 00 00 00 00 00 00 | \
                03 00 12 01 00 00 00 00 01 00 00 00 00 00 | \
                04 00 12 01 01 00 00 00 04 00 00 00 00 00 | \
                06 00 12 01 05 00 08 00 00 00 00 00 00 00";
    let bytes = text.split([' ', '|']).filter(|byte| !byte.is_empty());
    let contents: Vec<u8> = bytes.map(|byte| u8::from_str_radix(byte, 16).unwrap()).collect();
    let buffers = Buffers::zeroed(1_024, 65_536, 262_144, 0);
    let machine = vbsys::reset();
    let mut output = filled(327_962);
    let memories = buffers.read_by_library();
    let number = vbsys::write_state_2(memories, machine.processor, machine.drawing, &mut output);
    assert_eq!(number, 0);
    assert_eq!(output[..76], contents);
    assert!(output[248..].iter().all(|&byte| byte == 0));
    assert_eq!(sum(&output[76..248]), 1_628);
    // with pak RAM: the count, kind 5's entry and kind 6's, after each other
    let mut state = State::at_reset(&mut Random::new(0x1203_0000), 8_192);
    state.buffers.pak.fill(1);
    state.processor.hardware =
        Hardware { lines: 0x1F, count: 0x1234, reload: 0x5678, control: 0x1B };
    let file = state.file(Form::Two, "contents");
    assert_eq!(file[..6], [0, 0, 2, 0, 6, 0]);
    assert_eq!(file[62..76], [5, 0, 0x20, 0x01, 5, 0, 0, 0x20, 0, 0, 0, 0x20, 0, 0]);
    assert_eq!(file[76..90], [6, 0, 0x20, 0x21, 5, 0, 8, 0, 0, 0, 0x4E, 0x01, 0, 0]);
    assert_eq!(file[336_160..], [0x1F, 0, 0x34, 0x12, 0x78, 0x56, 0x1B, 0]);
}

/// Lengths 0, 1, around the one due, those of the neighbouring pak RAM and of the
/// other form.
#[test]
fn lengths_of_output_and_file() {
    let mut random = Random::new(0x1204_0000);
    for pak in [0, 1, 2, 4, 32, 8_192] {
        let state = State::random(&mut random, pak);
        let neighbours = [0, 1, pak / 2, 2 * pak, 32].map(|pak| file_length(Form::Two, pak));
        let other = file_length(Form::One, pak);
        state.expect_lengths(Form::Two, &[&[2, 76, other][..], &neighbours].concat());
    }
}

/// Each byte before the first body, changed one at a time: the sums among them.
#[test]
fn every_byte_of_the_contents() {
    let mut random = Random::new(0x1205_0000);
    for (pak, length) in [(0, 76), (4, 90)] {
        let state = State::random(&mut random, pak);
        let file = state.file(Form::Two, "contents");
        for at in 0..length {
            for change in [1u8, 0x10, 0x80, 0xFF, 2] {
                let mut changed = file.clone();
                changed[at] ^= change;
                let what = format!("byte {at} changed by {change:X}, pak RAM {pak}");
                // another first halfword is form 1's, which has other lengths
                let number = if at < 2 { 9 } else { 10 };
                assert_eq!(state.read(&changed, &what).0, number, "{what}");
                let (number, _) = moved(&changed, file_length(Form::One, pak), &what);
                assert_eq!(number, if at < 2 { 9 } else { 10 }, "{what}");
            }
        }
    }
}

/// One changed byte in each body, with the stored sum and with the right one: the
/// first is 10 everywhere, the second wherever the body is legal.
#[test]
fn a_byte_of_each_body() {
    let mut random = Random::new(0x1206_0000);
    for pak in [0, 1, 64] {
        let state = State::random(&mut random, pak);
        let file = state.file(Form::Two, "bodies");
        for body in bodies(pak) {
            for _ in 0..12 {
                let at = body.place + random.below(body.length as u32) as usize;
                let mut changed = file.clone();
                changed[at] ^= 1 << random.below(8);
                let what = format!("byte {at} of kind {}, pak RAM {pak}", body.kind);
                assert_eq!(state.read(&changed, &what).0, 10, "{what}");
                assert_eq!(moved(&changed, file_length(Form::One, pak), &what).0, 10);
                body.sum_again(&mut changed);
                let (number, _) = state.read(&changed, &what);
                assert!(number == 0 || matches!(body.kind, 1 | 2 | 6), "{what}");
            }
            // two bytes changed against each other: the sum stays right
            if body.length > 26 {
                let mut changed = file.clone();
                let at = body.place + 5;
                (changed[at], changed[at + 1]) = (changed[at + 1], changed[at]);
                assert_eq!(state.read(&changed, "exchanged").0, 0, "kind {}", body.kind);
            }
        }
    }
}

/// Every field of the records with each bit alone and both sides of its limit, its
/// sum right: refused exactly where no accepted state has it.
#[test]
fn every_bit_of_the_records() {
    let state = State::random(&mut Random::new(0x1207_0000), 0);
    let file = state.file(Form::Two, "records");
    for (kind, offset, value, legal) in field_values() {
        let body = bodies(0).into_iter().find(|body| body.kind == kind).unwrap();
        let mut changed = file.clone();
        let at = body.place + offset;
        changed[at..at + value.len()].copy_from_slice(&value);
        body.sum_again(&mut changed);
        let what = format!("{value:X?} at {offset} of kind {kind}");
        let (number, read) = state.read(&changed, &what);
        assert_eq!(number, if legal { 0 } else { 10 }, "{what}");
        if legal && kind == 6 {
            assert!(read.file(Form::Two, &what) == changed, "{what}");
        }
    }
}

/// Every bit of lines and timer alone: form 2 holds it; form 1 is refused by 16, in
/// writing and in moving.
#[test]
fn every_bit_of_lines_and_timer() {
    let mut random = Random::new(0x1208_0000);
    for pak in [0, 2] {
        let mut state = State::at_reset(&mut random, pak);
        let due = file_length(Form::One, pak);
        let bits = (0..4).flat_map(|field| (0..16).map(move |bit| (field, 1u16 << bit)));
        let masks = [0x1F, 0xFFFF, 0xFFFF, 0x1B];
        for (field, bit) in bits.filter(|&(field, bit)| masks[field] & bit != 0) {
            let mut halves = [0; 4];
            halves[field] = bit;
            let [lines, count, reload, control] = halves;
            state.processor.hardware = Hardware { lines, count, reload, control };
            let what = format!("{:X?}", state.processor.hardware);
            let file = state.file(Form::Two, &what);
            let other = State::random(&mut random, pak);
            let (number, read) = other.read(&file, &what);
            assert_eq!((number, read.processor), (0, state.processor), "{what}");
            assert_eq!(state.write(Form::One, due).0, 16, "{what}");
            assert_eq!(state.write_by_model(Form::One, due).0, 16, "{what}");
            assert_eq!(moved(&file, due, &what).0, 16, "{what}");
        }
    }
}

/// 327,962 bytes is the one length that both forms have: form 1 with 32 bytes of
/// pak RAM, form 2 with none.
#[test]
fn the_length_of_both_forms() {
    let mut random = Random::new(0x1209_0000);
    let (some, none) = (State::at_reset(&mut random, 32), State::at_reset(&mut random, 0));
    let (one, two) = (some.file(Form::One, "form 1"), none.file(Form::Two, "form 2"));
    assert_eq!((one.len(), two.len()), (327_962, 327_962));
    assert_eq!((one[0], one[1], two[0], two[1]), (5, 0, 0, 0));
    for (file, state, other) in [(&one, &some, &none), (&two, &none, &some)] {
        let (number, read) = state.read(file, "its own pak RAM");
        assert_eq!(number, 0);
        read.expect_read(state, "its own pak RAM");
        assert_eq!(other.read(file, "the other pak RAM").0, 9);
    }
    assert_eq!(moved(&one, 328_008, "form 1").0, 0);
    assert_eq!(moved(&one, 327_920, "form 1").0, 9);
    assert_eq!(moved(&two, 327_920, "form 2").0, 0);
    assert_eq!(moved(&two, 328_008, "form 2").0, 9);
    // the first halfword exchanged
    let (mut zeroed, mut five) = (one.clone(), two.clone());
    zeroed[0] = 0;
    five[0] = 5;
    for (file, length, pak) in [(&zeroed, 327_920, &none), (&five, 328_008, &some)] {
        assert_eq!(pak.read(file, "exchanged").0, 10);
        assert_eq!(moved(file, length, "exchanged").0, 10);
    }
    assert_eq!(some.read(&zeroed, "exchanged").0, 9);
    assert_eq!(none.read(&five, "exchanged").0, 9);
}

/// Every set of broken conditions among 1 to 5, the mode and 9, and 16 for form 1's
/// writer, 10 for reading a file of form 2.
#[test]
fn the_order_of_refusals() {
    let mut random = Random::new(0x120A_0000);
    let accepted = State::random(&mut random, 8);
    let file = accepted.file(Form::Two, "accepted");
    for broken in Broken::sets(9) {
        let mut buffers = broken.buffers();
        buffers.rom.fill(1);
        let mut processor = processor_to_library(&accepted.processor);
        let mut drawing = to_library(&accepted.drawing);
        processor.hardware = Default::default();
        if broken.has(8) {
            processor.hardware.count = 1;
        }
        match (broken.has(4), broken.way) {
            (true, 0) => processor.hardware.lines |= 0x20,
            (true, _) => drawing.bkcol = 4,
            _ => {}
        }
        if broken.has(5) {
            processor.mode = 3;
        }
        let mut given = file.to_vec();
        if broken.has(7) {
            given[[100, 44][broken.way]] ^= 1;
        }
        if broken.has(6) {
            given.resize([file.len() - 1, 0][broken.way], 0);
        }
        let before = buffers.clone();
        let what = broken.to_string();
        let earlier = broken.first(&[1, 2, 3, 4, 5, vbsys::MISUSE, 9]);
        let or_else = |bit, refusal| earlier.unwrap_or(if broken.has(bit) { refusal } else { 0 });
        // form 2
        let mut output = filled(given.len());
        let read = buffers.read_by_library();
        let written = vbsys::write_state_2(read, processor, drawing, &mut output);
        assert_eq!(written, earlier.unwrap_or(0), "form 2, {what}");
        assert!(written == 0 || is_untouched(&output), "form 2, {what}");
        // form 1
        let due = file_length(Form::One, 8);
        let mut output = filled(if broken.has(6) { [due + 1, 0][broken.way] } else { due });
        let written = vbsys::write_state(read, processor, drawing, &mut output);
        assert_eq!(written, or_else(8, 16), "form 1, {what}");
        assert!(written == 0 || is_untouched(&output), "form 1, {what}");
        // reading
        let memories = &mut buffers.for_library();
        let restored = vbsys::read_state(memories, processor, drawing, &given);
        assert_eq!(restored.refusal, or_else(7, 10), "{what}");
        if restored.refusal != 0 {
            assert_eq!((restored.processor, restored.drawing), (processor, drawing));
            buffers.expect_equal(&before, &|| what.clone());
        }
    }
}

/// 9, 10 and 16 of a move to form 1, in every combination.
#[test]
fn the_order_of_a_move() {
    let mut random = Random::new(0x120B_0000);
    for pak in [0, 1, 64] {
        for set in 0..8 {
            let broken = Broken { set, way: 0 };
            let mut state = State::at_reset(&mut random, pak);
            if broken.has(2) {
                state.processor.hardware = Hardware { control: 0x02, ..Hardware::default() };
            }
            let file = state.file(Form::Two, "a move");
            let due = file_length(Form::One, pak);
            // damage in the contents, in a body, in a sum, and in kind 6 itself
            for at in [4, 8, 44, 100, 300, file.len() - 5] {
                for output in [due + 1, due - 1, 0, file.len()] {
                    let mut given = file.clone();
                    if broken.has(1) {
                        given[at] ^= 0x40;
                    }
                    let output = if broken.has(0) { output } else { due };
                    let what = format!("{broken}, byte {at}, output {output}, pak RAM {pak}");
                    let number = broken.first(&[9, 10, 16]).unwrap_or(0);
                    assert_eq!(moved(&given, output, &what).0, number, "{what}");
                }
            }
        }
    }
}

/// No byte outside the caller's buffers is touched; what is only read may not be written;
/// output buffer and file may be empty.
#[cfg(target_os = "linux")]
#[test]
fn between_fences() {
    use difftests::fence::{sides_and_paks, Fenced};
    let mut random = Random::new(0x120C_0000);
    for (side, pak) in sides_and_paks() {
        let state = State::at_reset(&mut random, pak);
        let one = state.file(Form::One, "between fences");
        let two = state.file(Form::Two, "between fences");
        state.expect_between_fences(Form::Two, side);
        for (file, other) in [(&one, &two), (&two, &one)] {
            for (length, output) in [
                (file.len(), other.len()),
                (file.len(), 0),
                (0, other.len()),
                (0, 0),
                (1, other.len()),
                (file.len() - 1, other.len()),
                (file.len(), other.len() - 1),
            ] {
                let source = Fenced::closed(&file[..length], side);
                let mut output = Fenced::new(&filled(output), side);
                let number = vbsys::move_state(source.bytes(), output.bytes_mut());
                let fits = (length, output.bytes().len()) == (file.len(), other.len());
                assert_eq!(number, if fits { 0 } else { 9 });
                assert!(!fits || *output.bytes() == **other);
            }
        }
    }
}
