//! Saved states (W1): files written and read by the library and the model, at
//! every length of pak RAM; every condition of refusals 9 and 10.

use difftests::broken::Broken;
use difftests::machine::{random_hardware, to_library};
use difftests::random::Random;
use difftests::state::{field_values, rounds_of_paks, State};
use difftests::twin::processor_to_library;
use model::saved::{file_length, Form};
use model::Hardware;

/// The file of form 1.
fn file_of(state: &State, what: &str) -> Box<[u8]> {
    state.file(Form::One, what)
}

/// States at every length of pak RAM: the file is the model's, it is read back
/// into another machine, and that machine writes it again.
#[test]
fn every_pak_length() {
    for (pak, mut random, what) in rounds_of_paks(0x1001_0000) {
        let state = State::at_reset(&mut random, pak);
        let file = state.expect_kept(Form::One, &State::random(&mut random, pak), &what);
        assert_eq!(file.len(), if pak == 0 { 327_920 } else { 327_930 + pak });
    }
}

/// The contents that the request prints, byte for byte.
#[test]
fn worked_contents() {
    let bytes = |text: &str| -> Vec<u8> {
        let bytes = text.split([' ', '|']).filter(|byte| !byte.is_empty());
        bytes.map(|byte| u8::from_str_radix(byte, 16).unwrap()).collect()
    };
    for (pak, text) in [
        (
            0,
            "04 00 | 01 00 2A 00 00 00 AC 00 00 00 | 02 00 D6 00 00 00 1A 00 00 00 | \
             03 00 F0 00 00 00 00 00 01 00 | 04 00 F0 00 01 00 00 00 04 00",
        ),
        (
            8_192,
            "05 00 | 01 00 34 00 00 00 AC 00 00 00 | 02 00 E0 00 00 00 1A 00 00 00 | \
             03 00 FA 00 00 00 00 00 01 00 | 04 00 FA 00 01 00 00 00 04 00 | \
             05 00 FA 00 05 00 00 20 00 00",
        ),
    ] {
        let state = State::at_reset(&mut Random::new(0x1003_0000), pak);
        let contents = bytes(text);
        assert_eq!(file_of(&state, "contents")[..contents.len()], contents, "pak RAM {pak}");
    }
}

/// Lengths 0, 1, around the one due, and those of the neighbouring pak RAM.
#[test]
fn lengths_of_output_and_file() {
    let mut random = Random::new(0x1004_0000);
    for pak in [0, 1, 2, 4, 32, 8_192] {
        let state = State::at_reset(&mut random, pak);
        let neighbours = [0, 1, pak / 2, 2 * pak].map(|pak| file_length(Form::One, pak));
        state.expect_lengths(Form::One, &[&[42][..], &neighbours].concat());
    }
}

/// Each byte before the first body, changed one at a time. The first halfword is
/// changed to numbers other than 0.
#[test]
fn every_byte_of_the_contents() {
    let mut random = Random::new(0x1005_0000);
    for (pak, length) in [(0, 42), (4, 52)] {
        let state = State::at_reset(&mut random, pak);
        let file = file_of(&state, "contents");
        for at in 0..length {
            for change in [1u8, 0x10, 0x80, 0xFF, 2] {
                let mut changed = file.clone();
                changed[at] ^= change;
                if changed[..2] != [0, 0] {
                    let what = format!("byte {at} changed by {change:X}, pak RAM {pak}");
                    assert_eq!(state.read(&changed, &what).0, 10, "{what}");
                }
            }
        }
    }
}

/// Places of a file without pak RAM.
const FIRST: usize = 42;
const SECOND: usize = 214;

/// Every word of kind 1 and every halfword of kind 2 with each bit alone and all
/// set: whether it is refused by 10 is the specification's condition of that field.
#[test]
fn every_bit_of_the_records() {
    let state = State::at_reset(&mut Random::new(0x1006_0000), 0);
    let file = file_of(&state, "records");
    for (kind, offset, value, legal) in field_values().into_iter().filter(|field| field.0 <= 2) {
        let at = offset + if kind == 1 { FIRST } else { SECOND };
        let mut changed = file.clone();
        changed[at..at + value.len()].copy_from_slice(&value);
        let what = format!("{value:X?} at {offset} of kind {kind}");
        assert_eq!(state.read(&changed, &what).0, if legal { 0 } else { 10 }, "{what}");
    }
}

/// Kinds 3 to 5 are free.
#[test]
fn memories_are_free() {
    let mut random = Random::new(0x1007_0000);
    let state = State::at_reset(&mut random, 64);
    for byte in [0x00, 0xFF] {
        let mut file = file_of(&state, "memories");
        file[250..].fill(byte);
        let (number, read) = state.read(&file, "memories of one byte");
        assert_eq!(number, 0);
        assert!(read.buffers.pak.iter().all(|&found| found == byte));
    }
}

/// Reading loads lines and timer at reset (W6); writing refuses by 16 unless they
/// are there (W12).
#[test]
fn lines_and_timer() {
    let mut random = Random::new(0x100A_0000);
    for pak in [0, 64] {
        let state = State::at_reset(&mut random, pak);
        let file = file_of(&state, "at reset");
        for _ in 0..20 {
            let mut other = state.clone();
            other.processor.hardware = random_hardware(&mut random);
            let number = if other.processor.hardware == Hardware::default() { 0 } else { 16 };
            assert_eq!(other.write(Form::One, file.len()).0, number);
            let (number, read) = other.read(&file, "lines and timer");
            assert_eq!((number, read.processor), (0, state.processor));
        }
    }
}

/// Every set of broken conditions among 1 to 5, the mode, 9 and, for reading, 10.
#[test]
fn the_order_of_refusals() {
    let mut random = Random::new(0x1008_0000);
    let accepted = State::at_reset(&mut random, 8);
    let file = file_of(&accepted, "accepted");
    for broken in Broken::sets(8) {
        let mut buffers = broken.buffers();
        buffers.rom.fill(1);
        buffers.wram.fill(2);
        let mut processor = processor_to_library(&accepted.processor);
        let mut drawing = to_library(&accepted.drawing);
        match (broken.has(4), broken.way) {
            (true, 0) => processor.pc |= 1,
            (true, _) => drawing.bkcol = 4,
            _ => {}
        }
        if broken.has(5) {
            processor.mode = 3;
        }
        let mut given = file.to_vec();
        if broken.has(7) {
            given[FIRST + 10] |= 1;
        }
        if broken.has(6) {
            given.resize([file.len() - 1, 0][broken.way], 0);
        }
        let numbers = [1, 2, 3, 4, 5, vbsys::MISUSE, 9, 10];
        let number = |bits: usize| broken.first(&numbers[..bits]).unwrap_or(0);
        let before = buffers.clone();
        let mut output = vec![0xA5; given.len()];
        let read = buffers.read_by_library();
        let written = vbsys::write_state(read, processor, drawing, &mut output);
        assert_eq!(written, number(7), "writing, {broken}");
        assert!(written == 0 || output.iter().all(|&byte| byte == 0xA5), "{broken}");
        let memories = &mut buffers.for_library();
        let restored = vbsys::read_state(memories, processor, drawing, &given);
        assert_eq!(restored.refusal, number(8), "reading, {broken}");
        if restored.refusal != 0 {
            assert_eq!((restored.processor, restored.drawing), (processor, drawing));
            buffers.expect_equal(&before, &|| broken.to_string());
        }
    }
}

/// No byte outside the caller's buffers is touched; what is only read may not be written.
#[cfg(target_os = "linux")]
#[test]
fn between_fences() {
    use difftests::fence::sides_and_paks;
    let mut random = Random::new(0x1009_0000);
    for (side, pak) in sides_and_paks() {
        let state = State::at_reset(&mut random, pak);
        state.expect_between_fences(Form::One, side);
    }
}
