use super::layout::{DRAWING, PROCESSOR};
use super::*;

/// The bodies of a machine at reset, each memory filled with its kind, in a file.
fn state(form: Form, pak: usize) -> Vec<u8> {
    let layout = Layout::of(form, pak);
    let mut file = vec![0; layout.length()];
    for body in &layout.bodies {
        let bytes = match body.kind {
            PROCESSOR => Machine::reset().processor.to_bytes()[..body.length].to_vec(),
            DRAWING => (0..13).flat_map(|n| [n % 4, 0]).collect(),
            WRAM | VRAM | PAK => vec![body.kind as u8; body.length],
            _ => vec![0x1F, 0, 0xFF, 0xFF, 0xFF, 0xFF, 0x1B, 0],
        };
        file[body.offset..body.offset + body.length].copy_from_slice(&bytes);
    }
    let contents = layout.contents(&file);
    file[..contents.len()].copy_from_slice(&contents);
    file
}

fn input(bytes: Vec<u8>) -> Input {
    Input { path: PathBuf::from("a.state"), bytes }
}

#[test]
fn both_forms_give_vram_and_drawing_record() {
    for (form, pak) in [(Form::One, 0), (Form::One, 1), (Form::Two, 0), (Form::Two, 1024)] {
        let (vram, drawing) = scene_of(&input(state(form, pak))).unwrap();
        let registers: Vec<u8> = (0..13).flat_map(|n| [n % 4, 0]).collect();
        assert!(vram.bytes == vec![4; 262_144] && drawing.bytes == registers);
        assert_eq!(drawing.name(), "a.state, drawing record");
        let saved = Saved::of(&input(state(form, pak))).ok().expect("a saved state");
        assert_eq!((saved.layout.form, saved.pak.len()), (form, pak));
        let lines = saved.machine.processor.hardware.lines;
        assert_eq!(lines, if form == Form::Two { 0x1F } else { 0 });
    }
}

#[test]
fn the_length_that_both_forms_have_is_known_by_the_first_halfword() {
    let (first, second) = (state(Form::One, 32), state(Form::Two, 0));
    assert_eq!((first.len(), second.len()), (327_962, 327_962));
    for (file, form) in [(first, Form::One), (second, Form::Two)] {
        assert_eq!(Saved::of(&input(file)).ok().map(|saved| saved.layout.form), Some(form));
    }
}

/// Each byte of contents and records, each bit of it changed: the library refuses exactly where a broken rule is reported.
#[test]
fn rules_are_reported_exactly_where_the_library_refuses() {
    for pak in [0, 2] {
        let file = state(Form::One, pak);
        let layout = Layout::of(Form::One, pak);
        let mut refused = 0;
        for at in 0..layout.body(WRAM).unwrap().offset {
            for bit in 0..8 {
                let mut changed = file.clone();
                changed[at] ^= 1 << bit;
                let refusal = restored(&changed, layout.clone()).err();
                let fault = Fault::of(&changed);
                assert_eq!(fault.is_some(), refusal.is_some(), "byte {at}, bit {bit}");
                let numbers = (fault.as_ref().map(Fault::refusal), refusal.map(|r| r.number()));
                assert_eq!(numbers.0, numbers.1, "byte {at}, bit {bit}");
                refused += usize::from(fault.is_some());
            }
        }
        // contents; register 0, four that are even, three with 18 bits, the mode; then the drawing registers
        let contents = 8 * layout.bodies[0].offset;
        assert_eq!(refused, contents + 32 + 4 + 3 * 14 + 30 + 4 * 6 + 8 * 8 + 14);
    }
}

/// The same of form 2: each byte before the memories, and of lines and timer, with the sums as they were and right.
#[test]
fn rules_of_form_2_are_reported_exactly_where_the_library_refuses() {
    for pak in [0, 2] {
        let file = state(Form::Two, pak);
        let layout = Layout::of(Form::Two, pak);
        let last = layout.length() - 8..layout.length();
        for at in (0..layout.body(WRAM).unwrap().offset).chain(last) {
            for bit in 0..8 {
                let mut changed = file.clone();
                changed[at] ^= 1 << bit;
                let mut summed = changed.clone();
                let contents = layout.contents(&summed);
                summed[..contents.len()].copy_from_slice(&contents);
                for file in [changed, summed] {
                    let fault = Fault::of(&file).map(|fault| fault.refusal());
                    let refusal = Saved::of(&input(file)).err().and_then(|no| no.failure.refusal);
                    assert_eq!(fault, refusal, "byte {at}, bit {bit}");
                }
            }
        }
    }
}

#[test]
fn other_bytes_of_form_2_are_refused() {
    let whole = state(Form::Two, 0);
    let changed = |at: usize, value: u8| {
        let mut file = whole.clone();
        file[at] = value;
        file
    };
    let mut lines = changed(327_954, 0x20);
    lines[72] += 1;
    for (file, part) in [
        (changed(2, 3), "a.state (327,962 bytes): refusal 10: byte 2 (the form) is 0x03; it must be 0x02"),
        (changed(4, 4), "byte 4 (the count of bodies) is 0x04; it must be 0x05"),
        (changed(8, 1), "byte 8 (the offset in entry 0, processor record) is 0x01; it must be 0x4C"),
        (changed(327_960, 0x1A), "byte 72 (the sum in entry 4, request lines and timer) is 0x"),
        (lines, "the request lines, at byte 327,954, is 0x20; it may have bits of 0x0000001F only"),
        (whole[1..].to_vec(), "refusal 9: no saved state has this length; it must be a saved state, form 1 or 2: 327,920"),
    ] {
        let wrong = scene_of(&input(file)).err().unwrap().message;
        assert!(wrong.contains(part), "{wrong}");
    }
}
