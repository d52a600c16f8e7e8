//! Machines saved and read back by the library and the model.

#[cfg(target_os = "linux")]
use crate::fence::{Fenced, FencedMemories, Side};
use crate::machine::{expect_same_bytes, random_drawing, random_hardware, to_library, Buffers};
use crate::program::random_processor;
use crate::random::Random;
use crate::twin::processor_to_library;
use model::saved::{file_length, Form};
use model::{DrawingRegisters, Hardware, Mode, Processor, Refusal};

/// What output buffers hold before they are written.
pub const FILLED: u8 = 0xA5;

/// The 26 lengths of pak RAM.
pub fn pak_lengths() -> impl Iterator<Item = usize> {
    std::iter::once(0).chain((0..=24).map(|power| 1 << power))
}

/// Those lengths with a generator for each of some rounds, fewer for the longest.
pub fn rounds_of_paks(seed: u64) -> impl Iterator<Item = (usize, Random, String)> {
    pak_lengths().flat_map(move |pak| {
        let rounds = if pak > 1 << 20 { 1 } else { 6 };
        (0..rounds).map(move |round| {
            (pak, Random::new(seed + round), format!("pak RAM {pak}, round {round}"))
        })
    })
}

/// Room of this length, filled.
pub fn filled(length: usize) -> Box<[u8]> {
    vec![FILLED; length].into_boxed_slice()
}

/// Whether nothing was written into an output buffer.
pub fn is_untouched(output: &[u8]) -> bool {
    output.iter().all(|&byte| byte == FILLED)
}

/// A machine to be saved, or to be filled.
#[derive(Clone, Debug)]
pub struct State {
    pub buffers: Buffers,
    pub processor: Processor,
    pub drawing: DrawingRegisters,
}

impl State {
    /// Any accepted state.
    pub fn random(random: &mut Random, pak: usize) -> State {
        let mut processor = random_processor(random);
        processor.mode = random.pick(&[Mode::Running, Mode::Halted, Mode::Fatal]);
        processor.hardware = random_hardware(random);
        let drawing = random_drawing(random);
        State { buffers: Buffers::random(random, 1_024, pak), processor, drawing }
    }

    /// Any accepted state whose lines and timer are at reset.
    pub fn at_reset(random: &mut Random, pak: usize) -> State {
        let mut state = State::random(random, pak);
        state.processor.hardware = Hardware::default();
        state
    }

    /// Writes with the library into an output buffer of this length.
    pub fn write(&self, form: Form, output: usize) -> (u32, Box<[u8]>) {
        let write = write_by_library(form);
        let mut bytes = filled(output);
        let memories = self.buffers.read_by_library();
        let processor = processor_to_library(&self.processor);
        let number = write(memories, processor, to_library(&self.drawing), &mut bytes);
        assert!(number == 0 || is_untouched(&bytes), "a refused writing has written");
        (number, bytes)
    }

    /// Writes with the model.
    pub fn write_by_model(&self, form: Form, output: usize) -> (u32, Box<[u8]>) {
        let write = match form {
            Form::One => model::saved::write_state,
            Form::Two => model::saved::write_state_2,
        };
        let mut bytes = filled(output);
        let memories = self.buffers.read_by_model();
        let answer = write(&memories, &self.processor, &self.drawing, &mut bytes);
        (answer.err().map_or(0, Refusal::number), bytes)
    }

    /// The file of an accepted state, written on both sides.
    pub fn file(&self, form: Form, what: &str) -> Box<[u8]> {
        let due = file_length(form, self.buffers.pak.len());
        let (number, file) = self.write(form, due);
        assert_eq!(number, 0, "{what}");
        expect_same_bytes("the file", &file, &self.write_by_model(form, due).1, &|| what.into());
        file
    }

    /// Reads a file on both sides into this state and compares; gives the number
    /// and the state afterwards.
    pub fn read(&self, file: &[u8], what: &str) -> (u32, State) {
        let (mut library, mut model) = (self.buffers.clone(), self.clone());
        let restored = vbsys::read_state(
            &mut library.for_library(),
            processor_to_library(&self.processor),
            to_library(&self.drawing),
            file,
        );
        let memories = &mut model.buffers.for_model();
        let answer =
            model::saved::read_state(memories, &mut model.processor, &mut model.drawing, file);
        let expected = vbsys::Restored {
            refusal: answer.err().map_or(0, Refusal::number),
            processor: processor_to_library(&model.processor),
            drawing: to_library(&model.drawing),
        };
        assert_eq!(restored, expected, "{what}");
        library.expect_equal(&model.buffers, &|| what.into());
        if restored.refusal != 0 {
            library.expect_equal(&self.buffers, &|| format!("refused: {what}"));
            assert_eq!(restored.processor, processor_to_library(&self.processor), "{what}");
        }
        (restored.refusal, model)
    }

    /// Writes this state into output buffers of its file's length, one byte less and none, and
    /// reads from as many bytes of the file: no byte outside the caller's buffers is touched,
    /// and what is only read may not be written.
    #[cfg(target_os = "linux")]
    pub fn expect_between_fences(&self, form: Form, side: Side) {
        let file = self.file(form, "between fences");
        let write = write_by_library(form);
        let processor = processor_to_library(&self.processor);
        let drawing = to_library(&self.drawing);
        let saved = FencedMemories::closed(&self.buffers, side);
        let Buffers { rom, wram, vram, pak } = &self.buffers;
        let mut blank = Buffers::zeroed(rom.len(), wram.len(), vram.len(), pak.len());
        blank.rom.copy_from_slice(rom);
        for length in [file.len(), file.len() - 1, 0] {
            let mut output = Fenced::new(&filled(length), side);
            let number = write(saved.read(), processor, drawing, output.bytes_mut());
            assert_eq!(number, if length == file.len() { 0 } else { 9 });
            assert!(if number == 0 {
                *output.bytes() == *file
            } else {
                is_untouched(output.bytes())
            });
            let source = Fenced::closed(&file[..length], side);
            let mut read = FencedMemories::new(&blank, side);
            let restored = vbsys::read_state(&mut read.write(), processor, drawing, source.bytes());
            assert_eq!(restored.refusal, number);
            read.expect_equal(if number == 0 { &self.buffers } else { &blank });
        }
    }

    /// The file of this state, which another machine reads back whole and writes again.
    pub fn expect_kept(&self, form: Form, other: &State, what: &str) -> Box<[u8]> {
        let file = self.file(form, what);
        let (number, read) = other.read(&file, what);
        assert_eq!(number, 0, "{what}");
        read.expect_read(self, what);
        assert!(read.buffers.rom == other.buffers.rom, "ROM is not stored; {what}");
        assert!(read.file(form, what) == file, "written again; {what}");
        file
    }

    /// Rooms and files of these lengths: every one but that of the file itself is
    /// refused by 9, on both sides.
    pub fn expect_lengths(&self, form: Form, lengths: &[usize]) {
        let file = self.file(form, "lengths").into_vec();
        for &length in lengths.iter().chain(&[0, 1, file.len() - 1, file.len(), file.len() + 1]) {
            let number = if length == file.len() { 0 } else { 9 };
            let what = format!("length {length}, pak RAM {}", self.buffers.pak.len());
            let (found, output) = self.write(form, length);
            assert_eq!((found, output.len()), (number, length), "{what}");
            assert_eq!(self.write_by_model(form, length).0, number, "{what}");
            let mut given = file.clone();
            given.resize(length, 0);
            assert_eq!(self.read(&given, &what).0, number, "{what}");
        }
    }

    /// Stops the test where this state was not read back as `saved`.
    pub fn expect_read(&self, saved: &State, what: &str) {
        assert_eq!((self.processor, self.drawing), (saved.processor, saved.drawing), "{what}");
        assert!(self.buffers.wram == saved.buffers.wram, "WRAM; {what}");
        assert!(self.buffers.vram == saved.buffers.vram, "VRAM; {what}");
        assert!(self.buffers.pak == saved.buffers.pak, "pak RAM; {what}");
    }
}

type Write = fn(vbsys::ReadMemories, vbsys::Processor, vbsys::Drawing, &mut [u8]) -> u32;

/// The library's writer of a form.
fn write_by_library(form: Form) -> Write {
    match form {
        Form::One => vbsys::write_state,
        Form::Two => vbsys::write_state_2,
    }
}

/// The sum of a body's bytes.
pub fn sum(body: &[u8]) -> u32 {
    body.iter().fold(0, |sum: u32, &byte| sum.wrapping_add(u32::from(byte)))
}

/// A body of a form 2 file: its kind, where it lies, and where its sum stands, by
/// the request's table.
#[derive(Clone, Copy, Debug, PartialEq, Eq)]
pub struct Body {
    pub kind: u32,
    pub place: usize,
    pub length: usize,
    pub sum_place: usize,
}

impl Body {
    /// Puts the right sum of this body into the file.
    pub fn sum_again(&self, file: &mut [u8]) {
        let sum = sum(&file[self.place..self.place + self.length]);
        file[self.sum_place..self.sum_place + 4].copy_from_slice(&sum.to_le_bytes());
    }
}

/// Where a form 2 file has its bodies.
pub fn bodies(pak: usize) -> Vec<Body> {
    let body = |kind, place, length, sum_place| Body { kind, place, length, sum_place };
    if pak == 0 {
        return vec![
            body(1, 76, 172, 16),
            body(2, 248, 26, 30),
            body(3, 274, 65_536, 44),
            body(4, 65_810, 262_144, 58),
            body(6, 327_954, 8, 72),
        ];
    }
    vec![
        body(1, 90, 172, 16),
        body(2, 262, 26, 30),
        body(3, 288, 65_536, 44),
        body(4, 65_824, 262_144, 58),
        body(5, 327_968, pak, 72),
        body(6, 327_968 + pak, 8, 86),
    ]
}

/// Places and values of the records' fields in their bodies, with whether a writer
/// can make them: each bit alone, none, all, and both sides of each limit.
pub fn field_values() -> Vec<(u32, usize, Vec<u8>, bool)> {
    let single = |bits: u32| (0..bits).map(|bit| 1u32 << bit);
    let mut values = Vec::new();
    for word in 0..43usize {
        for value in single(32).chain([0, 0xFFFF_FFFF, 0x8000_0001, 3]) {
            let legal = match word {
                0 => value == 0,
                32 | 33 | 35 | 39 => value % 2 == 0,
                34 | 36 | 38 => value & !0x000F_F3FF == 0,
                41 => value <= 0x8000_0000,
                42 => value <= 2,
                _ => true,
            };
            values.push((1, 4 * word, value.to_le_bytes().to_vec(), legal));
        }
    }
    for half in 0..13usize {
        let most = [0x3FF, 0xFF, 0xFF, 3][half / 4];
        for value in single(16).chain([0, most, most + 1, 0xFFFF]) {
            values.push((2, 2 * half, (value as u16).to_le_bytes().to_vec(), value <= most));
        }
    }
    for (half, mask) in [0x1F, 0xFFFF, 0xFFFF, 0x1B].into_iter().enumerate() {
        for value in single(16).chain([0, mask, 0x20, 0xFFFF]) {
            let bytes = (value as u16).to_le_bytes().to_vec();
            values.push((6, 2 * half, bytes, value & !mask == 0));
        }
    }
    values
}
