//! Arguments that each call accepts, from which a row of the table changes one.

use crate::calls::{Call, Given};
use difftests::machine::{to_library, Buffers};
use difftests::program::{half, random_processor, ADD_IMMEDIATE, HALT};
use difftests::random::Random;
use difftests::scene::crowded;
use difftests::state::{self, filled, State};
use difftests::twin::processor_to_library;
use model::replay::{record_bytes, record_of};
use model::saved::{file_length, Form};

/// Where the machine's next instruction lies, and that place in WRAM.
pub const PC: u32 = 0x0500_0000;

/// Where a read is meaningless (W2).
const UNDEFINED: u32 = 0x0004_0000;

/// The length of a file.
pub fn due(form: Form, pak: usize) -> usize {
    file_length(form, pak)
}

/// A body of a file of either form.
pub struct Body {
    pub kind: u32,
    pub place: usize,
    summed: Option<state::Body>,
}

impl Body {
    /// Puts a field into the body, a word of kind 1 and a halfword of the others, and
    /// the right sum into the contents.
    pub fn put(&self, file: &mut [u8], number: usize, value: u32) {
        let bytes = value.to_le_bytes();
        let width = if self.kind == 1 { 4 } else { 2 };
        let at = self.place + width * number;
        file[at..at + width].copy_from_slice(&bytes[..width]);
        if let Some(body) = self.summed {
            body.sum_again(file);
        }
    }
}

/// The bodies of a file with so much pak RAM, whatever its form.
pub fn bodies_of(file: &[u8], pak: usize) -> Vec<Body> {
    if file.starts_with(&[0, 0]) {
        let bodies = state::bodies(pak).into_iter();
        return bodies
            .map(|body| Body { kind: body.kind, place: body.place, summed: Some(body) })
            .collect();
    }
    let places = if pak == 0 { [42, 214, 240, 65_776] } else { [52, 224, 250, 65_786] };
    let kinds = places.into_iter().zip(1..);
    kinds.map(|(place, kind)| Body { kind, place, summed: None }).collect()
}

/// Puts an instruction at PC, and a HALT after it, as far as WRAM has these bytes.
pub fn put_instruction(given: &mut Given, instruction: u16) {
    let code = [instruction, HALT, HALT].map(u16::to_le_bytes).concat();
    given.buffers.wram.iter_mut().zip(code).for_each(|(byte, code)| *byte = code);
}

/// The accepted arguments of a call, each with a name: machines in every mode, files
/// of both forms.
pub fn bases(call: Call) -> Vec<(&'static str, Given)> {
    let given = |pak, form, mode| {
        let mut given = Given::accepted(pak, form);
        given.processor.mode = mode;
        given.make_files(call);
        given
    };
    let running = given(8, Form::Two, vbsys::RUNNING);
    match call {
        Call::Step | Call::Run | Call::Replay => {
            let mut bases = vec![
                ("running", running.clone()),
                ("halted", given(8, Form::Two, vbsys::HALTED)),
                ("fatal", given(8, Form::Two, vbsys::FATAL)),
            ];
            if call == Call::Step {
                let mut undefined = running;
                undefined.processor.pc = UNDEFINED;
                bases.push(("at an undefined address", undefined));
            }
            bases
        }
        Call::Bus(_) => {
            let undefined = Given { address: UNDEFINED, ..running.clone() };
            vec![("accepted", running), ("at an undefined address", undefined)]
        }
        Call::ReadState | Call::MoveState => vec![
            ("a file of form 2", given(8, Form::Two, vbsys::RUNNING)),
            ("a file of form 1", given(0, Form::One, vbsys::HALTED)),
        ],
        _ => vec![("accepted", running)],
    }
}

impl Given {
    /// What every call accepts, its files apart.
    fn accepted(pak: usize, form: Form) -> Given {
        let mut random = Random::new(0x11_0001);
        let scene = crowded(&mut random, 12);
        let mut buffers = Buffers::random(&mut random, 1_024, pak);
        buffers.vram.copy_from_slice(&scene.vram);
        // MOV r1, r1 at every place of ROM, so that PC's limits meet modelled instructions
        buffers.rom.chunks_mut(2).for_each(|pair| pair.copy_from_slice(&[0x21, 0]));
        buffers.vram[..2].copy_from_slice(&HALT.to_le_bytes());
        let mut processor = processor_to_library(&random_processor(&mut random));
        (processor.pc, processor.psw) = (PC, 0);
        processor.hardware = vbsys::Hardware::default();
        let access = |address: u32, write: u32| [address, 4, write, 0x1234_5678, 9];
        let list = [access(PC + 8, 0), access(0x0005_F848, 1), access(0x0000_6000, 0)];
        let mut given = Given {
            buffers,
            processor,
            drawing: to_library(&scene.drawing),
            address: 0x0003_8000,
            value: 0x1234_5678,
            budget: 1_000,
            frame: 1,
            strip: 27,
            character: 2_047,
            pixel: [1, 383, 223],
            start: 255,
            durations: [30, 40, 50],
            instruction: vbsys::Instruction::default(),
            halfwords: [0, 0],
            list: list.concat().into_iter().flat_map(u32::to_le_bytes).collect(),
            trace: Vec::new(),
            file: if form == Form::Two { vec![0, 0] } else { vec![1, 0] },
            output: filled(86_016).into_vec(),
            words: vec![0xA5C3_0FF0; 100],
        };
        put_instruction(&mut given, half(ADD_IMMEDIATE, 1, 1));
        given
    }

    /// Files, output and trace as the call wants them with this pak RAM; a file keeps
    /// its form.
    pub fn make_files(&mut self, call: Call) {
        let pak = self.buffers.pak.len();
        let form = if self.file.starts_with(&[0, 0]) { Form::Two } else { Form::One };
        let file = || {
            let mut saved = State::at_reset(&mut Random::new(0x11_0002), pak);
            saved.processor.mode = model::Mode::Fatal;
            saved.write_by_model(form, due(form, pak)).1.into_vec()
        };
        match call {
            Call::WriteState(form) => self.output = filled(due(form, pak)).into_vec(),
            Call::ReadState => self.file = file(),
            Call::MoveState => {
                self.file = file();
                let other = if form == Form::One { Form::Two } else { Form::One };
                self.output = filled(due(other, pak)).into_vec();
            }
            Call::SalvageState => {
                self.file = file();
                self.output = filled(due(form, pak)).into_vec();
            }
            Call::Replay => self.trace = self.records(),
            _ => {}
        }
    }

    /// The trace of up to two steps of the model.
    fn records(&self) -> Vec<u8> {
        let mut machine = self.clone();
        let mut trace = Vec::new();
        for _ in 0..2 {
            let pc = machine.processor.pc;
            let answer = machine.by_model(Call::Step);
            if answer.refusal == 0 && answer.members[0] == u64::from(vbsys::ENDED) {
                let after = crate::calls::processor_to_model(&machine.processor);
                trace.extend(record_bytes(record_of(pc, &after)));
            }
        }
        trace
    }
}
