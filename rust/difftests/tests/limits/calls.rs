//! Every call of vb.h that can refuse, with all its arguments in one record, made by
//! the library and by the model.

use difftests::access::{self, Call as Access};
use difftests::machine::{
    hardware_to_library, hardware_to_model, to_library, to_model, Buffers, Registers,
};
use difftests::twin::{
    answer_to_library, ending_to_library, processor_to_library, undefined_to_library,
};
use model::boundary;
use model::encoding::Fields;
use model::instruction::Width;
use model::probe::ProbeMemories;
use model::saved::Form;
use model::Refusal;

/// A call of vb.h; only `vb_reset` never refuses.
#[derive(Clone, Copy, Debug, PartialEq, Eq)]
pub enum Call {
    Bus(Access),
    Step,
    Run,
    Tick,
    DrawStrip,
    DrawFrame,
    Character,
    PixelBytes,
    WriteState(Form),
    ReadState,
    MoveState,
    SalvageState,
    Display,
    LoadColumnTable,
    Probe(Width),
    Encode,
    Decode,
    AccessList,
    Replay,
}

/// Every argument that a call can have; each call takes its own of them, and the
/// others stay as they are.
#[derive(Clone, Debug, PartialEq, Eq)]
pub struct Given {
    pub buffers: Buffers,
    /// The bus calls and the tick take its lines and timer.
    pub processor: vbsys::Processor,
    pub drawing: vbsys::Drawing,
    pub address: u32,
    pub value: u32,
    pub budget: u64,
    pub frame: u32,
    pub strip: u32,
    pub character: u32,
    /// Eye, x and y.
    pub pixel: [u32; 3],
    pub start: u32,
    pub durations: [u8; 3],
    pub instruction: vbsys::Instruction,
    pub halfwords: [u16; 2],
    pub list: Vec<u8>,
    pub trace: Vec<u8>,
    pub file: Vec<u8>,
    pub output: Vec<u8>,
    pub words: Vec<u32>,
}

/// What a call answers beside the records and buffers: the refusal and its other
/// members, in the order of vb.h.
#[derive(Clone, Debug, Default, PartialEq, Eq)]
pub struct Answer {
    pub refusal: u32,
    pub members: Vec<u64>,
}

impl Answer {
    fn new(refusal: u32, members: impl IntoIterator<Item = impl Into<u64>>) -> Answer {
        Answer { refusal, members: members.into_iter().map(Into::into).collect() }
    }

    /// A call whose answer is the refusal and nothing else.
    fn number(refusal: u32) -> Answer {
        Answer { refusal, members: Vec::new() }
    }
}

/// The arguments whose type vb.h shares with the model.
fn fields(instruction: vbsys::Instruction) -> Fields {
    let vbsys::Instruction { operation, reg1, reg2, condition, immediate } = instruction;
    Fields { operation, reg1, reg2, condition, immediate }
}

/// The processor's record as the model has it, which leaves its mode's number out.
pub fn processor_to_model(processor: &vbsys::Processor) -> model::Processor {
    model::Processor {
        registers: processor.regs,
        pc: processor.pc,
        eipc: processor.eipc,
        eipsw: processor.eipsw,
        fepc: processor.fepc,
        fepsw: processor.fepsw,
        ecr: processor.ecr,
        psw: processor.psw,
        adtre: processor.sr25,
        system29: processor.sr29,
        system31: processor.sr31,
        mode: model::Mode::Running,
        hardware: hardware_to_model(&processor.hardware),
    }
}

/// The answer of a call that gives a number alone.
fn numbered(answer: Result<(), u32>) -> Answer {
    Answer::number(answer.err().unwrap_or(0))
}

fn number(answer: Result<(), Refusal>) -> u32 {
    answer.err().map_or(0, Refusal::number)
}

impl Given {
    /// The call made by the library.
    pub fn by_library(&mut self, call: Call) -> Answer {
        let Given { drawing, address, value, .. } = *self;
        let hardware = self.processor.hardware;
        match call {
            Call::Bus(access) => self.bus(access, true),
            Call::Step | Call::Run | Call::Replay => self.steps_by_library(call),
            Call::Tick => {
                let done = vbsys::tick(hardware);
                self.processor.hardware = done.hardware;
                Answer::number(done.refusal)
            }
            Call::AccessList => {
                let memories = &mut self.buffers.for_library();
                let done = vbsys::access_bytes(memories, drawing, hardware, &mut self.list);
                (self.drawing, self.processor.hardware) = (done.drawing, done.hardware);
                Answer::number(done.refusal)
            }
            Call::Probe(width) => {
                let Buffers { rom, wram, vram, pak } = &mut self.buffers;
                let memories = &mut vbsys::ProbeMemories { rom, wram, vram, pak };
                let probe = match width {
                    Width::Byte => vbsys::probe_byte,
                    Width::Half => vbsys::probe_half,
                    Width::Word => vbsys::probe_word,
                };
                Answer::number(probe(memories, address, value))
            }
            Call::Encode | Call::Decode => self.instruction_by_library(call),
            Call::WriteState(_) | Call::ReadState | Call::MoveState | Call::SalvageState => {
                self.state_by_library(call)
            }
            _ => self.draw_by_library(call),
        }
    }

    fn steps_by_library(&mut self, call: Call) -> Answer {
        let Given { processor, drawing, budget, .. } = *self;
        let memories = &mut self.buffers.for_library();
        let (answer, records) = match call {
            Call::Step => {
                let done = vbsys::step(memories, processor, drawing);
                let vbsys::Undefined { first, second, load } = done.undefined;
                let members = [done.answer, done.code, first, second, load];
                (Answer::new(done.refusal, members), (done.processor, done.drawing))
            }
            Call::Run => {
                let done = vbsys::run(memories, processor, drawing, budget);
                (Answer::new(done.refusal, [done.count]), (done.processor, done.drawing))
            }
            _ => {
                let done = vbsys::replay(memories, processor, drawing, &self.trace);
                let members = [u64::from(done.answer), done.agreed, u64::from(done.word)];
                (Answer::new(done.refusal, members), (done.processor, done.drawing))
            }
        };
        (self.processor, self.drawing) = records;
        answer
    }

    fn instruction_by_library(&self, call: Call) -> Answer {
        if call == Call::Encode {
            let done = vbsys::encode(self.instruction);
            let halfwords = [done.first, done.second].map(u32::from);
            return Answer::new(done.refusal, [done.halfwords, halfwords[0], halfwords[1]]);
        }
        let done = vbsys::decode(self.halfwords[0], self.halfwords[1]);
        let Fields { operation, reg1, reg2, condition, immediate } = fields(done.instruction);
        let members = [done.halfwords, operation, reg1, reg2, condition, immediate];
        Answer::new(done.refusal, members)
    }

    /// A load or a store, by the library or by the model.
    fn bus(&mut self, access: Access, library: bool) -> Answer {
        let registers = Registers {
            drawing: to_model(&self.drawing),
            hardware: hardware_to_model(&self.processor.hardware),
        };
        let Given { address, value, .. } = *self;
        let done = match library {
            true => access::by_library(access, &mut self.buffers, registers, address, value),
            false => access::by_model(access, &mut self.buffers, registers, address, value),
        };
        self.drawing = to_library(&done.drawing);
        self.processor.hardware = hardware_to_library(&done.hardware);
        Answer::new(done.refusal, [done.value, done.undefined])
    }

    fn state_by_library(&mut self, call: Call) -> Answer {
        let Given { processor, drawing, .. } = *self;
        let read = self.buffers.read_by_library();
        match call {
            Call::WriteState(Form::One) => {
                Answer::number(vbsys::write_state(read, processor, drawing, &mut self.output))
            }
            Call::WriteState(Form::Two) => {
                Answer::number(vbsys::write_state_2(read, processor, drawing, &mut self.output))
            }
            Call::ReadState => {
                let memories = &mut self.buffers.for_library();
                let done = vbsys::read_state(memories, processor, drawing, &self.file);
                (self.processor, self.drawing) = (done.processor, done.drawing);
                Answer::number(done.refusal)
            }
            Call::MoveState => Answer::number(vbsys::move_state(&self.file, &mut self.output)),
            _ => {
                let done = vbsys::salvage_state(&self.file, &mut self.output);
                let kinds = done.kinds.into_iter();
                let members =
                    [done.replaced].into_iter().chain(kinds).chain([done.contents_differ]);
                Answer::new(done.refusal, members)
            }
        }
    }

    fn draw_by_library(&mut self, call: Call) -> Answer {
        let (drawing, vram) = (self.drawing, &mut self.buffers.vram);
        let [eye, x, y] = self.pixel;
        match call {
            Call::DrawStrip => {
                Answer::number(vbsys::draw_strip(vram, drawing, self.frame, self.strip))
            }
            Call::DrawFrame => Answer::number(vbsys::draw_frame(vram, drawing, self.frame)),
            Call::Character => {
                let part = vbsys::character(vram, self.character);
                Answer::new(part.refusal, [part.offset, part.length])
            }
            Call::PixelBytes => {
                let listed = vbsys::pixel_bytes(vram, drawing, eye, x, y, &mut self.words);
                Answer::new(listed.refusal, [listed.count])
            }
            Call::Display => {
                let (frame, start, output) = (self.frame, self.start, &mut self.output);
                Answer::number(vbsys::display(vram, frame, eye, start, self.durations, output))
            }
            _ => Answer::number(vbsys::load_column_table(vram)),
        }
    }

    /// The same call made by the model.
    pub fn by_model(&mut self, call: Call) -> Answer {
        match call {
            Call::Bus(access) => self.bus(access, false),
            Call::Step
            | Call::Run
            | Call::Replay
            | Call::ReadState
            | Call::Tick
            | Call::AccessList => self.changes_by_model(call),
            Call::Encode | Call::Decode => self.instruction_by_model(call),
            Call::WriteState(_) | Call::MoveState | Call::SalvageState => self.file_by_model(call),
            Call::Probe(width) => {
                let Buffers { rom, wram, vram, pak } = &mut self.buffers;
                let memories = &mut ProbeMemories { rom, wram, vram, pak };
                let done = model::probe::probe(memories, width, self.address, self.value);
                Answer::number(number(done))
            }
            _ => self.draw_by_model(call),
        }
    }

    /// The calls that give records back.
    fn changes_by_model(&mut self, call: Call) -> Answer {
        let mut processor = processor_to_model(&self.processor);
        let (mode, mut drawing) = (self.processor.mode, to_model(&self.drawing));
        let memories = &mut self.buffers.for_model();
        let (p, d) = (&mut processor, &mut drawing);
        let answer = match call {
            Call::Step => {
                let done = boundary::step(memories, p, mode, d);
                let (answer, code) = answer_to_library(&done);
                let vbsys::Undefined { first, second, load } = undefined_to_library(&done);
                Answer::new(done.err().unwrap_or(0), [answer, code, first, second, load])
            }
            Call::Run => {
                let (refusal, count) = boundary::run(memories, p, mode, d, self.budget);
                Answer::new(refusal, [count])
            }
            Call::Replay => match boundary::replay(memories, p, mode, d, &self.trace) {
                Err(refusal) => Answer::new(refusal, [0u64; 3]),
                Ok(done) => {
                    let (refusal, answer, word) = ending_to_library(done.ending);
                    Answer::new(refusal, [u64::from(answer), done.agreed, u64::from(word)])
                }
            },
            Call::ReadState => numbered(boundary::read_state(memories, p, mode, d, &self.file)),
            Call::Tick => Answer::number(number(model::hardware::tick(&mut p.hardware))),
            _ => numbered(boundary::access_list(memories, d, &mut p.hardware, &mut self.list)),
        };
        // a refusal gives the records back; 6 keeps what the steps before it did
        if matches!(answer.refusal, 0 | 6) {
            self.processor = processor_to_library(&processor);
            self.drawing = to_library(&drawing);
            if matches!(call, Call::Tick | Call::AccessList) {
                self.processor.mode = mode;
            }
        }
        answer
    }

    fn file_by_model(&mut self, call: Call) -> Answer {
        let (file, output) = (&self.file, &mut self.output);
        match call {
            Call::WriteState(form) => {
                let mut processor = processor_to_model(&self.processor);
                let (mode, drawing) = (self.processor.mode, &to_model(&self.drawing));
                let (read, p) = (&self.buffers.read_by_model(), &mut processor);
                numbered(boundary::write_state(form, read, p, mode, drawing, output))
            }
            Call::MoveState => Answer::number(number(model::saved::move_state(file, output))),
            _ => {
                let done = model::salvage::salvage_state(file, output);
                let refusal = done.as_ref().err().map_or(0, |refusal| refusal.number());
                let done = done.unwrap_or_default();
                let mut kinds = [0u64; 6];
                for (place, kind) in kinds.iter_mut().zip(&done.replaced) {
                    *place = u64::from(*kind);
                }
                let (count, differ) = (done.replaced.len() as u64, u64::from(done.contents_differ));
                Answer::new(refusal, [count].into_iter().chain(kinds).chain([differ]))
            }
        }
    }

    fn instruction_by_model(&self, call: Call) -> Answer {
        if call == Call::Encode {
            return match model::encoding::encode(&fields(self.instruction)) {
                Err(refusal) => Answer::new(refusal.number(), [0u64; 3]),
                Ok(done) => {
                    Answer::new(0, [done.count, u32::from(done.first), u32::from(done.second)])
                }
            };
        }
        match model::encoding::decode(self.halfwords[0], self.halfwords[1]) {
            Err(refusal) => Answer::new(refusal.number(), [0u64; 6]),
            Ok((count, x)) => {
                Answer::new(0, [count, x.operation, x.reg1, x.reg2, x.condition, x.immediate])
            }
        }
    }

    fn draw_by_model(&mut self, call: Call) -> Answer {
        let (drawing, vram) = (&to_model(&self.drawing), &mut self.buffers.vram);
        let eye = self.pixel[0];
        match call {
            Call::DrawStrip => {
                let done = model::drawing::draw_strip(vram, drawing, self.frame, self.strip);
                Answer::number(number(done))
            }
            Call::DrawFrame => {
                Answer::number(number(model::drawing::draw_frame(vram, drawing, self.frame)))
            }
            Call::Character => match model::character::character(vram, self.character) {
                Err(refusal) => Answer::new(refusal.number(), [0u64; 2]),
                Ok(part) => {
                    let offset = model::character::character_address(self.character);
                    Answer::new(0, [offset as u64, part.len() as u64])
                }
            },
            Call::PixelBytes => {
                match boundary::pixel_bytes(vram, drawing, self.pixel, &mut self.words) {
                    Err(refusal) => Answer::new(refusal, [0u64]),
                    Ok(count) => Answer::new(0, [count]),
                }
            }
            Call::Display => {
                let (frame, start, output) = (self.frame, self.start, &mut self.output);
                let durations = self.durations;
                let done = model::display::display(vram, frame, eye, start, durations, output);
                Answer::number(number(done))
            }
            _ => Answer::number(number(model::display::load_column_table(vram))),
        }
    }
}
