//! A whole machine held twice, stepped and run by the library and the model.

use crate::machine::{hardware_to_library, to_library, Buffers};
use model::bus::{place_of, Place};
use model::exception::interrupt_code;
use model::replay::Ending;
use model::{DrawingRegisters, Mode, Processor, Refusal, StepAnswer, Stepped, Undefined};

/// Two sets of memories, and the records that both sides are given.
#[derive(Clone, Debug)]
pub struct Twin {
    pub library: Buffers,
    pub model: Buffers,
    pub processor: Processor,
    pub drawing: DrawingRegisters,
}

/// The processor's record as the library has it.
pub fn processor_to_library(processor: &Processor) -> vbsys::Processor {
    vbsys::Processor {
        regs: processor.registers,
        pc: processor.pc,
        eipc: processor.eipc,
        eipsw: processor.eipsw,
        fepc: processor.fepc,
        fepsw: processor.fepsw,
        ecr: processor.ecr,
        psw: processor.psw,
        sr25: processor.adtre,
        sr29: processor.system29,
        sr31: processor.system31,
        mode: match processor.mode {
            Mode::Running => vbsys::RUNNING,
            Mode::Halted => vbsys::HALTED,
            Mode::Fatal => vbsys::FATAL,
        },
        hardware: hardware_to_library(&processor.hardware),
    }
}

/// A step's answer and exception code, as vb.h numbers them; 0 where refused.
pub fn answer_to_library<E: Copy>(stepped: &Result<Stepped, E>) -> (u32, u32) {
    match stepped.map(|stepped| stepped.answer) {
        Err(_) | Ok(StepAnswer::Ended) => (vbsys::ENDED, 0),
        Ok(StepAnswer::Trapped(cause)) => (vbsys::TRAPPED, cause.code()),
        Ok(StepAnswer::TurnedFatal(cause)) => (vbsys::TURNED_FATAL, cause.code()),
        Ok(StepAnswer::Interrupted(level)) => (vbsys::INTERRUPTED, interrupt_code(level)),
        Ok(StepAnswer::WasHalted) => (vbsys::WAS_HALTED, 0),
        Ok(StepAnswer::WasFatal) => (vbsys::WAS_FATAL, 0),
    }
}

/// What a step read that is undefined; nothing where refused.
pub fn undefined_to_library<E: Copy>(stepped: &Result<Stepped, E>) -> vbsys::Undefined {
    let Undefined { first, second, load } =
        stepped.map_or(Undefined::default(), |stepped| stepped.undefined);
    vbsys::Undefined { first, second, load }
}

/// The model's answer to a replay as vb.h numbers it: refusal, answer, word.
pub fn ending_to_library(ending: Ending) -> (u32, u32, u32) {
    match ending {
        Ending::Refused(refusal) => (refusal.number(), vbsys::REPLAY_REFUSED, 0),
        Ending::Agreed => (0, vbsys::REPLAY_AGREED, 0),
        Ending::Differed(word) => (0, vbsys::REPLAY_DIFFERED, word),
        Ending::WasHalted => (0, vbsys::REPLAY_WAS_HALTED, 0),
        Ending::WasFatal => (0, vbsys::REPLAY_WAS_FATAL, 0),
        Ending::TurnedFatal => (0, vbsys::REPLAY_TURNED_FATAL, 0),
    }
}

impl Twin {
    pub fn new(buffers: Buffers, processor: Processor, drawing: DrawingRegisters) -> Twin {
        Twin { library: buffers.clone(), model: buffers, processor, drawing }
    }

    /// Steps both and compares answer and records.
    pub fn step(&mut self, what: &dyn Fn() -> String) -> Result<StepAnswer, Refusal> {
        self.step_watched(what).map(|stepped| stepped.answer)
    }

    /// The same; gives also what the step read that is undefined.
    pub fn step_watched(&mut self, what: &dyn Fn() -> String) -> Result<Stepped, Refusal> {
        let (before, registers) = (self.processor, self.drawing);
        let library = vbsys::step(
            &mut self.library.for_library(),
            processor_to_library(&before),
            to_library(&registers),
        );
        let stepped = model::processor::step(
            &mut self.model.for_model(),
            &mut self.processor,
            &mut self.drawing,
        );
        let (answer, code) = answer_to_library(&stepped);
        let expected = vbsys::Stepped {
            refusal: stepped.err().map_or(0, Refusal::number),
            answer,
            code,
            undefined: undefined_to_library(&stepped),
            processor: processor_to_library(&self.processor),
            drawing: to_library(&self.drawing),
        };
        if library != expected {
            panic!(
                "a step from {before:X?} with {registers:X?}:\nthe library answers \
                 {library:X?},\nthe model {expected:X?};\n{}",
                what()
            );
        }
        stepped
    }

    /// Runs both and compares count, refusal and records.
    pub fn run(&mut self, budget: u64, what: &dyn Fn() -> String) -> model::Ran {
        let (before, registers) = (self.processor, self.drawing);
        let library = vbsys::run(
            &mut self.library.for_library(),
            processor_to_library(&before),
            to_library(&registers),
            budget,
        );
        let ran = model::processor::run(
            &mut self.model.for_model(),
            &mut self.processor,
            &mut self.drawing,
            budget,
        );
        let expected = vbsys::Ran {
            refusal: ran.refusal.map_or(0, Refusal::number),
            count: ran.count,
            processor: processor_to_library(&self.processor),
            drawing: to_library(&self.drawing),
        };
        if library != expected {
            panic!(
                "a run of {budget} from {before:X?} with {registers:X?}:\nthe library answers \
                 {library:X?},\nthe model {expected:X?};\n{}",
                what()
            );
        }
        ran
    }

    /// Stops the test at the first byte of any memory that differs.
    pub fn expect_equal(&self, what: &dyn Fn() -> String) {
        self.library.expect_equal(&self.model, what);
    }

    /// Puts a halfword into both memories, ROM among them, where `address`
    /// is a byte of memory.
    pub fn put_half(&mut self, address: u32, half: u16) {
        for (n, byte) in half.to_le_bytes().into_iter().enumerate() {
            let address = address.wrapping_add(n as u32);
            for buffers in [&mut self.library, &mut self.model] {
                match place_of(address, buffers.rom.len(), buffers.pak.len()) {
                    Place::Rom(at) => buffers.rom[at] = byte,
                    Place::Wram(at) => buffers.wram[at] = byte,
                    Place::Vram(at) => buffers.vram[at] = byte,
                    Place::Pak(Some(at)) => buffers.pak[at] = byte,
                    _ => {}
                }
            }
        }
    }

    /// Puts halfwords one after the other.
    pub fn put_code(&mut self, address: u32, code: &[u16]) {
        for (n, &half) in code.iter().enumerate() {
            self.put_half(address.wrapping_add(2 * n as u32), half);
        }
    }
}
