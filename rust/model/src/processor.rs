//! The processor: its record, step, run and reset. 01 "Instructions";
//! 000 "Register Set", "Exceptions", "Memory and Register", "Jump and Control".

use crate::arithmetic::{self, ID, NP, PSW_BITS};
use crate::bus::{self, DrawingRegisters, Memories};
use crate::exception::{accepted_level, interrupt, raise, Cause};
use crate::floating;
use crate::hardware::Hardware;
use crate::instruction::{
    decode, has_second_half, Decoded, Instruction, Operand, RegisterNumber, Width,
};
use crate::number::sign_extend;
use crate::refusal::{refuse_unless, Refusal};

/// "the machine's mode is running, halted or fatal, inside the same record".
#[derive(Clone, Copy, Debug, Default, PartialEq, Eq)]
pub enum Mode {
    #[default]
    Running,
    Halted,
    Fatal,
}

/// The processor's registers and mode; request lines and timer (W6).
#[derive(Clone, Copy, Debug, Default, PartialEq, Eq)]
pub struct Processor {
    /// General registers; register 0 is 0.
    pub registers: [u32; 32],
    pub pc: u32,
    pub eipc: u32,
    pub eipsw: u32,
    pub fepc: u32,
    pub fepsw: u32,
    pub ecr: u32,
    pub psw: u32,
    /// System register 25, ADTRE: "stored, bit 0 clear, without effect (H)".
    pub adtre: u32,
    pub system29: u32,
    /// The value that system register 31 reads.
    pub system31: u32,
    pub mode: Mode,
    pub hardware: Hardware,
}

impl Processor {
    /// Refusal 5 for the processor's record. "Register 31" is system register
    /// 31; general register 31, ECR and system register 29 are free.
    pub fn check(&self) -> Result<(), Refusal> {
        let even = [self.pc, self.eipc, self.fepc, self.adtre].iter().all(|value| value % 2 == 0);
        let formats = [self.psw, self.eipsw, self.fepsw].iter().all(|value| value & !PSW_BITS == 0);
        let holds = self.registers[0] == 0 && even && formats && self.system31 <= 0x8000_0000;
        refuse_unless(holds, Refusal::Register)?;
        self.hardware.check()
    }

    /// "Register 0 reads 0".
    fn general(&self, number: RegisterNumber) -> u32 {
        self.registers[usize::from(number)]
    }

    /// "and drops writes".
    fn set_general(&mut self, number: RegisterNumber, value: u32) {
        if number != 0 {
            self.registers[usize::from(number)] = value;
        }
    }

    fn operand(&self, operand: Operand) -> u32 {
        match operand {
            Operand::Register(number) => self.general(number),
            Operand::Immediate(value) => value,
        }
    }

    /// What STSR reads. Register 24 isn't modelled and never comes here.
    fn system(&self, number: u8) -> u32 {
        match number {
            0 => self.eipc,
            1 => self.eipsw,
            2 => self.fepc,
            3 => self.fepsw,
            4 => self.ecr,
            5 => self.psw,
            6 => 0x5346,
            7 => 0xE0,
            25 => self.adtre,
            29 => self.system29,
            30 => 4,
            31 => self.system31,
            _ => 0,
        }
    }

    /// What LDSR writes. ECR, PIR, TKCW, 30 and the reserved ones ignore it.
    fn set_system(&mut self, number: u8, value: u32) {
        match number {
            0 => self.eipc = value & !1,
            1 => self.eipsw = value & PSW_BITS,
            2 => self.fepc = value & !1,
            3 => self.fepsw = value & PSW_BITS,
            5 => self.psw = value & PSW_BITS,
            25 => self.adtre = value & !1,
            29 => self.system29 = value,
            31 => self.system31 = (value as i32).unsigned_abs(),
            _ => {}
        }
    }

    /// PC moves past an instruction of `length` bytes; "PC arithmetic wraps".
    fn advance(&mut self, length: u32) {
        self.pc = self.pc.wrapping_add(length);
    }

    /// A jump's target; "bit 0 stays 0".
    fn jump(&mut self, target: u32) {
        self.pc = target & !1;
    }
}

/// What a step did.
#[derive(Clone, Copy, Debug, PartialEq, Eq)]
pub enum StepAnswer {
    /// An instruction ended, HALT among them.
    Ended,
    /// It raised an exception that was entered.
    Trapped(Cause),
    /// It raised an exception with NP set: mode fatal, nothing else changes.
    TurnedFatal(Cause),
    /// An interrupt of this level was accepted.
    Interrupted(u32),
    /// Nothing was done.
    WasHalted,
    /// Nothing was done.
    WasFatal,
}

/// The undefined bytes that a step read (W2): of its first and its second
/// halfword, and of its load, each a mask as [`bus::undefined_bytes`] gives
/// it. A byte that was not read counts as defined.
#[derive(Clone, Copy, Debug, Default, PartialEq, Eq)]
pub struct Undefined {
    pub first: u32,
    pub second: u32,
    pub load: u32,
}

/// What a step did, and what it read.
#[derive(Clone, Copy, Debug, PartialEq, Eq)]
pub struct Stepped {
    pub answer: StepAnswer,
    pub undefined: Undefined,
}

/// What a run did.
#[derive(Clone, Copy, Debug, PartialEq, Eq)]
pub struct Ran {
    /// The instructions that ended.
    pub count: u64,
    /// 1 to 5 before anything, or 6 after `count` instructions.
    pub refusal: Option<Refusal>,
}

/// Fetches and decodes the instruction at PC. The second halfword of one at
/// 0xFFFFFFFE comes from address 0.
fn fetch(memories: &Memories, processor: &Processor, drawing: &DrawingRegisters) -> Decoded {
    let memories = memories.read();
    let half = |address| bus::half_at(&memories, drawing, &processor.hardware, address);
    let first = half(processor.pc);
    let second = if has_second_half(first) { half(processor.pc.wrapping_add(2)) } else { 0 };
    decode(first, second)
}

/// The undefined bytes of the halfwords that [`fetch`] reads.
fn undefined_halfwords(
    memories: &Memories,
    processor: &Processor,
    drawing: &DrawingRegisters,
) -> Undefined {
    let pc = processor.pc;
    let first = bus::half_at(&memories.read(), drawing, &processor.hardware, pc);
    let second =
        if has_second_half(first) { bus::undefined_bytes(pc.wrapping_add(2), 2) } else { 0 };
    Undefined { first: bus::undefined_bytes(pc, 2), second, load: 0 }
}

/// The undefined bytes that an instruction loads; LD and IN alone load.
fn undefined_load(processor: &Processor, instruction: Instruction) -> u32 {
    match instruction {
        Instruction::Load { width, reg1, displacement, .. } => {
            let address = processor.general(reg1).wrapping_add(displacement);
            bus::undefined_bytes(address, width.bytes())
        }
        _ => 0,
    }
}

/// A load's value, extended to 32 bits.
fn load(
    memories: &Memories,
    drawing: &DrawingRegisters,
    hardware: &Hardware,
    width: Width,
    signed: bool,
    address: u32,
) -> u32 {
    let memories = memories.read();
    let (value, bits) = match width {
        Width::Byte => (u32::from(bus::byte_at(&memories, drawing, hardware, address)), 8),
        Width::Half => (u32::from(bus::half_at(&memories, drawing, hardware, address)), 16),
        Width::Word => (bus::word_at(&memories, drawing, hardware, address), 32),
    };
    if signed {
        sign_extend(value, bits) as u32
    } else {
        value
    }
}

/// A store is given the whole source register.
fn store(
    memories: &mut Memories,
    drawing: &mut DrawingRegisters,
    hardware: &mut Hardware,
    width: Width,
    address: u32,
    source: u32,
) {
    match width {
        Width::Byte => bus::put_low_byte(memories, drawing, hardware, address, source),
        Width::Half => bus::put_half(memories, drawing, hardware, address, source as u16),
        Width::Word => bus::put_word(memories, drawing, hardware, address, source),
    }
}

/// An instruction that computes: reg2, r30 and flags, or an exception.
/// "Operands are read before results are written"; r30 is written first, so
/// that reg2 wins where it is r30.
fn operate(processor: &mut Processor, instruction: Instruction) -> Result<(), Cause> {
    let (outcome, reg2) = match instruction {
        Instruction::Operate { operation, reg2, left, right } => {
            let (left, right) = (processor.general(left), processor.operand(right));
            let outcome = arithmetic::operate(operation, left, right);
            (outcome.map_err(|_| Cause::ZeroDivision)?, reg2)
        }
        Instruction::Compare { reg2, right } => {
            (arithmetic::subtract(processor.general(reg2), processor.operand(right)), 0)
        }
        Instruction::Not { reg2, reg1 } => (arithmetic::not(processor.general(reg1)), reg2),
        _ => unreachable!("it computes"),
    };
    processor.psw = outcome.flags(processor.psw);
    if let Some(second) = outcome.second {
        processor.set_general(30, second);
    }
    processor.set_general(reg2, outcome.result);
    Ok(())
}

/// An instruction that sets PC itself.
fn transfer(processor: &mut Processor, instruction: Instruction) {
    let pc = processor.pc;
    match instruction {
        Instruction::Branch { condition, displacement } => {
            let taken = arithmetic::condition_holds(condition, processor.psw);
            processor.jump(pc.wrapping_add(if taken { displacement } else { 2 }));
        }
        Instruction::Jump { reg1 } => processor.jump(processor.general(reg1)),
        Instruction::JumpRelative { displacement } => processor.jump(pc.wrapping_add(displacement)),
        Instruction::JumpAndLink { displacement } => {
            processor.set_general(31, pc.wrapping_add(4));
            processor.jump(pc.wrapping_add(displacement));
        }
        Instruction::ReturnFromException if processor.psw & NP != 0 => {
            processor.pc = processor.fepc;
            processor.psw = processor.fepsw;
        }
        Instruction::ReturnFromException => {
            processor.pc = processor.eipc;
            processor.psw = processor.eipsw;
        }
        _ => unreachable!("it sets PC"),
    }
}

/// Executes one decoded instruction of `length` bytes, or says what it raises.
fn execute(
    memories: &mut Memories,
    processor: &mut Processor,
    drawing: &mut DrawingRegisters,
    instruction: Instruction,
    length: u32,
) -> Result<(), Cause> {
    match instruction {
        Instruction::Branch { .. }
        | Instruction::Jump { .. }
        | Instruction::JumpRelative { .. }
        | Instruction::JumpAndLink { .. }
        | Instruction::ReturnFromException => {
            transfer(processor, instruction);
            return Ok(());
        }
        Instruction::Illegal => return Err(Cause::IllegalOpcode),
        Instruction::Trap { vector } => return Err(Cause::Trap(vector)),
        Instruction::Operate { .. } | Instruction::Compare { .. } | Instruction::Not { .. } => {
            operate(processor, instruction)?
        }
        Instruction::Float { operation, reg2, reg1 } => {
            let (left, right) = (processor.general(reg2), processor.general(reg1));
            let ended = floating::execute(operation, left, right, processor.psw)
                .map_err(Cause::Floating)?;
            processor.psw = ended.psw;
            if let Some(result) = ended.result {
                processor.set_general(reg2, result);
            }
        }
        Instruction::Load { width, signed, reg2, reg1, displacement } => {
            let address = processor.general(reg1).wrapping_add(displacement);
            let value = load(memories, drawing, &processor.hardware, width, signed, address);
            processor.set_general(reg2, value);
        }
        Instruction::Store { width, reg2, reg1, displacement } => {
            let address = processor.general(reg1).wrapping_add(displacement);
            let source = processor.general(reg2);
            store(memories, drawing, &mut processor.hardware, width, address, source);
        }
        _ => set_registers(processor, instruction),
    }
    processor.advance(length);
    Ok(())
}

/// The instructions that change registers or mode alone, without flags.
fn set_registers(processor: &mut Processor, instruction: Instruction) {
    match instruction {
        Instruction::Move { reg2, operand } => {
            processor.set_general(reg2, processor.operand(operand));
        }
        Instruction::AddKeepingFlags { reg2, reg1, immediate } => {
            processor.set_general(reg2, processor.general(reg1).wrapping_add(immediate));
        }
        Instruction::SetFlag { reg2, condition } => {
            let holds = arithmetic::condition_holds(condition, processor.psw);
            processor.set_general(reg2, u32::from(holds));
        }
        Instruction::LoadSystemRegister { reg2, system } => {
            processor.set_system(system, processor.general(reg2));
        }
        Instruction::StoreSystemRegister { reg2, system } => {
            processor.set_general(reg2, processor.system(system));
        }
        Instruction::ExchangeBytes { reg2 } => {
            processor.set_general(reg2, floating::exchange_bytes(processor.general(reg2)));
        }
        Instruction::ExchangeHalfwords { reg2 } => {
            processor.set_general(reg2, floating::exchange_halfwords(processor.general(reg2)));
        }
        Instruction::Reverse { reg2, reg1 } => {
            processor.set_general(reg2, floating::reverse(processor.general(reg1)));
        }
        Instruction::MultiplyHalfword { reg2, reg1 } => {
            let (left, right) = (processor.general(reg2), processor.general(reg1));
            processor.set_general(reg2, floating::multiply_halfword(left, right));
        }
        Instruction::ClearInterruptDisable => processor.psw &= !ID,
        Instruction::SetInterruptDisable => processor.psw |= ID,
        Instruction::Halt => processor.mode = Mode::Halted,
        _ => unreachable!("it changes registers alone"),
    }
}

/// One step of an accepted machine; the only refusal left is 6. W6: "Acceptance
/// is a step of its own, .. and comes before the next instruction is looked at, so
/// it meets no refusal 6."
fn step_accepted(
    memories: &mut Memories,
    processor: &mut Processor,
    drawing: &mut DrawingRegisters,
) -> Result<Stepped, Refusal> {
    let nothing_read = |answer| Stepped { answer, undefined: Undefined::default() };
    if let Some(level) = accepted_level(processor) {
        return Ok(nothing_read(interrupt(processor, level)));
    }
    match processor.mode {
        Mode::Halted => return Ok(nothing_read(StepAnswer::WasHalted)),
        Mode::Fatal => return Ok(nothing_read(StepAnswer::WasFatal)),
        Mode::Running => {}
    }
    let mut undefined = undefined_halfwords(memories, processor, drawing);
    match fetch(memories, processor, drawing) {
        Decoded::NotModelled => Err(Refusal::NotModelled),
        Decoded::Instruction { instruction, length } => {
            undefined.load = undefined_load(processor, instruction);
            let answer = match execute(memories, processor, drawing, instruction, length) {
                Ok(()) => StepAnswer::Ended,
                Err(cause) => raise(processor, cause),
            };
            Ok(Stepped { answer, undefined })
        }
    }
}

/// Refusals 1 to 5 of a step or a run, in every mode and at every budget.
pub fn check(
    memories: &Memories,
    processor: &Processor,
    drawing: &DrawingRegisters,
) -> Result<(), Refusal> {
    memories.read().check()?;
    processor.check()?;
    crate::refusal::check_drawing(drawing)
}

/// One step. A refusal leaves everything as given.
pub fn step(
    memories: &mut Memories,
    processor: &mut Processor,
    drawing: &mut DrawingRegisters,
) -> Result<Stepped, Refusal> {
    check(memories, processor, drawing)?;
    step_accepted(memories, processor, drawing)
}

/// At most `budget` instructions. "HALT itself and a trapped instruction
/// count; a refused one and the step that turns fatal don't." An acceptance counts
/// (W6); "A run stops at halted mode only where nothing is accepted."
pub fn run(
    memories: &mut Memories,
    processor: &mut Processor,
    drawing: &mut DrawingRegisters,
    budget: u64,
) -> Ran {
    if let Err(refusal) = check(memories, processor, drawing) {
        return Ran { count: 0, refusal: Some(refusal) };
    }
    let mut count = 0;
    while count < budget {
        match step_accepted(memories, processor, drawing).map(|stepped| stepped.answer) {
            Ok(StepAnswer::Ended | StepAnswer::Trapped(_) | StepAnswer::Interrupted(_)) => {
                count += 1;
            }
            Ok(_) => break,
            Err(refusal) => return Ran { count, refusal: Some(refusal) },
        }
    }
    Ran { count, refusal: None }
}

/// 01: "PC 0xFFFFFFF0, ECR 0xFFF0, PSW 0x8000, all else 0 (H), running"; W6:
/// "Lines and timer reset to 0 (H)".
/// No memory is touched.
pub fn reset() -> (Processor, DrawingRegisters) {
    let processor = Processor { pc: 0xFFFF_FFF0, ecr: 0xFFF0, psw: 0x8000, ..Processor::default() };
    (processor, DrawingRegisters::default())
}
