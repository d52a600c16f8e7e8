//! Exceptions, interrupts, system registers, jumps and the timer.

use vb::{op, Answer, Cause, Mode, Processor};

use super::table::{names, numbers, Table};
use super::Step;

const ID: u32 = 1 << 12;
const EP: u32 = 1 << 14;
const NP: u32 = 1 << 15;
/// PSW's bits.
const PSW_BITS: [u32; 18] = [0, 1, 2, 3, 4, 5, 6, 7, 8, 9, 12, 13, 14, 15, 16, 17, 18, 19];
const LINES: [&str; 5] = ["pad", "timer", "game pak", "link", "VIP"];

pub struct Control {
    exceptions: Table,
    traps: Table,
    interrupts: Table,
    masked: Table,
    halt: Table,
    reti: Table,
    ldsr: Table,
    stsr: Table,
    psw: Table,
    jumps: Table,
    timer: Table,
    timer_bits: Table,
}

fn cause_number(cause: Cause) -> usize {
    match cause {
        Cause::ZeroDivisor => 0,
        Cause::Illegal => 1,
        Cause::Trap(vector) => 2 + usize::from(vector >= 16),
        Cause::FloatReserved => 4,
        Cause::FloatInvalid => 5,
        Cause::FloatZeroDivide => 6,
        Cause::FloatOverflow => 7,
    }
}

impl Control {
    pub fn new() -> Control {
        let causes = names(&[
            "zero divisor",
            "illegal",
            "TRAP below 16",
            "TRAP from 16 on",
            "float reserved",
            "float invalid",
            "float zero divide",
            "float overflow",
        ]);
        let entries = names(&["plain", "with EP set, duplexed", "with NP set, fatal"]);
        let reasons = names(&["by I", "by ID", "by EP", "by NP"]);
        let lines = || names(&LINES);
        let values = |word: &str| names(&[&format!("{word} 0"), &format!("{word} 1")]);
        let bits = PSW_BITS.iter().flat_map(|n| [format!("bit {n} is 0"), format!("bit {n} is 1")]);
        let counts = (0..16).flat_map(|n| [format!("bit {n} is 0"), format!("bit {n} is 1")]);
        let registers = || numbers("register ", 32);
        let table = Table::new;
        let sources = names(&["Bcond taken", "JR", "JAL", "JMP"]);
        let ways = names(&["forwards", "backwards", "to itself"]);
        Control {
            exceptions: table("exceptions", vec![causes, entries]),
            traps: table("TRAP vectors", vec![numbers("vector ", 32)]),
            interrupts: table("interrupts", vec![lines(), names(&["running", "halted"])]),
            masked: table("interrupts that are masked", vec![lines(), reasons]),
            halt: table("HALT", vec![names(&["with I below 16 and ID clear", "with ID set"])]),
            reti: table("RETI", vec![names(&["with NP clear", "with NP set"])]),
            ldsr: table("LDSR", vec![registers()]).without(|place| place[0] == 24),
            stsr: table("STSR", vec![registers()]).without(|place| place[0] == 24),
            psw: table("PSW bits", vec![bits.collect()]),
            // a loop without end is a branch
            jumps: table("jumps", vec![sources, ways])
                .without(|place| place[1] == 2 && place[0] > 0),
            timer: table(
                "timer states",
                vec![values("Z-Stat"), values("T-Enb"), values("Tim-Z-Int"), values("count not 0")],
            ),
            timer_bits: table("timer count bits", vec![counts.collect()]),
        }
    }

    pub fn step(&mut self, step: &Step) {
        let (before, after) = (step.before, step.after);
        match *step.answer {
            Answer::Trapped(cause) => {
                let duplexed = usize::from(before.psw & EP != 0);
                self.exceptions.mark(&[cause_number(cause), duplexed]);
                self.trap(cause);
            }
            Answer::TurnedFatal(cause) => self.exceptions.mark(&[cause_number(cause), 2]),
            Answer::Interrupted(level) => {
                let halted = usize::from(before.mode == Mode::Halted);
                self.interrupts.mark(&[usize::from(level), halted]);
            }
            _ => self.mask(before),
        }
        for (n, &bit) in PSW_BITS.iter().enumerate() {
            self.psw.mark(&[2 * n + (after.psw >> bit & 1) as usize]);
        }
        self.timer(after);
        self.instruction(step);
    }

    fn trap(&mut self, cause: Cause) {
        if let Cause::Trap(vector) = cause {
            self.traps.mark(&[usize::from(vector)]);
        }
    }

    /// Why the highest line that is raised is not accepted.
    fn mask(&mut self, before: &Processor) {
        let lines = u32::from(before.hardware.lines);
        if lines == 0 {
            return;
        }
        let level = 31 - lines.leading_zeros();
        let reasons = [
            level < before.psw >> 16 & 15,
            before.psw & ID != 0,
            before.psw & EP != 0,
            before.psw & NP != 0,
        ];
        for (n, _) in reasons.iter().enumerate().filter(|(_, reason)| **reason) {
            self.masked.mark(&[level as usize, n]);
        }
    }

    fn timer(&mut self, after: &Processor) {
        let (control, count) = (after.hardware.control, after.hardware.count);
        let bit = |n: u16| usize::from(control >> n & 1);
        self.timer.mark(&[bit(1), bit(0), bit(3), usize::from(count != 0)]);
        for n in 0..16 {
            self.timer_bits.mark(&[2 * n + usize::from(count >> n & 1)]);
        }
    }

    fn instruction(&mut self, step: &Step) {
        let Some(instruction) = &step.instruction else { return };
        let number = instruction.immediate as usize & 31;
        let (from, to) = (step.before.pc, step.after.pc);
        let way = match to.wrapping_sub(from) as i32 {
            0 => 2,
            distance => usize::from(distance < 0),
        };
        match instruction.operation {
            op::LDSR => self.ldsr.mark(&[number]),
            op::STSR => self.stsr.mark(&[number]),
            op::RETI => self.reti.mark(&[usize::from(step.before.psw & NP != 0)]),
            op::HALT => self.halt.mark(&[usize::from(step.before.psw & ID != 0)]),
            op::BCOND if to != from.wrapping_add(2) => self.jumps.mark(&[0, way]),
            op::JR => self.jumps.mark(&[1, way]),
            op::JAL => self.jumps.mark(&[2, way]),
            op::JMP => self.jumps.mark(&[3, way]),
            _ => {}
        }
    }

    pub fn tables(&self) -> Vec<Table> {
        let all = [
            &self.exceptions,
            &self.traps,
            &self.interrupts,
            &self.masked,
            &self.halt,
            &self.reti,
            &self.ldsr,
            &self.stsr,
            &self.psw,
            &self.jumps,
            &self.timer,
            &self.timer_bits,
        ];
        all.into_iter().cloned().collect()
    }
}
