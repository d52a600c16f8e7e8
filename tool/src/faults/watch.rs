//! The reference's run watched: when each quantity first has each bit value. A fault acts from there on, and not before.

use vb::op;
use vbsys::Processor;

use super::die::{load_of, reads, store_of, writes_reg2, Did, Next};
use super::quantities::{
    added, carries, entered, holds, Access, Cell, Quantity, ALL, FIELDS, HARDWARE, LINE_CHANGED,
    SYSTEM, TICKED,
};

/// From when on a fault can act.
#[derive(Clone, Copy, Debug, PartialEq, Eq)]
pub enum Trigger {
    /// From the first step on.
    Start,
    /// Where a quantity's bit has this value.
    Bit(Quantity, u8, bool),
    /// Where one of these operations is executed.
    Ops(&'static [u32]),
    Op(u32),
}

/// The first step at which each bit had each value; `NEVER` where it had not.
#[derive(Clone)]
struct Seen {
    zeros: u32,
    ones: u32,
    first: [u64; 64],
}

pub const NEVER: u64 = u64::MAX;

impl Seen {
    fn see(&mut self, value: u32, mask: u32, now: u64) {
        let (ones, zeros) = (value & mask & !self.ones, !value & mask & !self.zeros);
        if ones | zeros != 0 {
            self.note(ones, zeros, now);
        }
    }

    #[cold]
    fn note(&mut self, ones: u32, zeros: u32, now: u64) {
        for bit in 0..32 {
            for (value, new) in [(0, zeros), (1, ones)] {
                if new >> bit & 1 == 1 {
                    self.first[2 * bit + value] = now;
                }
            }
        }
        (self.ones, self.zeros) = (self.ones | ones, self.zeros | zeros);
    }
}

pub struct Watch {
    seen: Vec<Seen>,
    ops: [u64; 256],
}

impl Default for Watch {
    fn default() -> Watch {
        let seen = Seen { zeros: 0, ones: 0, first: [NEVER; 64] };
        Watch { seen: vec![seen; ALL], ops: [NEVER; 256] }
    }
}

impl Watch {
    /// The step from which on a fault with this trigger can act; none where it never does.
    pub fn first(&self, trigger: Trigger) -> Option<u64> {
        let first = match trigger {
            Trigger::Start => 0,
            Trigger::Bit(quantity, bit, value) => {
                self.seen[quantity.index()].first[2 * usize::from(bit) + usize::from(value)]
            }
            Trigger::Op(op) => self.ops[op as usize],
            Trigger::Ops(all) => all.iter().map(|op| self.ops[*op as usize]).min().unwrap_or(NEVER),
        };
        (first != NEVER).then_some(first)
    }

    pub fn see(&mut self, quantity: Quantity, value: u32, mask: u32, now: u64) {
        self.seen[quantity.index()].see(value, mask, now);
    }

    fn cell(&mut self, cell: Cell, processor: &Processor, now: u64) {
        let value = cell.of(processor);
        self.see(Quantity::Cell(cell), value, u32::MAX, now);
        if let Cell::Register(n) = cell {
            self.see(Quantity::Neighbours(n), value ^ value >> 1, 0x7FFF_FFFF, now);
        }
    }

    /// All that is held, before the first step.
    pub fn start(&mut self, processor: &Processor) {
        (1..32).for_each(|n| self.cell(Cell::Register(n), processor, 0));
        let others = SYSTEM.iter().chain(&HARDWARE).chain(&[Cell::Pc, Cell::Psw]);
        others.for_each(|cell| self.cell(*cell, processor, 0));
    }

    /// What the bench did: it counts from the step before it on, so that a fault is there when it happens.
    pub fn event(&mut self, tick: bool, processor: &Processor, now: u64) {
        let now = now.saturating_sub(1);
        HARDWARE.iter().for_each(|cell| self.cell(*cell, processor, now));
        let bit = if tick { TICKED } else { LINE_CHANGED };
        self.see(Quantity::Entered, 1 << bit, 1 << bit, now);
    }

    /// A step, the first one being 0.
    pub fn step(
        &mut self,
        now: u64,
        before: &Processor,
        next: Option<&Next>,
        did: Did,
        after: &Processor,
    ) {
        self.cell(Cell::Pc, after, now);
        self.cell(Cell::Psw, after, now);
        if before.hardware != after.hardware {
            HARDWARE.iter().for_each(|cell| self.cell(*cell, after, now));
        }
        match did {
            Did::Trapped(_) | Did::Interrupted(_) | Did::Fatal => {
                SYSTEM.iter().for_each(|cell| self.cell(*cell, after, now));
                let entered = entered(did, before);
                self.see(Quantity::Entered, entered, entered, now);
            }
            _ => {}
        }
        if let Some(next) = next {
            self.instruction(now, before, next, did, after);
        }
    }

    fn instruction(
        &mut self,
        now: u64,
        before: &Processor,
        next: &Next,
        did: Did,
        after: &Processor,
    ) {
        let op = next.op();
        let place = &mut self.ops[op as usize];
        *place = (*place).min(now);
        self.fetched(now, before, next);
        self.operands(now, before, next);
        if did != Did::Ended {
            return;
        }
        if writes_reg2(op) && next.instruction.reg2 != 0 {
            let register = next.instruction.reg2;
            self.cell(Cell::Register(register), after, now);
            self.see(Quantity::Result(op), after.regs[register as usize], u32::MAX, now);
        }
        if let (op::CMP | op::CMP_IMM, Some((left, right, _))) = (op, added(before, next)) {
            self.see(Quantity::Result(op), left.wrapping_sub(right), u32::MAX, now);
        }
        let changed = before.psw ^ after.psw;
        self.see(Quantity::Flags(op), after.psw, 0x3FF, now);
        self.see(Quantity::FlagsChanged(op), changed, changed & 0x3FF, now);
        match op {
            op::MUL | op::DIV | op::MULU | op::DIVU => {
                self.cell(Cell::Register(30), after, now);
                // where reg2 is r30, the second result is lost
                if next.instruction.reg2 != 30 {
                    self.see(Quantity::Second(op), after.regs[30], u32::MAX, now);
                }
            }
            op::JAL => {
                self.cell(Cell::Register(31), after, now);
                self.see(Quantity::Result(op), after.regs[31], u32::MAX, now);
            }
            op::LDSR | op::RETI => SYSTEM.iter().for_each(|cell| self.cell(*cell, after, now)),
            _ => {}
        }
        if matches!(op, op::JMP | op::BCOND | op::JR | op::JAL | op::RETI) {
            self.see(Quantity::Target(op), after.pc, u32::MAX, now);
        }
        self.accesses(now, before, next, after);
    }

    fn fetched(&mut self, now: u64, before: &Processor, next: &Next) {
        self.see(Quantity::Address(Access::Fetch), before.pc, 0x07FF_FFFF, now);
        self.see(Quantity::Data(Access::Fetch), next.first.into(), 0xFFFF, now);
        if next.halfwords == 2 {
            let second = before.pc.wrapping_add(2);
            self.see(Quantity::Address(Access::Fetch), second, 0x07FF_FFFF, now);
            self.see(Quantity::Data(Access::Fetch), next.second.into(), 0xFFFF, now);
        }
        for field in FIELDS {
            if let Some((value, bits)) = field.of(next) {
                self.see(Quantity::Field(field), value, bits, now);
            }
        }
    }

    fn operands(&mut self, now: u64, before: &Processor, next: &Next) {
        let (reg1, reg2) = reads(next.op());
        let value = |register: u32| before.regs[register as usize];
        if reg1 {
            self.see(Quantity::Port(1), value(next.instruction.reg1), u32::MAX, now);
        }
        if reg2 {
            self.see(Quantity::Port(2), value(next.instruction.reg2), u32::MAX, now);
        }
        if let Some((left, right, subtracts)) = added(before, next) {
            let carries = carries(left, right, subtracts);
            self.see(Quantity::Carry, carries, u32::MAX - 1, now);
        }
        let condition = next.instruction.condition;
        let kind = match next.op() {
            op::BCOND => 0,
            op::SETF => 1,
            _ => return,
        };
        let held = u32::from(holds(condition, before.psw));
        self.see(Quantity::Held(kind), held << condition, 1 << condition, now);
    }

    fn accesses(&mut self, now: u64, before: &Processor, next: &Next, after: &Processor) {
        let (reg2, address) = (next.instruction.reg2 as usize, next.address(before));
        if load_of(next.op()).is_some() {
            self.see(Quantity::Address(Access::Load), address, 0x07FF_FFFF, now);
            if reg2 != 0 {
                self.see(Quantity::Data(Access::Load), after.regs[reg2], u32::MAX, now);
            }
        } else if store_of(next.op()).is_some() {
            self.see(Quantity::Address(Access::Store), address, 0x07FF_FFFF, now);
            self.see(Quantity::Data(Access::Store), before.regs[reg2], u32::MAX, now);
        }
    }
}
