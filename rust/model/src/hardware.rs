//! The request lines and the timer (W6): their record, the timer's registers in
//! region 2 of the bus, and ticks.
//!
//! 02, W6: "The timer, its registers and line 1 follow the Scroll's Timer
//! section". This copy of 000 lists that section and lacks it; what stands here
//! in its place is described row by row in docs/DECISIONS.md.

use crate::refusal::{refuse_unless, Refusal};

/// "Levels are 0 pad, 1 timer, 2 game pak, 3 link, 4 VIP".
pub const LEVELS: u32 = 5;
/// The timer's level, and its line's bit.
const TIMER_LINE: u16 = 1 << 1;

/// T-Enb: the timer counts ticks.
pub const T_ENB: u16 = 1 << 0;
/// Z-Stat: the count has reached zero.
pub const Z_STAT: u16 = 1 << 1;
/// Z-Stat-Clr: a bit of what is written, never stored.
const Z_STAT_CLR: u8 = 1 << 2;
/// Tim-Z-Int: reaching zero raises the timer's line.
pub const TIM_Z_INT: u16 = 1 << 3;
/// T-Clk-Sel: which interval the bench's ticks have.
pub const T_CLK_SEL: u16 = 1 << 4;
/// "control bits at their places in TCR, all other bits 0" (W12).
pub const CONTROL_BITS: u16 = T_ENB | Z_STAT | TIM_Z_INT | T_CLK_SEL;

/// Five request lines and the timer's state, in the order of W12's kind 6.
#[derive(Clone, Copy, Debug, Default, PartialEq, Eq)]
pub struct Hardware {
    /// Bit n is the line of level n.
    pub lines: u16,
    pub count: u16,
    pub reload: u16,
    /// Bits of [`CONTROL_BITS`].
    pub control: u16,
}

/// A byte register of the timer.
#[derive(Clone, Copy, Debug, PartialEq, Eq)]
pub enum TimerRegister {
    /// TLR: the low byte of the count.
    Low,
    /// THR: its high byte.
    High,
    /// TCR: control and status.
    Control,
}

/// The timer's register at an address of region 2: "The rest of region 2, apart
/// from mirrors that 000 gives those registers, stays as it was". 000 gives none
/// but those of the 27 address bits, so all 24 low bits count (W6.1).
pub fn timer_register_at(address: u32) -> Option<TimerRegister> {
    match address % (1 << 24) {
        0x18 => Some(TimerRegister::Low),
        0x1C => Some(TimerRegister::High),
        0x20 => Some(TimerRegister::Control),
        _ => None,
    }
}

impl Hardware {
    /// Refusal 5: five lines, and control bits at their places; count and reload
    /// have all 16 bits.
    pub fn check(&self) -> Result<(), Refusal> {
        let holds = self.lines < 1 << LEVELS && self.control & !CONTROL_BITS == 0;
        refuse_unless(holds, Refusal::Register)
    }

    /// Whether the line of a level is raised.
    pub fn is_raised(&self, level: u32) -> bool {
        self.lines >> level & 1 == 1
    }

    /// What a read of the register gives. Bits 7 to 5 and bit 2 of TCR read 1.
    pub fn read(&self, register: TimerRegister) -> u8 {
        let [low, high] = self.count.to_le_bytes();
        match register {
            TimerRegister::Low => low,
            TimerRegister::High => high,
            TimerRegister::Control => 0xE4 + self.control as u8,
        }
    }

    /// Writes a byte to the register.
    pub fn write(&mut self, register: TimerRegister, value: u8) {
        let [low, high] = self.reload.to_le_bytes();
        match register {
            TimerRegister::Low => self.set_reload([value, high]),
            TimerRegister::High => self.set_reload([low, value]),
            TimerRegister::Control => self.write_control(value),
        }
    }

    /// The count becomes the whole new reload at once.
    fn set_reload(&mut self, bytes: [u8; 2]) {
        self.reload = u16::from_le_bytes(bytes);
        self.count = self.reload;
    }

    /// Bit 1 of the value is ignored; bit 2 clears Z-Stat. Line 1 is lowered
    /// where bit 2 is set or bit 3 is clear, and is never raised.
    fn write_control(&mut self, value: u8) {
        let clears = value & Z_STAT_CLR != 0;
        let given = u16::from(value) & (T_ENB | TIM_Z_INT | T_CLK_SEL);
        let status = if clears { 0 } else { self.control & Z_STAT };
        self.control = given | status;
        if clears || given & TIM_Z_INT == 0 {
            self.lines &= !TIMER_LINE;
        }
    }

    /// One tick of the interval that T-Clk-Sel has chosen: a count of 0 becomes
    /// the reload first, then a count above 0 becomes one less. A count that is 0
    /// then sets Z-Stat, and raises line 1 where Tim-Z-Int is set.
    fn advance(&mut self) {
        if self.control & T_ENB == 0 {
            return;
        }
        let from = if self.count == 0 { self.reload } else { self.count };
        self.count = if from == 0 { 0 } else { from - 1 };
        if self.count == 0 {
            self.control |= Z_STAT;
            if self.control & TIM_Z_INT != 0 {
                self.lines |= TIMER_LINE;
            }
        }
    }
}

/// "it advances only when the bench tells of a tick"; refusal 5.
pub fn tick(hardware: &mut Hardware) -> Result<(), Refusal> {
    hardware.check()?;
    hardware.advance();
    Ok(())
}
