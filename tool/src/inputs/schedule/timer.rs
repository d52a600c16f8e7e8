//! Any number of ticks in one step. The library makes one tick at a time; a test compares the two.

use vb::Hardware;

/// Bits of TCR: the timer counts; its count has reached zero; zero raises its line.
const COUNTS: u16 = 1 << 0;
const IS_ZERO: u16 = 1 << 1;
const RAISES: u16 = 1 << 3;
/// The timer's line among the five.
pub const TIMER_LINE: u16 = 1 << 1;

/// When a timer's count reaches zero, in ticks from now: the first time, and how many ticks lie between two times.
#[derive(Clone, Copy, Debug, PartialEq, Eq)]
pub struct Zeros {
    pub first: u64,
    pub period: u64,
}

impl Zeros {
    /// None where the timer does not count. A count of 0 becomes the reload before it goes down.
    pub fn of(timer: &Hardware) -> Option<Zeros> {
        let period = u64::from(timer.reload.max(1));
        let first = if timer.count == 0 { period } else { u64::from(timer.count) };
        (timer.control & COUNTS != 0).then_some(Zeros { first, period })
    }

    /// Which of so many ticks is the last that reaches zero.
    pub fn last(self, ticks: u64) -> Option<u64> {
        let after = ticks.checked_sub(self.first)?;
        Some(self.first + after / self.period * self.period)
    }
}

/// Whether reaching zero raises the timer's line.
pub fn raises(timer: &Hardware) -> bool {
    timer.control & COUNTS != 0 && timer.control & RAISES != 0
}

/// Lines and timer after so many ticks.
pub fn ticked(timer: &Hardware, ticks: u64) -> Hardware {
    let mut after = *timer;
    let Some(zeros) = Zeros::of(timer) else { return after };
    let from = if timer.count == 0 { timer.reload } else { timer.count };
    match zeros.last(ticks) {
        None if ticks > 0 => after.count = from - ticks as u16,
        None => {}
        Some(last) => {
            after.count = if ticks == last { 0 } else { timer.reload - (ticks - last) as u16 };
            after.control |= IS_ZERO;
            after.lines |= if raises(timer) { TIMER_LINE } else { 0 };
        }
    }
    after
}

#[cfg(test)]
mod tests {
    use proptest::prelude::*;
    use vb::Machine;

    use super::*;

    proptest! {
        #![proptest_config(ProptestConfig { cases: 500, failure_persistence: None, ..Default::default() })]

        #[test]
        fn many_ticks_in_one_step_are_as_many_ticks_of_the_library(
            lines in 0u16..32,
            count in prop_oneof![0u16..9, any::<u16>()],
            reload in prop_oneof![0u16..9, any::<u16>()],
            control in prop_oneof![Just(1), Just(9), Just(11), (0u16..32).prop_map(|bits| bits & 0x1B)],
            ticks in prop_oneof![0u64..40, 0u64..70_000],
        ) {
            let start = Hardware { lines, count, reload, control };
            let mut machine = Machine::reset();
            machine.processor.hardware = start;
            for _ in 0..ticks {
                machine.tick().unwrap();
            }
            prop_assert_eq!(ticked(&start, ticks), machine.processor.hardware);
        }
    }
}
