//! A halted machine: when the schedule wakes it, and what time does to lines and timer until then.
//!
//! A halted machine changes nothing by itself, and only its lines can wake it. So the time of the event that does is
//! computed: the first one after which a line that is let in is raised. Whatever lies before it costs nothing.

use vb::Hardware;

use super::timer::{raises, ticked, Zeros, TIMER_LINE};
use super::When;
use crate::failure::Failure;
use crate::inputs::requests::Event;
use crate::interrupt;

/// Raisings that a lowering at the same time takes back, before it is given up to look for one that stays.
const MOST: u64 = 1 << 20;

/// A halted machine after the events of a time.
pub struct Idle<'a> {
    pub entries: &'a [(When, Event)],
    pub now: u64,
    pub hardware: Hardware,
    /// The lines that wake it; none of them is raised now.
    pub waking: u16,
}

/// An event by its time, then by its place in the schedule.
type Moment = (u64, usize);

impl Idle<'_> {
    /// The time of the event that wakes it; none where nothing ever does.
    pub fn wakes(&self) -> Result<Option<u64>, Failure> {
        let mut first = self.timer_wakes()?;
        for (place, (when, event)) in self.entries.iter().enumerate() {
            let Event::Raise(level) = event else { continue };
            if level.line() & self.waking != 0 {
                let at = self.raised(place, *when, level.line(), first)?;
                first = at.or(first);
            }
        }
        Ok(first)
    }

    /// When an entry first raises its line for good, before a limit.
    fn raised(
        &self,
        place: usize,
        when: When,
        line: u16,
        limit: Option<u64>,
    ) -> Result<Option<u64>, Failure> {
        let always = |(other, event): &(When, Event)| match (when, other) {
            (When::Every(raised), When::Every(lowered)) => {
                *event == Event::lowering(line) && raised.is_multiple_of(*lowered)
            }
            _ => false,
        };
        if self.entries[place + 1..].iter().any(always) {
            return Ok(None);
        }
        let mut at = when.after(self.now);
        for tries in 0..MOST {
            let Some(time) = at.filter(|at| limit.is_none_or(|limit| *at < limit)) else {
                return Ok(None);
            };
            if !self.lowered((time, place), line) {
                return Ok(Some(time));
            }
            look_at_signals(tries)?;
            at = when.after(time);
        }
        Err(undecided())
    }

    /// Whether a line is lowered at the same time, by an entry further down.
    fn lowered(&self, (time, place): Moment, line: u16) -> bool {
        let lowers =
            |(when, event): &(When, Event)| *event == Event::lowering(line) && when.is(time);
        self.entries[place + 1..].iter().any(lowers)
    }

    /// When the timer first raises its line for good. Where its zeros come round to the same place of the schedule, and
    /// each was taken back, all of them are.
    fn timer_wakes(&self) -> Result<Option<u64>, Failure> {
        let zeros = Zeros::of(&self.hardware);
        let Some(zeros) = zeros.filter(|_| raises(&self.hardware) && self.waking & TIMER_LINE != 0)
        else {
            return Ok(None);
        };
        let (round, single) = self.round();
        let (mut kept, mut far) = (None, 1);
        for tries in 0..MOST {
            let number = zeros.first + tries * zeros.period;
            let Some(moment) = self.tick(number) else { return Ok(None) };
            if !self.lowered(moment, TIMER_LINE) {
                return Ok(Some(moment.0));
            }
            look_at_signals(tries)?;
            let here =
                round.filter(|_| moment.0 > single).map(|round| (moment.0 % round, moment.1));
            if here.is_some() && here == kept {
                return Ok(None);
            }
            if tries + 1 == far {
                (kept, far) = (here, 2 * far);
            }
        }
        Err(undecided())
    }

    /// After how much time the timer's events come round, and the time of the last one that comes once.
    fn round(&self) -> (Option<u64>, u64) {
        let (mut round, mut single) = (Some(1u64), 0);
        for (when, event) in self.entries {
            match when {
                _ if *event != Event::Tick && *event != Event::lowering(TIMER_LINE) => {}
                When::At(at) => single = single.max(*at),
                When::Every(every) => {
                    round = round
                        .and_then(|round| (round / divisor(round, *every)).checked_mul(*every));
                }
            }
        }
        (round, single)
    }

    /// How many ticks come after now, up to a time.
    fn ticks(&self, until: u64) -> u64 {
        let ticks = self.entries.iter().filter(|(_, event)| *event == Event::Tick);
        ticks.fold(0, |sum, (when, _)| sum.saturating_add(when.times(self.now, until)))
    }

    /// The tick of a number, from 1 on.
    fn tick(&self, number: u64) -> Option<Moment> {
        if self.ticks(u64::MAX) < number {
            return None;
        }
        let (mut before, mut time) = (self.now, u64::MAX);
        while time - before > 1 {
            let middle = before + (time - before) / 2;
            match self.ticks(middle) < number {
                true => before = middle,
                false => time = middle,
            }
        }
        let here = self.entries.iter().enumerate();
        let mut here = here.filter(|(_, (when, event))| *event == Event::Tick && when.is(time));
        let place = here.nth((number - self.ticks(before) - 1) as usize)?.0;
        Some((time, place))
    }

    /// Lines and timer just before the events of a later time.
    pub fn until(&self, time: u64) -> Hardware {
        let ticks = self.ticks(time - 1);
        let mut after = ticked(&self.hardware, ticks);
        after.lines = self.hardware.lines;
        for level in 0..5 {
            let line = 1 << level;
            let zero = Zeros::of(&self.hardware).and_then(|zeros| zeros.last(ticks));
            let zero = zero.filter(|_| line == TIMER_LINE && raises(&self.hardware));
            let zero = zero.and_then(|number| Some((self.tick(number)?, true)));
            let changes = self.entries.iter().enumerate().filter_map(|(place, (when, event))| {
                let raises = *event == Event::raising(line);
                let changes = raises || *event == Event::lowering(line);
                let last = when.before(time).filter(|last| changes && *last > self.now)?;
                Some(((last, place), raises))
            });
            match changes.chain(zero).max() {
                Some((_, true)) => after.lines |= line,
                Some((_, false)) => after.lines &= !line,
                None => {}
            }
        }
        after
    }
}

fn divisor(a: u64, b: u64) -> u64 {
    match b {
        0 => a,
        _ => divisor(b, a % b),
    }
}

fn look_at_signals(tries: u64) -> Result<(), Failure> {
    match tries % 256 == 255 && interrupt::asked() {
        true => Err(Failure::stopped()),
        false => Ok(()),
    }
}

fn undecided() -> Failure {
    let most = vb::grouped(MOST);
    Failure::bad(format!(
        "the schedule raises and lowers a line at the same time {most} times in a row while the machine is halted; \
         it must wake the machine or leave the line alone"
    ))
}

#[cfg(test)]
mod tests {
    use proptest::prelude::*;
    use vb::Machine;

    use super::*;

    /// The same, event by event and tick by tick, up to a time.
    fn naive(idle: &Idle, limit: u64) -> Option<(u64, Hardware)> {
        let mut machine = Machine::reset();
        machine.processor.hardware = idle.hardware;
        for time in idle.now + 1..limit {
            let before = machine.processor.hardware;
            for (_, event) in idle.entries.iter().filter(|(when, _)| when.is(time)) {
                event.happens(&mut machine).unwrap();
            }
            if machine.processor.hardware.lines & idle.waking != 0 {
                return Some((time, before));
            }
        }
        None
    }

    fn event() -> impl Strategy<Value = Event> {
        let line = || (0u32..5).prop_map(|level| 1u16 << level);
        prop_oneof![
            4 => Just(Event::Tick),
            1 => line().prop_map(Event::raising),
            2 => line().prop_map(Event::lowering),
            2 => Just(Event::lowering(TIMER_LINE)),
        ]
    }

    fn when() -> impl Strategy<Value = When> {
        prop_oneof![1 => (0u64..3_000).prop_map(When::At), 3 => (1u64..60).prop_map(When::Every)]
    }

    proptest! {
        #![proptest_config(ProptestConfig { cases: 3_000, failure_persistence: None, ..Default::default() })]

        #[test]
        fn a_halted_machine_wakes_when_a_schedule_that_ticks_one_by_one_wakes_it(
            entries in proptest::collection::vec((when(), event()), 1..6),
            now in 0u64..500,
            (count, reload) in (0u16..12, 0u16..12),
            control in prop_oneof![4 => Just(9), 1 => Just(11), 1 => Just(1), 1 => Just(8)],
            waking in 0u16..32,
            lines in 0u16..32,
        ) {
            let hardware = Hardware { lines: lines & !waking, count, reload, control };
            let idle = Idle { entries: &entries, now, hardware, waking };
            // 12 zeros of the timer, and more than a round of the periods that come with them
            let limit = 30_000;
            let found = idle.wakes().unwrap();
            let found = found.filter(|time| *time < limit).map(|time| (time, idle.until(time)));
            prop_assert_eq!(found, naive(&idle, limit));
        }
    }

    #[test]
    fn what_is_far_away_or_never_comes_costs_nothing() {
        let timer = |count, reload| Hardware { lines: 0, count, reload, control: 9 };
        let (tick, lower) = (Event::Tick, Event::lowering(TIMER_LINE));
        let far = 9_999_999_999_999;
        for (entries, hardware, wakes) in [
            // a timer that does not raise, beside an event far away
            (
                vec![(When::Every(1), tick), (When::At(far), Event::raising(1 << 4))],
                Hardware { control: 1, ..timer(5, 5) },
                Some(far),
            ),
            // events that do nothing
            (
                vec![(When::Every(100), lower), (When::Every(20_000), tick)],
                timer(60_000, 9),
                Some(1_200_000_000),
            ),
            // each zero is taken back at once
            (vec![(When::Every(20_000), tick), (When::Every(100), lower)], timer(60_000, 9), None),
            (vec![(When::Every(7), tick), (When::Every(1), lower)], timer(1, 65_535), None),
            // the second one is not
            (vec![(When::Every(10), tick), (When::Every(30), lower)], timer(3, 2), Some(50)),
            // beyond the end of time
            (vec![(When::Every(1 << 60), tick)], timer(17, 1), None),
            (vec![(When::Every(1 << 60), tick)], timer(15, 1), Some(15 << 60)),
        ] {
            let idle = Idle { entries: &entries, now: 0, hardware, waking: 31 };
            assert_eq!(idle.wakes().unwrap(), wakes, "{entries:?}");
        }
    }
}
