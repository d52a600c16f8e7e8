//! A schedule of a run: after which instructions the bench raises or lowers a request line, or a tick comes.
//!
//! A line is `at N EVENT` or `every K EVENT`; an event is `tick`, `raise LEVEL` or `lower LEVEL`. Its clock counts the
//! instructions that ended. A halted machine ends none: there the clock goes on at once to the event that wakes it.

mod idle;
mod timer;

pub use timer::ticked;

use std::path::Path;

use vb::{Answer, Hardware, Mode};

use crate::failure::Failure;
use crate::files::{FileRead, Input};
use crate::inputs::number;
use crate::inputs::requests::{level, Event};
use crate::inputs::setup::Bench;
use idle::Idle;

/// What is to happen, in the file's order.
#[derive(Clone, Debug, Default, PartialEq, Eq)]
pub struct Schedule {
    entries: Vec<(When, Event)>,
    /// The file as it was parsed.
    pub file: Option<FileRead>,
}

#[derive(Clone, Copy, Debug, PartialEq, Eq)]
enum When {
    /// After this many instructions.
    At(u64),
    /// After each multiple of this many.
    Every(u64),
}

impl When {
    fn is(self, clock: u64) -> bool {
        match self {
            When::At(at) => at == clock,
            When::Every(every) => clock > 0 && clock.is_multiple_of(every),
        }
    }

    /// The next time after this one.
    fn after(self, clock: u64) -> Option<u64> {
        match self {
            When::At(at) => Some(at).filter(|&at| at > clock),
            When::Every(every) => {
                clock.checked_next_multiple_of(every).and_then(|next| match next > clock {
                    true => Some(next),
                    false => next.checked_add(every),
                })
            }
        }
    }

    /// The last time before this one.
    fn before(self, clock: u64) -> Option<u64> {
        match self {
            When::At(at) => Some(at).filter(|&at| at < clock),
            When::Every(every) => {
                let last = clock.saturating_sub(1) / every * every;
                Some(last).filter(|&last| last > 0)
            }
        }
    }

    /// How many times after a time, up to another.
    fn times(self, from: u64, until: u64) -> u64 {
        match self {
            When::At(at) => u64::from(from < at && at <= until),
            When::Every(every) => until / every - from / every,
        }
    }
}

impl Schedule {
    /// The schedule of a command that was given one; else nothing happens.
    pub fn given(path: Option<&Path>) -> Result<Schedule, Failure> {
        path.map_or_else(|| Ok(Schedule::default()), Schedule::read)
    }

    fn read(path: &Path) -> Result<Schedule, Failure> {
        let file = Input::read(path, "a schedule: lines of `at N EVENT` or `every K EVENT`")?;
        let read = Schedule::of(file.text()?).map_err(|wrong| Failure::bad(file.wrong(wrong)));
        Ok(Schedule { file: Some(FileRead::whole(&file)), ..read? })
    }

    fn of(text: &str) -> Result<Schedule, String> {
        let mut entries = Vec::new();
        for (n, line) in text.lines().enumerate() {
            let line = line.split('#').next().unwrap_or("");
            let words: Vec<&str> = line.split_whitespace().collect();
            if !words.is_empty() {
                entries.push(entry(&words).map_err(|wrong| format!("line {}: {wrong}", n + 1))?);
            }
        }
        Ok(Schedule { entries, file: None })
    }

    /// The time of the next event after this one.
    pub fn next(&self, clock: u64) -> Option<u64> {
        self.entries.iter().filter_map(|(when, _)| when.after(clock)).min()
    }

    /// Whether an event after this time comes only once.
    #[cfg(test)]
    fn has_single(&self, clock: u64) -> bool {
        self.entries.iter().any(|(when, _)| matches!(when, When::At(at) if *at > clock))
    }

    /// The events of a time, in the file's order.
    pub fn events(&self, clock: u64) -> impl Iterator<Item = Event> + '_ {
        self.entries.iter().filter(move |(when, _)| when.is(clock)).map(|(_, event)| *event)
    }

    /// The time of the event that wakes a halted machine, after the events of this time; lines and timer are then as they
    /// are just before it. A machine that nothing wakes any more stays as it is.
    fn wake(&self, bench: &mut Bench, now: u64) -> Result<Option<u64>, Failure> {
        let (hardware, waking) = (bench.machine.processor.hardware, waking(bench)?);
        let woken = self.wakes(hardware, waking, now)?;
        Ok(woken.map(|(time, hardware)| {
            bench.machine.processor.hardware = hardware;
            time
        }))
    }

    /// The time of the event that raises one of these lines for good, with these lines and this timer after the events of a
    /// time; and lines and timer just before it.
    pub fn wakes(
        &self,
        hardware: Hardware,
        waking: u16,
        now: u64,
    ) -> Result<Option<(u64, Hardware)>, Failure> {
        let idle = Idle { entries: &self.entries, now, hardware, waking };
        Ok(idle.wakes()?.map(|time| (time, idle.until(time))))
    }

    /// Runs a machine by the schedule: `part` runs it for so many instructions, after so many. Gives how many ended, and
    /// what a part ended with before the budget was used up. The budget bounds what the machine does; the time that it is
    /// halted has no bound.
    pub fn run<T>(
        &self,
        bench: &mut Bench,
        budget: u64,
        part: &mut RunPart<T>,
    ) -> Result<(u64, Option<T>), Failure> {
        let (mut clock, mut count) = (0u64, 0);
        loop {
            self.events(clock).try_for_each(|event| event.happen(bench))?;
            let length = self.next(clock).map_or(u64::MAX, |next| next - clock).min(budget - count);
            let (ended, how) = part(bench, length, count)?;
            count += ended;
            clock = match how {
                Part::Done if count < budget => clock.saturating_add(ended),
                Part::Done => return Ok((count, None)),
                Part::Halted(end) if count < budget => match self.wake(bench, clock)? {
                    Some(time) => time,
                    None => return Ok((count, Some(end))),
                },
                Part::Halted(end) | Part::Ended(end) => return Ok((count, Some(end))),
            };
        }
    }
}

/// The lines that wake a halted machine, each asked of the library. A halted machine writes nothing.
fn waking(bench: &mut Bench) -> Result<u16, Failure> {
    let halted = bench.machine;
    let mut waking = 0;
    for line in (0..5).map(|level| 1 << level).filter(|_| halted.processor.mode == Mode::Halted) {
        bench.machine.processor.hardware.lines = line;
        let (machine, mut memories) = bench.borrowed();
        let answer = machine.step(&mut memories);
        bench.machine = halted;
        if let Answer::Interrupted(_) = answer.map_err(|refusal| bench.failure(&refusal))? {
            waking |= line;
        }
    }
    Ok(waking)
}

/// Runs a machine for so many instructions, after so many; gives how many ended, and how.
pub type RunPart<'a, T> = dyn FnMut(&mut Bench, u64, u64) -> Result<(u64, Part<T>), Failure> + 'a;

/// How a part of a run ended.
pub enum Part<T> {
    /// With all of its length.
    Done,
    /// The machine is halted and accepts no interrupt.
    Halted(T),
    Ended(T),
}

/// `at 1_000 raise vip`
fn entry(words: &[&str]) -> Result<(When, Event), String> {
    let (when, event) = words.split_at(words.len().min(2));
    let when = match when {
        ["at", n] => When::At(number::whole(n)?),
        ["every", k] => match number::whole(k)? {
            0 => return Err("`every 0` is never; it must be `every 1` or more".to_string()),
            k => When::Every(k),
        },
        _ => return Err(format!("`{}` is not `at N EVENT` or `every K EVENT`", words.join(" "))),
    };
    let event = match event {
        ["tick"] => Event::Tick,
        ["raise", text] => Event::Raise(level(text)?),
        ["lower", text] => Event::Lower(level(text)?),
        _ => {
            let given = event.join(" ");
            return Err(format!(
                "`{given}` is not an event; write `tick`, `raise LEVEL` or `lower LEVEL`"
            ));
        }
    };
    Ok((when, event))
}

#[cfg(test)]
mod tests {
    use super::*;

    #[test]
    fn lines_are_read() {
        let text =
            "# a comment\n\nat 1_000 raise vip # the frame\nevery 0x10 tick\n  at 0 lower 1\n";
        let schedule = Schedule::of(text).unwrap();
        assert_eq!(schedule.entries.len(), 3);
        assert_eq!(schedule.entries[1], (When::Every(16), Event::Tick));
        assert_eq!(
            [0, 1, 15, 16, 999, 1_000].map(|clock| schedule.next(clock).unwrap()),
            [16, 16, 16, 32, 1_000, 1_008]
        );
        assert_eq!(schedule.next(u64::MAX - 1), None);
        assert!(schedule.has_single(999) && !schedule.has_single(1_000));
    }

    #[test]
    fn lines_that_are_not_events_are_reported_by_their_number() {
        for (text, part) in [
            ("at 5 tick\nat x tick", "line 2: `x` is not a whole number"),
            ("at", "line 1: `at` is not `at N EVENT` or `every K EVENT`"),
            ("after 5 tick", "line 1: `after 5 tick` is not"),
            ("every 0 tick", "line 1: `every 0` is never"),
            ("at 5", "line 1: `` is not an event"),
            ("at 5 raise", "line 1: `raise` is not an event"),
            ("at 5 raise 5", "line 1: `5` is not a level; write 0 or pad"),
            ("at 5 tick tick", "line 1: `tick tick` is not an event"),
        ] {
            let wrong = Schedule::of(text).unwrap_err();
            assert!(wrong.contains(part), "{text}: {wrong}");
        }
    }
}
