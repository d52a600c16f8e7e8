//! Request lines and timer, changed by the bench: lines raised and lowered, and ticks.

use clap::Args;
use vb::{grouped, Machine, Refusal};

use crate::failure::Failure;
use crate::inputs::number;
use crate::inputs::schedule::ticked;
use crate::inputs::setup::Bench;

/// What the bench does to lines and timer before a run; between runs, where the next one goes on from files.
#[derive(Args, Default)]
pub struct Requests {
    /// Raise a request line first: 0 pad, 1 timer, 2 pak, 3 link, 4 vip, by number or name; may be given again
    #[arg(long, value_name = "LEVEL", value_parser = level)]
    raise: Vec<Level>,
    /// Lower a request line first, before any is raised; may be given again
    #[arg(long, value_name = "LEVEL", value_parser = level)]
    lower: Vec<Level>,
    /// Give the timer N ticks first, after lines were changed
    #[arg(long, value_name = "N", value_parser = number::word)]
    tick: Option<u32>,
}

/// A request line, by its level.
#[derive(Clone, Copy, Debug, PartialEq, Eq)]
pub struct Level(u8);

impl Level {
    /// Its bit among the lines.
    pub fn line(self) -> u16 {
        1 << self.0
    }

    /// The level of a line's bit.
    fn of_line(line: u16) -> Level {
        Level(line.trailing_zeros() as u8)
    }
}

const NAMES: [&str; 5] = ["pad", "timer", "pak", "link", "vip"];

/// `4` or `vip`.
pub fn level(text: &str) -> Result<Level, String> {
    let named = NAMES.iter().position(|name| name.eq_ignore_ascii_case(text));
    let numbered = number::whole(text).ok().filter(|&n| n < NAMES.len() as u64);
    match named.or(numbered.map(|n| n as usize)) {
        Some(level) => Ok(Level(level as u8)),
        None => Err(format!(
            "`{text}` is not a level; write 0 or pad, 1 or timer, 2 or pak, 3 or link, 4 or vip"
        )),
    }
}

/// One thing that the bench does.
#[derive(Clone, Copy, Debug, PartialEq, Eq)]
pub enum Event {
    Raise(Level),
    Lower(Level),
    Tick,
}

impl Event {
    pub fn happen(self, bench: &mut Bench) -> Result<(), Failure> {
        let happened = self.happens(&mut bench.machine);
        happened.map_err(|refusal| bench.failure(&refusal))
    }

    pub fn happens(self, machine: &mut Machine) -> Result<(), Refusal> {
        let lines = &mut machine.processor.hardware.lines;
        match self {
            Event::Raise(level) => *lines |= level.line(),
            Event::Lower(level) => *lines &= !level.line(),
            Event::Tick => machine.tick()?,
        }
        Ok(())
    }

    /// The event that raises the line of this bit, and the one that lowers it.
    pub fn raising(line: u16) -> Event {
        Event::Raise(Level::of_line(line))
    }

    pub fn lowering(line: u16) -> Event {
        Event::Lower(Level::of_line(line))
    }
}

impl Requests {
    pub fn make(&self, bench: &mut Bench) -> Result<(), Failure> {
        let lowered = self.lower.iter().map(|level| (Event::Lower(*level), *level, "lowered"));
        let raised = self.raise.iter().map(|level| (Event::Raise(*level), *level, "raised"));
        for (event, Level(level), done) in lowered.chain(raised) {
            event.happen(bench)?;
            let name = NAMES[usize::from(level)];
            bench.notes.push(format!("line {level} ({name}) was {done}"));
        }
        if let Some(ticks) = self.tick {
            tick(bench, ticks)?;
            let ticks = grouped(u64::from(ticks));
            bench.notes.push(format!("{ticks} ticks reached the timer"));
        }
        Ok(())
    }
}

/// So many ticks; the library makes the first one, and refuses a timer that cannot be.
fn tick(bench: &mut Bench, ticks: u32) -> Result<(), Failure> {
    if ticks > 0 {
        Event::Tick.happen(bench)?;
        let hardware = &mut bench.machine.processor.hardware;
        *hardware = ticked(hardware, u64::from(ticks) - 1);
    }
    Ok(())
}

#[cfg(test)]
mod tests {
    use super::*;

    #[test]
    fn levels_have_numbers_and_names() {
        for (text, number) in
            [("0", 0), ("pad", 0), ("timer", 1), ("0x2", 2), ("Link", 3), ("VIP", 4)]
        {
            assert_eq!(level(text), Ok(Level(number)), "{text}");
        }
        for text in ["5", "", "-1", "vib", "256"] {
            assert!(level(text).unwrap_err().contains("is not a level"), "{text}");
        }
    }
}
