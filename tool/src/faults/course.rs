//! A die that follows a test's program by its schedule: when events come, when frames are drawn, when it ends. The rules
//! are those of the plan's own run.

use super::die::{Did, Die};
use crate::inputs::requests::Event;
use crate::inputs::schedule::Schedule;
use crate::plan::{Asked, Test, When};

/// Steps between two looks at what is due.
const SLICE: u64 = 1 << 20;
/// Events of a halted die that are gone through one by one, and rounds in which it does not wake.
const MOST_EVENTS: u64 = 1 << 21;
const MOST_IDLE: u64 = 1 << 17;

/// Where a course is: a copy of it and of the die is a place to go on from.
#[derive(Clone, Copy, Debug, Default, PartialEq)]
pub struct Place {
    /// The schedule's clock, and the steps, at the beginning of the present part.
    time: u64,
    begun_at: u64,
    /// Rounds since the last step.
    idle: u64,
    /// Steps of the present part.
    done: u64,
    /// The part's events have happened.
    begun: bool,
    /// Frames that were drawn.
    pub frames: usize,
    /// A frame was drawn at the HALT where the machine still is.
    drawn_here: bool,
}

impl Place {
    /// Steps that were completed.
    pub fn count(&self) -> u64 {
        self.begun_at + self.done
    }

    /// The place so many steps later, within the same part.
    pub fn after(&self, steps: u64) -> Place {
        let drawn_here = self.drawn_here && steps == 0;
        Place { done: self.done + steps, drawn_here, ..*self }
    }
}

/// What a course is followed by.
pub trait Follow {
    /// What the bench does after so many steps.
    fn event(&mut self, die: &mut Die, event: Event, count: u64);

    /// At most so many steps, after so many. Gives how many were completed, and what stopped it before.
    fn advance(&mut self, die: &mut Die, place: &Place, most: u64) -> (u64, Option<Did>);

    /// A frame is drawn.
    fn draw(&mut self, die: &mut Die, frame: usize, count: u64);

    /// Whether nothing more is wanted.
    fn enough(&self) -> bool;

    /// How a halted die waits for what wakes it.
    fn waits(&self) -> Wait;
}

/// How the time of a halted die passes.
#[derive(Clone, Copy, Debug, PartialEq, Eq)]
pub enum Wait {
    /// At once to the event that wakes it: nothing else is of interest.
    Jump,
    /// Event by event to the one that wakes a good die.
    Watch,
    /// Event by event: the fault decides what wakes it.
    Step,
}

/// Why a course ended.
#[derive(Clone, Copy, Debug, PartialEq, Eq)]
pub enum End {
    /// All that the plan asks for was seen, or nothing more was wanted.
    Enough,
    Budget,
    Halted,
    Fatal,
    NotModelled,
}

pub struct Course<'a> {
    pub test: &'a Test,
    pub schedule: &'a Schedule,
    /// The most steps.
    pub budget: u64,
}

impl Course<'_> {
    /// Follows a die from a place to its end.
    pub fn follow(&self, die: &mut Die, place: &mut Place, by: &mut dyn Follow) -> End {
        loop {
            if !place.begun {
                self.happen(die, place, place.time, by);
                place.begun = true;
            }
            let stop = self.part(die, place, by);
            let done = std::mem::take(&mut place.done);
            (place.begun, place.begun_at) = (false, place.begun_at + done);
            place.idle = if done > 0 { 0 } else { place.idle + 1 };
            let goes_on = place.begun_at < self.budget;
            place.time = match stop {
                None if goes_on => place.time.saturating_add(done),
                None => return End::Budget,
                // no event came in this part: those after its beginning are still to come
                Some(End::Halted) if goes_on => match self.woken(die, place, by) {
                    Some(time) => time,
                    None => return End::Halted,
                },
                Some(end) => return end,
            };
        }
    }

    fn happen(&self, die: &mut Die, place: &Place, time: u64, by: &mut dyn Follow) {
        for event in self.schedule.events(time) {
            by.event(die, event, place.begun_at);
        }
    }

    /// The time of the next event that a halted die must see; none where nothing wakes it any more.
    fn woken(&self, die: &mut Die, place: &Place, by: &mut dyn Follow) -> Option<u64> {
        if place.idle > MOST_IDLE {
            return None;
        }
        if by.waits() == Wait::Step {
            return self.schedule.next(place.time);
        }
        let hardware = die.state.processor.hardware;
        let wakes = self.schedule.wakes((&hardware).into(), die.waking(), place.time);
        let (time, after) = wakes.ok().flatten()?;
        let mut events = 0;
        let mut next = self.schedule.next(place.time);
        while let Some(at) = next.filter(|at| by.waits() == Wait::Watch && *at < time) {
            self.happen(die, place, at, by);
            events += 1;
            next = if events < MOST_EVENTS { self.schedule.next(at) } else { None };
        }
        die.state.processor.hardware = (&after).into();
        Some(time)
    }

    /// The steps to the next event; none where they are all done.
    fn part(&self, die: &mut Die, place: &mut Place, by: &mut dyn Follow) -> Option<End> {
        let next = self.schedule.next(place.time).map_or(u64::MAX, |next| next - place.time);
        let length = next.min(self.budget - place.begun_at);
        loop {
            self.due(die, place, by);
            if by.enough() || self.enough(place) {
                return Some(End::Enough);
            }
            if place.done >= length {
                return None;
            }
            let most = (length - place.done).min(self.until_next(place));
            let (count, stop) = by.advance(die, place, most);
            place.done += count;
            place.drawn_here &= count == 0;
            match stop {
                None => {}
                Some(Did::Halted) => return Some(self.halted(die, place, by)),
                Some(Did::NotModelled) => return Some(End::NotModelled),
                Some(_) => return Some(End::Fatal),
            }
        }
    }

    fn halted(&self, die: &mut Die, place: &mut Place, by: &mut dyn Follow) -> End {
        self.due(die, place, by);
        if !place.drawn_here && self.test.frames.get(place.frames) == Some(&When::Halt) {
            place.drawn_here = true;
            by.draw(die, place.frames, place.count());
            place.frames += 1;
        }
        if by.enough() || self.enough(place) {
            End::Enough
        } else {
            End::Halted
        }
    }

    /// Draws the frames whose count of steps this is.
    fn due(&self, die: &mut Die, place: &mut Place, by: &mut dyn Follow) {
        while self.test.frames.get(place.frames) == Some(&When::After(place.count())) {
            by.draw(die, place.frames, place.count());
            place.frames += 1;
        }
    }

    /// Whether all frames were drawn and all records were made. A test that asks for memory alone ends with its program.
    fn enough(&self, place: &Place) -> bool {
        if self.test.frames.is_empty() && self.test.trace == Asked::Nothing {
            return false;
        }
        let recorded = match self.test.trace {
            Asked::Nothing => true,
            Asked::Whole => false,
            Asked::First(count) => place.count() >= count,
        };
        recorded && place.frames == self.test.frames.len()
    }

    /// The most steps to the next thing to do.
    fn until_next(&self, place: &Place) -> u64 {
        let frame = match self.test.frames.get(place.frames) {
            Some(When::After(after)) => after.saturating_sub(place.count()),
            _ => SLICE,
        };
        let records = match self.test.trace {
            Asked::First(asked) if asked > place.count() => asked - place.count(),
            _ => SLICE,
        };
        frame.min(records).clamp(1, SLICE)
    }
}
