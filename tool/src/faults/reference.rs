//! The plain run of a test, watched once: what it shows, when each quantity first has each value, and places to go on from.

use std::sync::Arc;

use vb::{image_offset, Drawing, IMAGE_LENGTH};

use super::course::{Course, End, Follow, Place, Wait};
use super::die::{load_of, Did, Die, Next, State};
use super::watch::Watch;
use crate::failure::Failure;
use crate::inputs::requests::Event;
use crate::inputs::schedule::Schedule;
use crate::interrupt;
use crate::plan::{Expected, Source, Test};

/// Steps between two places to go on from, at first; and how many such places are kept.
const SPACING: u64 = 1 << 16;
const MOST: usize = 256;

/// A test, and what the model shows of it.
pub struct Reference<'a> {
    pub test: &'a Test,
    pub expected: &'a Expected,
    pub frames: Vec<Shown>,
    /// Of a program, not of a scene.
    pub program: Option<Program>,
}

/// A frame's images, as they are in VRAM, and the step before which it was drawn.
pub struct Shown {
    pub count: u64,
    pub images: [Vec<u8>; 2],
}

impl Shown {
    pub fn of(vram: &[u8], buffer: u32, count: u64) -> Shown {
        let images = [0, 1].map(|eye| {
            let offset = image_offset(buffer, eye);
            vram[offset..offset + IMAGE_LENGTH].to_vec()
        });
        Shown { count, images }
    }
}

pub struct Program {
    pub schedule: Schedule,
    pub watch: Watch,
    pub end: End,
    pub count: u64,
    /// Whether it begins with a reset.
    pub resets: bool,
    /// Whether it reads a frame buffer after a frame was drawn.
    pub reads_pictures: bool,
    rom: Vec<u8>,
    places: Vec<Kept>,
    /// Memories at the end: WRAM, VRAM, pak RAM.
    pub memories: [Arc<Vec<u8>>; 3],
}

/// A place to go on from.
#[derive(Clone)]
struct Kept {
    place: Place,
    state: State,
    memories: [Arc<Vec<u8>>; 3],
}

impl<'a> Reference<'a> {
    pub fn of(test: &'a Test, expected: &'a Expected) -> Result<Reference<'a>, Failure> {
        let Source::Program(setup) = &test.source else {
            let drawn = expected.frames.iter().map(|frame| {
                let mut vram = frame.vram.clone();
                draw(&mut vram, &frame.drawing, frame.buffer);
                Shown::of(&vram, frame.buffer, 0)
            });
            return Ok(Reference { test, expected, frames: drawn.collect(), program: None });
        };
        let schedule = Schedule::given(test.schedule.as_deref())?;
        let mut die = Die::of(&setup.bench()?);
        let resets = setup.processor.is_none() && setup.state.is_none();
        let mut watcher = Watcher::new(&die);
        let mut place = Place::default();
        let course = Course { test, schedule: &schedule, budget: test.budget };
        let end = course.follow(&mut die, &mut place, &mut watcher);
        let Watcher { watch, kept, frames, reads_pictures, .. } = watcher;
        if interrupt::asked() {
            return Err(Failure::bad("stopped by Ctrl-C"));
        }
        let count = place.count();
        if count != expected.count || frames.len() != expected.frames.len() {
            let rule = "the watched run is not the plan's";
            return Err(Failure::bad(format!("{}: {rule}; report this", test.place)));
        }
        let memories = [&die.wram, &die.vram, &die.pak].map(|bytes| Arc::new(bytes.clone()));
        let rom = std::mem::take(&mut die.rom);
        let program = Program {
            schedule,
            watch,
            end,
            count,
            resets,
            reads_pictures,
            rom,
            places: kept,
            memories,
        };
        Ok(Reference { test, expected, frames, program: Some(program) })
    }
}

impl Program {
    /// A die at the last kept place that is not after this step. Its memories are reused where one is given.
    pub fn at(&self, step: u64, die: Option<Die>) -> (Die, Place) {
        let after = self.places.partition_point(|kept| kept.place.count() <= step);
        // several events can come at one count: the place before them all
        let kept = &self.places[after.saturating_sub(1)];
        let mut die = match die {
            Some(die) if die.rom.len() == self.rom.len() => die,
            _ => Die::new(self.rom.clone()),
        };
        if die.rom_written {
            die.rom.clone_from(&self.rom);
        }
        die.restart(kept.state);
        for (own, kept) in
            [&mut die.wram, &mut die.vram, &mut die.pak].into_iter().zip(&kept.memories)
        {
            own.clone_from(kept);
        }
        (die, kept.place)
    }
}

/// Draws a frame by the library.
pub fn draw(vram: &mut [u8], drawing: &Drawing, buffer: u32) {
    drawing.draw_frame(vram, buffer).expect("VRAM and registers of an accepted machine");
}

struct Watcher {
    watch: Watch,
    kept: Vec<Kept>,
    spacing: u64,
    frames: Vec<Shown>,
    reads_pictures: bool,
}

impl Watcher {
    fn new(die: &Die) -> Watcher {
        let mut watcher = Watcher {
            watch: Watch::default(),
            kept: Vec::new(),
            spacing: SPACING,
            frames: Vec::new(),
            reads_pictures: false,
        };
        watcher.watch.start(&die.state.processor);
        watcher.keep(die, Place::default());
        watcher
    }

    /// Keeps this place; memories that did not change are shared with the place before.
    fn keep(&mut self, die: &Die, place: Place) {
        let last = self.kept.last().map(|kept| &kept.memories);
        let own = [&die.wram, &die.vram, &die.pak];
        let memories = [0, 1, 2].map(|n| match last {
            Some(last) if *last[n] == *own[n] => Arc::clone(&last[n]),
            _ => Arc::new(own[n].clone()),
        });
        self.kept.push(Kept { place, state: die.state, memories });
        if self.kept.len() > MOST {
            let mut n = 0;
            self.kept.retain(|_| {
                n += 1;
                n % 2 == 1
            });
            self.spacing *= 2;
        }
    }

    /// Whether an instruction reads a byte that a drawing has written.
    fn reads(&self, next: &Next, die: &Die) -> bool {
        let is_image = |address: u32| {
            address >> 24 & 7 == 0 && address & 0x7_FFFF < 0x2_0000 && address & 0x7FFF < 0x6000
        };
        let processor = &die.state.processor;
        is_image(processor.pc) || load_of(next.op()).is_some() && is_image(next.address(processor))
    }
}

impl Follow for Watcher {
    fn event(&mut self, die: &mut Die, event: Event, count: u64) {
        plain_event(die, event);
        let tick = event == Event::Tick;
        self.watch.event(tick, &die.state.processor, count);
    }

    fn advance(&mut self, die: &mut Die, place: &Place, most: u64) -> (u64, Option<Did>) {
        let mut done = 0;
        while done < most {
            let now = place.count() + done;
            if now.is_multiple_of(self.spacing) && now > 0 {
                self.keep(die, place.after(done));
                if interrupt::asked() {
                    return (done, Some(Did::Fatal));
                }
            }
            let before = die.state.processor;
            let next = die.runs().then(|| die.at_pc());
            if let Some(next) = next.as_ref().filter(|_| !self.frames.is_empty()) {
                self.reads_pictures |= self.reads(next, die);
            }
            let did = die.step();
            self.watch.step(now, &before, next.as_ref(), did, &die.state.processor);
            if !did.completed() {
                return (done, Some(did));
            }
            done += 1;
        }
        (done, None)
    }

    fn draw(&mut self, die: &mut Die, frame: usize, count: u64) {
        let buffer = frame as u32 % 2;
        draw(&mut die.vram, &(&die.state.drawing).into(), buffer);
        self.frames.push(Shown::of(&die.vram, buffer, count));
    }

    fn enough(&self) -> bool {
        false
    }

    fn waits(&self) -> Wait {
        Wait::Watch
    }
}

/// What the bench does to a die without a fault.
pub fn plain_event(die: &mut Die, event: Event) {
    let lines = &mut die.state.processor.hardware.lines;
    match event {
        Event::Raise(level) => *lines |= level.line(),
        Event::Lower(level) => *lines &= !level.line(),
        Event::Tick => die.tick(),
    }
}
