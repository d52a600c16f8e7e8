//! Faults of the image processor in a plan: the frames are drawn again from what they were drawn from. A program is run
//! again only where it can see what was drawn, or where the plan asks for VRAM.

use super::coverage::Tally;
use super::die::Die;
use super::reference::Reference;
use super::simulate::{picture, simulate_drawing, Outcome};
use super::vip::Scene;
use super::{Effect, Fault};

/// A fault on its way through the tests.
pub struct Tried<'a> {
    fault: &'a Fault,
    pub outcome: Outcome,
    /// The test that shows it.
    pub test: usize,
    /// Whether it changed something in the present test beyond its pictures.
    elsewhere: bool,
}

/// What became of each fault; fewer were tried where Ctrl-C came.
pub fn cover<'a>(
    references: &[Reference],
    faults: &[&'a Fault],
    tally: &Tally,
) -> Option<Vec<Tried<'a>>> {
    let begin = |fault: &&'a Fault| {
        let (outcome, test, elsewhere) = (Outcome::NotExercised, 0, false);
        Tried { fault, outcome, test, elsewhere }
    };
    let mut all: Vec<Tried> = faults.iter().map(begin).collect();
    for (test, reference) in references.iter().enumerate() {
        for tried in &mut all {
            tried.elsewhere = false;
        }
        for number in 0..reference.expected.frames.len() {
            for tried in drawn(reference, number, &mut all, tally)? {
                tried.test = test;
            }
        }
        let mut die = None;
        for tried in all.iter_mut().filter(|tried| !tried.is_detected()) {
            tried.run(reference, &mut die);
            if tried.is_detected() {
                tried.test = test;
                tally.one();
            }
        }
    }
    all.iter().filter(|tried| !tried.is_detected()).for_each(|_| tally.one());
    Some(all)
}

/// Draws a frame with each fault that was not detected before; gives those that it shows.
fn drawn<'b, 'a>(
    reference: &Reference,
    number: usize,
    all: &'b mut [Tried<'a>],
    tally: &Tally,
) -> Option<Vec<&'b mut Tried<'a>>> {
    let frame = &reference.expected.frames[number];
    let scene = Scene::new(&frame.vram, &frame.drawing, frame.buffer);
    let mut shown = Vec::new();
    for tried in all.iter_mut().filter(|tried| !tried.is_detected()) {
        let Effect::Picture(effect) = &tried.fault.effect else { continue };
        let Some(vram) = scene.after(effect) else { continue };
        tried.outcome = Outcome::Masked;
        tried.elsewhere |= beyond_images(&vram, scene.plain(), frame.buffer);
        if let Some(found) = picture(reference, &vram, number) {
            tried.outcome = Outcome::Detected(found);
            tally.one();
            shown.push(tried);
        }
        if tally.is_stopped() {
            return None;
        }
    }
    Some(shown)
}

impl Tried<'_> {
    fn is_detected(&self) -> bool {
        matches!(self.outcome, Outcome::Detected(_))
    }

    /// Runs the program with the fault where it can see what was drawn, or the plan asks for VRAM.
    fn run(&mut self, reference: &Reference, die: &mut Option<Die>) {
        let Some(program) = &reference.program else { return };
        let asked = reference.expected.memories.iter().any(|memory| memory.address >> 24 & 7 == 0);
        let acts = self.outcome == Outcome::Masked;
        if !acts || !(program.reads_pictures || asked || self.elsewhere) {
            return;
        }
        if let found @ Outcome::Detected(_) = simulate_drawing(reference, self.fault, die) {
            self.outcome = found;
        }
    }
}

/// Whether a drawing left something else outside the images of its frame.
fn beyond_images(one: &[u8], two: &[u8], buffer: u32) -> bool {
    let [left, right] = [0, 1].map(|eye| vb::image_offset(buffer, eye));
    let length = vb::IMAGE_LENGTH;
    let parts = [0..left, left + length..right, right + length..one.len()];
    parts.into_iter().any(|part| one[part.clone()] != two[part])
}
