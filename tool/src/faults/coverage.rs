//! Which faults of the list a plan detects, on all cores.

use std::collections::HashMap;
use std::sync::atomic::{AtomicUsize, Ordering};
use std::sync::Mutex;
use std::time::Instant;

use rayon::prelude::*;
use serde::{Deserialize, Serialize};

use super::die::Die;
use super::evidence::Difference;
use super::reference::Reference;
use super::scenes;
use super::simulate::{cost, simulate, Outcome};
use super::{cpu, Effect, Fault};
use crate::failure::Failure;
use crate::interrupt;
use crate::plan::{Expected, Plan};
use crate::reports::progress::Progress;

/// What a plan does with a fault.
#[derive(Clone, Debug, Deserialize, PartialEq, Eq, Serialize)]
pub struct Row {
    pub fault: String,
    pub class: String,
    pub verdict: Verdict,
    /// The test that detects it, and what it shows.
    #[serde(default, skip_serializing_if = "Option::is_none")]
    pub test: Option<String>,
    #[serde(default, flatten)]
    pub difference: Option<Difference>,
    /// Why no program can show it.
    #[serde(default, skip_serializing_if = "Option::is_none")]
    pub reason: Option<String>,
}

#[derive(Clone, Copy, Debug, Deserialize, PartialEq, Eq, Serialize)]
#[serde(rename_all = "kebab-case")]
pub enum Verdict {
    Detected,
    /// It acts, and nothing that the plan asks for shows it.
    Masked,
    NotExercised,
    Equivalent,
}

impl Verdict {
    pub fn word(self) -> &'static str {
        match self {
            Verdict::Detected => "detected",
            Verdict::Masked => "masked",
            Verdict::NotExercised => "never exercised",
            Verdict::Equivalent => "equivalent",
        }
    }
}

/// Runs and watches every test of a plan.
pub fn references<'a>(
    plan: &'a Plan,
    expected: &'a [Expected],
) -> Result<Vec<Reference<'a>>, Failure> {
    let tests: Vec<_> = plan.tests.iter().zip(expected).collect();
    tests.into_par_iter().map(|(test, expected)| Reference::of(test, expected)).collect()
}

/// How many faults were tried, and whether to go on.
pub struct Tally {
    all: usize,
    done: AtomicUsize,
    begun: Instant,
    progress: Mutex<Progress>,
}

impl Tally {
    fn new(all: usize) -> Tally {
        let (done, progress) = (AtomicUsize::new(0), Mutex::new(Progress::new()));
        Tally { all, done, begun: Instant::now(), progress }
    }

    /// One more was tried.
    pub fn one(&self) {
        let done = self.done.fetch_add(1, Ordering::Relaxed) + 1;
        if let Ok(mut progress) = self.progress.try_lock() {
            progress.show(|| how_far(done, self.all, self.begun.elapsed().as_secs_f64()));
        }
    }

    pub fn is_stopped(&self) -> bool {
        interrupt::asked()
    }
}

/// Judges the faults, on all cores, in their order; fewer where Ctrl-C came.
pub fn cover(references: &[Reference], faults: &[&Fault]) -> Vec<Row> {
    let tally = Tally::new(faults.len());
    let is_picture = |fault: &&&Fault| matches!(fault.effect, Effect::Picture(_));
    let pictures: Vec<&Fault> = faults.iter().filter(is_picture).copied().collect();
    let others: Vec<&Fault> = faults.iter().filter(|fault| !is_picture(fault)).copied().collect();
    let new = || Worker { references, dice: references.iter().map(|_| None).collect() };
    let rows = others.par_iter().map_init(new, |worker, fault| {
        let row = (!tally.is_stopped()).then(|| worker.row(fault));
        tally.one();
        row.filter(|_| !tally.is_stopped())
    });
    let mut rows: Vec<Option<Row>> = rows.collect();
    let piece = pictures.len().div_ceil(4 * rayon::current_num_threads()).max(1);
    let drawn = pictures.par_chunks(piece).flat_map_iter(|some| {
        let tried = scenes::cover(references, some, &tally).unwrap_or_default();
        let tried = some.iter().zip(tried);
        tried.map(|(fault, tried)| Some(row(references, fault, tried.outcome, tried.test)))
    });
    rows.extend(drawn.collect::<Vec<Option<Row>>>());
    if let Ok(mut progress) = tally.progress.lock() {
        progress.clear();
    }
    in_order(faults, rows.into_iter().flatten())
}

/// Rows in the order of their faults.
fn in_order(faults: &[&Fault], rows: impl Iterator<Item = Row>) -> Vec<Row> {
    let mut by_name: HashMap<String, Row> = rows.map(|row| (row.fault.clone(), row)).collect();
    faults.iter().filter_map(|fault| by_name.remove(&fault.name)).collect()
}

/// What a report says of a fault.
fn row(references: &[Reference], fault: &Fault, outcome: Outcome, test: usize) -> Row {
    let (verdict, difference) = match outcome {
        _ if fault.equivalent.is_some() => (Verdict::Equivalent, None),
        Outcome::Detected(difference) => (Verdict::Detected, Some(difference)),
        Outcome::Masked => (Verdict::Masked, None),
        Outcome::NotExercised => (Verdict::NotExercised, None),
    };
    Row {
        fault: fault.name.clone(),
        class: fault.class.to_string(),
        verdict,
        test: difference.is_some().then(|| references[test].test.name.clone()),
        difference,
        reason: fault.equivalent.map(str::to_string),
    }
}

/// `1,200 of 10,837 faults, 4 s left`
fn how_far(done: usize, all: usize, seconds: f64) -> String {
    let left = seconds / done as f64 * (all - done) as f64;
    let left = match left.ceil() as u64 {
        seconds @ 0..=119 => format!("{seconds} s"),
        seconds => format!("{} min", seconds.div_ceil(60)),
    };
    let [done, all] = [done, all].map(|count| vb::grouped(count as u64));
    format!("{done} of {all} faults, {left} left")
}

/// What a thread keeps: a die for each test.
struct Worker<'a> {
    references: &'a [Reference<'a>],
    dice: Vec<Option<Die>>,
}

impl Worker<'_> {
    fn row(&mut self, fault: &Fault) -> Row {
        let (outcome, test) = match &fault.effect {
            Effect::Processor(effect) if fault.equivalent.is_none() => self.tried(effect),
            _ => (Outcome::NotExercised, 0),
        };
        row(self.references, fault, outcome, test)
    }

    /// The first test that shows a fault, of those the one first that takes the fewest steps to.
    fn tried(&mut self, effect: &cpu::Effect) -> (Outcome, usize) {
        let costs = self.references.iter().enumerate();
        let costs = costs.filter_map(|(n, reference)| Some((cost(reference, effect)?, n)));
        let mut costs: Vec<(u64, usize)> = costs.collect();
        costs.sort_unstable();
        let mut best = (Outcome::NotExercised, 0);
        for (_, number) in costs {
            match simulate(&self.references[number], effect, &mut self.dice[number]) {
                found @ Outcome::Detected(_) => return (found, number),
                Outcome::Masked => best = (Outcome::Masked, number),
                Outcome::NotExercised => {}
            }
            if interrupt::asked() {
                break;
            }
        }
        best
    }
}
