//! An attempt at a part judged by a plan, test by test.

use super::case::{judge, Judged, PictureFound};
use super::evidence::Files;
use super::Verdict;
use crate::lot::{Attempt, Part};
use crate::pictures::difference::Bounds;
use crate::pictures::explain::registers;
use crate::pictures::sources::Sources;
use crate::plan::{Expected, Frame, Plan};
use crate::report::{self, EyeFound, FileRead, Tested};

/// Sources of differing pixels that are kept for an eye.
const KEPT: usize = 10;

/// What parts are compared with.
#[derive(Clone, Copy)]
pub struct Model<'a> {
    pub plan: &'a Plan,
    pub expected: &'a [Expected],
    /// The plan's files.
    pub files: &'a [FileRead],
}

pub fn judge_attempt(model: Model, part: &Part, attempt: &Attempt, decides: bool) -> report::Part {
    let mut files = Vec::new();
    let mut tests = Vec::new();
    if attempt.problems.is_empty() {
        for number in 0..model.plan.tests.len() {
            tests.push(judge_test(model, attempt, number, &mut files));
        }
    }
    let verdict = verdict(!attempt.problems.is_empty(), tests.iter().map(|test| test.verdict));
    let failed = tests.iter().position(|test| test.verdict == Verdict::Fail);
    let bin = match (verdict, failed) {
        (Verdict::Pass, _) => model.plan.pass_bin,
        (Verdict::Fail, Some(test)) => model.plan.tests[test].bin,
        _ => model.plan.invalid_bin,
    };
    let listed = part.listed.clone();
    report::Part {
        part: part.name.clone(),
        attempt: attempt.number,
        decides,
        verdict,
        bin,
        wafer: listed.wafer,
        x: listed.x,
        y: listed.y,
        columns: listed.columns.into_iter().collect(),
        problems: attempt.problems.clone(),
        tests,
        files,
        details: Vec::new(),
    }
}

/// Of several: a fault of ours first, then what could not be judged, then what differs.
fn verdict(problems: bool, all: impl Iterator<Item = Verdict>) -> Verdict {
    let start = if problems { Verdict::Invalid } else { Verdict::Pass };
    all.fold(start, |worst, one| match (worst, one) {
        (Verdict::Fault, _) | (_, Verdict::Fault) => Verdict::Fault,
        (Verdict::Invalid, _) | (_, Verdict::Invalid) => Verdict::Invalid,
        (Verdict::Fail, _) | (_, Verdict::Fail) => Verdict::Fail,
        _ => Verdict::Pass,
    })
}

fn judge_test(model: Model, attempt: &Attempt, number: usize, read: &mut Vec<FileRead>) -> Tested {
    let (test, expected) = (&model.plan.tests[number], &model.expected[number]);
    let judged = match attempt.files.slots().any(|slot| slot.test == number) {
        true => judge(test, expected, &mut Files { test, expected, number, attempt, read }),
        false => Judged { problems: vec!["it has no file".to_string()], ..Judged::default() },
    };
    Tested::of(&test.name, judged, expected)
}

impl Tested {
    /// A case as every report has it: where a picture differs, with what the model shows there. Where the independent
    /// model has another value there than the library, that is the verdict.
    fn of(test: &str, judged: Judged, expected: &Expected) -> Tested {
        let Judged { mut verdict, problems, pictures, trace, memories, .. } = judged;
        let mut eyes = Vec::new();
        for picture in pictures {
            let (found, agrees) = explained(picture, &expected.frames);
            if !agrees {
                verdict = Verdict::Fault;
            }
            eyes.extend(found);
        }
        let test = test.to_string();
        Tested { test, verdict, problems, eyes, trace: trace.map(Box::new), memories }
    }
}

/// A capture that differs, and whether the independent model agrees with the library there.
fn explained(picture: PictureFound, frames: &[Frame]) -> (Option<EyeFound>, bool) {
    let PictureFound { frame, eye, shot, found } = picture;
    let Some(bounds) = Bounds::of(&found) else { return (None, true) };
    let Frame { vram, drawing, .. } = &frames[frame];
    let sources = Sources::of(vram, &registers(drawing), eye.model(), &bounds);
    let mut shares = sources.shares(vram, &found);
    let more_shares = shares.len().saturating_sub(KEPT);
    shares.truncate(KEPT);
    let agrees = sources.agree(&found);
    let (capture, levels) = (shot.name, shot.levels);
    let (different, first) = (found.len(), found[0]);
    let eye =
        EyeFound { frame, eye, capture, different, bounds, first, shares, more_shares, levels };
    (Some(eye), agrees)
}
