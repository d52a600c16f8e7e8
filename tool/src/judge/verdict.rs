//! One part judged.

use std::path::Path;

use serde::{Deserialize, Serialize};
use vb::{grouped, COLUMNS, ROWS, VRAM_LENGTH};

use super::{Entry, Part};
use crate::eye::{Eye, Eyes};
use crate::failure::Failure;
use crate::files::{regular, FileRead, Input};
use crate::inputs::capture::{Capture, Level, Wanted};
use crate::inputs::scene::{Read, Scene, CAPTURE, DRAWING, VRAM};
use crate::inputs::state::STATE;
use crate::pictures::difference::{differences, Bounds, Difference};
use crate::pictures::explain::{explain, registers, Question};
use crate::pictures::picture::Picture;
use crate::pictures::sources::{Share, Sources};
use crate::pictures::views::Views;

#[derive(Clone, Copy, Debug, Default, Deserialize, PartialEq, Eq, Serialize)]
#[serde(rename_all = "lowercase")]
pub enum Verdict {
    /// Every capture that was asked for is there, valid and equal.
    Pass,
    /// Something differs.
    Fail,
    /// Something could not be judged: missing, unreadable, ambiguous or out of its range.
    #[default]
    Invalid,
    /// The independent model and the proved library differ.
    Fault,
}

impl Verdict {
    /// The word of every report.
    pub fn word(self) -> &'static str {
        match self {
            Verdict::Pass => "pass",
            Verdict::Fail => "fail",
            Verdict::Invalid => "invalid",
            Verdict::Fault => "fault",
        }
    }
}

/// How much is reported of a part that differs.
#[derive(Clone, Copy)]
pub struct Wish {
    /// How many differing pixels are explained for each eye.
    pub first: usize,
    /// Whether pictures are wanted.
    pub pictures: bool,
}

/// A part with its verdict; its members are those of the JSON.
#[derive(Serialize)]
pub struct Judged {
    pub name: String,
    pub verdict: Verdict,
    pub frame: u32,
    pub vram: Option<String>,
    pub drawing: Option<String>,
    pub eyes: Vec<EyeJudged>,
    /// The captures that were read.
    #[serde(rename = "files")]
    pub captures: Vec<FileRead>,
    /// The files of its scene.
    #[serde(skip)]
    pub scene: Vec<FileRead>,
    #[serde(flatten)]
    pub failure: Option<Failure>,
}

#[derive(Serialize)]
pub struct EyeJudged {
    pub eye: Eye,
    pub capture: String,
    pub equal: bool,
    pub different: usize,
    pub bounds: Option<Bounds>,
    pub shares: Vec<Share>,
    pub first: Vec<Explained>,
    #[serde(skip_serializing_if = "Option::is_none")]
    pub levels: Option<Vec<Level>>,
    #[serde(skip)]
    pub agree: bool,
    /// The first pixel that differs.
    #[serde(skip)]
    pub start: Option<Difference>,
    #[serde(skip)]
    pub shown: Option<Shown>,
}

/// A differing pixel, and why the model has its value.
#[derive(Serialize)]
pub struct Explained {
    #[serde(flatten)]
    pub pixel: Difference,
    pub because: String,
    #[serde(skip)]
    pub text: String,
}

/// PNGs in base64, as a report has them: the model's picture, what the capture changes, and marks where it does.
#[derive(Clone)]
pub struct Shown {
    pub model: String,
    pub changes: String,
    pub marks: String,
}

pub fn judge(entry: &Entry, wish: Wish) -> Judged {
    let mut judged = Judged {
        name: entry.name.clone(),
        verdict: Verdict::Invalid,
        frame: 0,
        vram: None,
        drawing: None,
        eyes: Vec::new(),
        captures: Vec::new(),
        scene: Vec::new(),
        failure: None,
    };
    let done = match &entry.part {
        Ok(part) => judged.part(part, wish),
        Err(failure) => Err(failure.clone()),
    };
    judged.failure = done.err();
    judged.verdict = match &judged {
        Judged { eyes, .. } if eyes.iter().any(|eye| !eye.agree) => Verdict::Fault,
        Judged { failure: Some(_), .. } => Verdict::Invalid,
        Judged { eyes, .. } if eyes.iter().all(|eye| eye.equal) => Verdict::Pass,
        _ => Verdict::Fail,
    };
    judged
}

impl Judged {
    /// Judges each eye that there is a capture of. What is missing or wrong is the failure, all of it in one line.
    fn part(&mut self, part: &Part, wish: Wish) -> Result<(), Failure> {
        self.frame = part.frame.unwrap_or(0);
        let Part { state, vram, drawing, .. } = part.clone();
        for (path, wanted) in [(&state, STATE), (&vram, VRAM), (&drawing, DRAWING)] {
            if let Some(path) = path.as_deref().filter(|path| *path != Path::new("-")) {
                regular(path, wanted)?;
            }
        }
        let scene = Scene { state, vram, drawing }.read()?;
        self.scene.clone_from(&scene.files);
        (self.vram, self.drawing) = (Some(scene.vram.name()), Some(scene.drawing_file.name()));
        let drawn = scene.drawn(self.frame)?;
        let mut wrong: Vec<Failure> = Vec::new();
        for eye in Eye::BOTH {
            if let Err(failure) = self.eye(part, &scene, &drawn, eye, wish) {
                if wrong.iter().all(|before| before.message != failure.message) {
                    wrong.push(failure);
                }
            }
        }
        let messages: Vec<&str> = wrong.iter().map(|one| one.message.as_str()).collect();
        let message = messages.join("; ");
        match wrong.first() {
            Some(first) => Err(Failure { message, ..first.clone() }),
            None => Ok(()),
        }
    }

    fn eye(
        &mut self,
        part: &Part,
        scene: &Read,
        drawn: &[u8],
        eye: Eye,
        wish: Wish,
    ) -> Result<(), Failure> {
        let Some(input) = capture(part, eye)? else { return Ok(()) };
        FileRead::whole(&input).noted(&mut self.captures)?;
        let threshold = part.threshold.unwrap_or(0);
        let wanted = Wanted { frame: self.frame, eye: eye.number(), threshold };
        let capture = Capture::read(&input, wanted)?;
        let expected = Views::one(drawn, self.frame, eye);
        self.eyes.push(judge_eye(scene, eye, input.name(), expected, capture, wish)?);
        Ok(())
    }

    /// One line for a list: what is wrong, and what differs.
    pub fn line(&self) -> String {
        let found: Vec<String> = self.eyes.iter().map(EyeJudged::line).collect();
        let found = format!("frame {}, {}", self.frame, found.join("; "));
        match &self.failure {
            None => found,
            Some(failure) if self.eyes.is_empty() => failure.message.clone(),
            Some(failure) => format!("{}; {found}", failure.message),
        }
    }
}

/// An eye's capture; none where it is not there and was not asked for.
fn capture(part: &Part, eye: Eye) -> Result<Option<Input>, Failure> {
    if let Some(path) = &part.capture {
        regular(path, "a whole VRAM of 262,144 bytes")?;
        let input = Input::read(path, "a whole VRAM of 262,144 bytes")?;
        if input.bytes.len() != VRAM_LENGTH {
            let rule = "a capture of both eyes is a whole VRAM of 262,144 bytes";
            return Err(Failure::bad(input.wrong(rule)));
        }
        return Ok(Some(input));
    }
    let path = if eye == Eye::Left { &part.left } else { &part.right };
    let asked = part.eyes.unwrap_or_default();
    match path {
        Some(path) => {
            regular(path, CAPTURE)?;
            Input::read(path, CAPTURE).map(Some)
        }
        None if part.left.is_none() && part.right.is_none() => {
            Err(Failure::bad("it has no capture: left and right, or a whole VRAM of both"))
        }
        None if asked.need(eye) => Err(Failure::bad(missing(eye, asked))),
        None => Ok(None),
    }
}

/// What is said of an eye that has no capture.
pub fn missing(eye: Eye, asked: Eyes) -> String {
    let other = eye.other();
    match asked {
        Eyes::Both => format!(
            "no capture of the {eye} eye; both eyes are asked for (--eyes {other} asks for one)"
        ),
        _ => format!("no capture of the {eye} eye, which was asked for"),
    }
}

fn judge_eye(
    scene: &Read,
    eye: Eye,
    name: String,
    expected: Picture,
    capture: Capture,
    wish: Wish,
) -> Result<EyeJudged, Failure> {
    let found = differences(&expected, &capture.picture);
    let bounds = Bounds::of(&found);
    let mut judged = EyeJudged {
        eye,
        capture: name,
        equal: found.is_empty(),
        different: found.len(),
        bounds,
        shares: Vec::new(),
        first: Vec::new(),
        levels: capture.levels,
        agree: true,
        start: found.first().copied(),
        shown: None,
    };
    if let Some(bounds) = bounds {
        let seen = &capture.picture;
        judged.shown = wish.pictures.then(|| Shown {
            model: base64::encode(expected.png(1)),
            changes: base64::encode(expected.changes(seen)),
            marks: base64::encode(expected.marks(seen)),
        });
        let vram = &scene.vram.bytes;
        let sources = Sources::of(vram, &registers(&scene.drawing), eye.model(), &bounds);
        judged.shares = sources.shares(vram, &found);
        judged.agree = sources.agree(&found);
        let first = found.iter().take(wish.first).map(|pixel| explained(scene, eye, pixel));
        judged.first = first.collect::<Result<_, _>>()?;
    }
    Ok(judged)
}

fn explained(scene: &Read, eye: Eye, pixel: &Difference) -> Result<Explained, Failure> {
    let why = explain(&Question {
        vram: &scene.vram.bytes,
        drawing: &scene.drawing,
        eye: eye.model(),
        x: pixel.x as u32,
        y: pixel.y as u32,
        library_value: pixel.expected,
        every_object: false,
    })?;
    Ok(Explained { pixel: *pixel, because: why.winner(), text: why.text() })
}

impl EyeJudged {
    fn line(&self) -> String {
        let Some(bounds) = &self.bounds else { return format!("{} eye equal", self.eye) };
        let (count, all) = (grouped(self.different as u64), grouped((COLUMNS * ROWS) as u64));
        let most =
            self.shares.first().map_or(String::new(), |share| format!(", most by {}", share.what));
        format!("{} eye: {count} of {all} pixels, {}{most}", self.eye, bounds.text())
    }
}
