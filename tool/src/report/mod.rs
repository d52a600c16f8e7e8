//! What judging a lot by a plan came to. Every form of the report is made from this, and the JSON holds all of it.

mod check;
mod csv;
mod forms;
mod header;
mod html;
mod junit;
mod lines;
mod section;
mod stdf;
mod totals;
mod wafers;
mod xml;

pub use crate::files::{read_hashed, FileRead, Hash};
pub use check::names_hash;
pub use forms::Forms;
pub use header::{shard, Captures, Header, Identity, Shard, TestHeader};
pub use lines::{header_json, header_lines, json_lines, read_lines, text};
pub use totals::{Count, Totals};

use std::collections::BTreeMap;

use serde::{Deserialize, Serialize};

use crate::eye::Eye;
use crate::inputs::capture::Level;
use crate::inputs::trace::Record;
use crate::judge::Verdict;
use crate::pictures::difference::{Bounds, Difference};
use crate::pictures::sources::Share;
use crate::plan::Writer;

pub struct Report {
    pub header: Header,
    /// In the lot's order; a part that was tested again has one for each test of it.
    pub parts: Vec<Part>,
    /// Parts that Ctrl-C left unjudged.
    pub not_judged: usize,
}

/// One test of a part.
#[derive(Clone, Debug, Deserialize, Serialize)]
pub struct Part {
    pub part: String,
    /// 1, or the number of the retest.
    pub attempt: u32,
    /// Whether it is the last one, which decides.
    pub decides: bool,
    pub verdict: Verdict,
    pub bin: u16,
    #[serde(default, skip_serializing_if = "Option::is_none")]
    pub wafer: Option<String>,
    #[serde(default, skip_serializing_if = "Option::is_none")]
    pub x: Option<i16>,
    #[serde(default, skip_serializing_if = "Option::is_none")]
    pub y: Option<i16>,
    /// Further columns of the list of parts.
    #[serde(default, skip_serializing_if = "BTreeMap::is_empty")]
    pub columns: BTreeMap<String, String>,
    /// Why it is invalid before any test.
    #[serde(default, skip_serializing_if = "Vec::is_empty")]
    pub problems: Vec<String>,
    pub tests: Vec<Tested>,
    pub files: Vec<FileRead>,
    #[serde(default, skip_serializing_if = "Vec::is_empty")]
    pub details: Vec<Detail>,
}

/// One test of the plan on a part. Eyes that are equal are left out.
#[derive(Clone, Debug, Deserialize, Serialize)]
pub struct Tested {
    pub test: String,
    pub verdict: Verdict,
    #[serde(default, skip_serializing_if = "Vec::is_empty")]
    pub problems: Vec<String>,
    #[serde(default, skip_serializing_if = "Vec::is_empty")]
    pub eyes: Vec<EyeFound>,
    #[serde(default, skip_serializing_if = "Option::is_none")]
    pub trace: Option<Box<TraceFound>>,
    #[serde(default, skip_serializing_if = "Vec::is_empty")]
    pub memories: Vec<MemoryFound>,
}

/// A capture that differs.
#[derive(Clone, Debug, Deserialize, Serialize)]
pub struct EyeFound {
    pub frame: usize,
    pub eye: Eye,
    pub capture: String,
    pub different: usize,
    pub bounds: Bounds,
    pub first: Difference,
    /// What the model shows there, most first; at most ten.
    pub shares: Vec<Share>,
    pub more_shares: usize,
    /// The samples that were taken for each level, where a threshold allows others.
    #[serde(default, skip_serializing_if = "Option::is_none")]
    pub levels: Option<Vec<Level>>,
}

/// A trace that differs.
#[derive(Clone, Debug, Deserialize, Serialize)]
pub struct TraceFound {
    pub file: String,
    /// Records in the file, and those that were asked for.
    pub records: u64,
    pub asked: u64,
    /// The first one that differs, and which of its words, from 0 on.
    pub record: u64,
    pub word: usize,
    /// None where the model's program has ended.
    pub expected: Option<Record>,
    pub seen: Record,
    /// Later records that differ from the model's, which goes on from its own state.
    pub later: u64,
    #[serde(default, skip_serializing_if = "Option::is_none")]
    pub explained: Option<TraceExplained>,
}

/// A memory that differs.
#[derive(Clone, Debug, Deserialize, Serialize)]
pub struct MemoryFound {
    /// As the plan has it: `wram`, or `0x05000000+0x400`.
    pub memory: String,
    pub file: String,
    /// How many bytes differ, and the addresses of the first and the last of them.
    pub different: u64,
    pub address: u32,
    pub last: u32,
    /// The first of them.
    pub expected: u8,
    pub seen: u8,
    /// What wrote it last in the model's run; none where nothing did.
    #[serde(default, skip_serializing_if = "Option::is_none")]
    pub written_by: Option<Writer>,
}

/// What the model does at the first record that differs.
#[derive(Clone, Debug, Default, Deserialize, Serialize)]
pub struct TraceExplained {
    pub instruction: String,
    /// The instruction with its address, halfwords and effects.
    pub did: String,
    /// The registers that the instruction names, and PSW, before it.
    pub operands: Vec<(String, u32)>,
    /// PSW's flags that are set, by name.
    pub flags_expected: String,
    pub flags_seen: String,
    /// What would explain the difference.
    #[serde(default, skip_serializing_if = "Vec::is_empty")]
    pub hints: Vec<String>,
    /// The records before it, with the instruction at each.
    pub before: Vec<String>,
}

/// The pictures of a capture that differs, as PNG in base64, and why the model has the first pixels.
#[derive(Clone, Debug, Deserialize, Serialize)]
pub struct Detail {
    pub test: String,
    pub frame: usize,
    pub eye: Eye,
    pub model: String,
    /// The capture's pixels that differ; the others are transparent. Over the model's picture it shows the capture.
    pub changes: String,
    /// Yellow where the capture is brighter, cyan where it is darker; the others are transparent.
    pub marks: String,
    /// The upper left corner of the piece that is enlarged.
    pub zoom: Zoom,
    pub pixels: Vec<Pixel>,
}

/// A piece of 32 by 24 pixels around the first one that differs.
#[derive(Clone, Copy, Debug, Deserialize, Serialize)]
pub struct Zoom {
    pub left: usize,
    pub top: usize,
}

#[derive(Clone, Debug, Deserialize, Serialize)]
pub struct Pixel {
    #[serde(flatten)]
    pub pixel: Difference,
    pub because: String,
    pub text: String,
}

impl Pixel {
    /// `column 297, row 9: expected 0, seen 2; BKCOL`
    pub fn line(&self) -> String {
        let Difference { x, y, expected, seen } = self.pixel;
        format!("column {x}, row {y}: expected {expected}, seen {seen}; {}", self.because)
    }
}

impl Report {
    /// Every file that was read.
    pub fn files(&self) -> impl Iterator<Item = &FileRead> {
        self.header.files.iter().chain(self.parts.iter().flat_map(|part| &part.files))
    }
}

impl Part {
    /// `die-17`, or `die-17@2` for a retest.
    pub fn title(&self) -> String {
        match self.attempt {
            1 => self.part.clone(),
            number => format!("{}@{number}", self.part),
        }
    }

    /// One line: what is wrong, and what differs.
    pub fn line(&self) -> String {
        let mut all = self.problems.clone();
        for test in self.tests.iter().filter(|test| test.verdict != Verdict::Pass) {
            all.push(format!("{}: {}", test.test, test.line()));
        }
        match all.is_empty() {
            true => "every test passes".to_string(),
            false => all.join("; "),
        }
    }
}

impl Tested {
    pub fn line(&self) -> String {
        let mut all = self.problems.clone();
        let more = match self.eyes.len() {
            0 | 1 => String::new(),
            2 => ", and 1 more capture".to_string(),
            count => format!(", and {} more captures", count - 1),
        };
        all.extend(self.eyes.first().map(|eye| eye.line() + &more));
        all.extend(self.trace.iter().map(|trace| trace.line()));
        all.extend(self.memories.iter().map(MemoryFound::line));
        all.join("; ")
    }
}

impl MemoryFound {
    /// What differs, and what the model wrote there.
    pub fn line(&self) -> String {
        let MemoryFound { memory, different, address, last, expected, seen, .. } = self;
        let count = match different {
            1 => "1 byte differs".to_string(),
            count => format!("{} bytes differ, to 0x{last:08X}", vb::grouped(*count)),
        };
        let writer = match &self.written_by {
            Some(writer) => format!("last written by {}", writer.text()),
            None => "the model's run never writes it".to_string(),
        };
        format!(
            "memory {memory}: from 0x{address:08X} on {count}; expected 0x{expected:02X}, seen 0x{seen:02X} there; {writer}"
        )
    }
}

impl EyeFound {
    pub fn line(&self) -> String {
        let most =
            self.shares.first().map_or(String::new(), |one| format!(", most by {}", one.what));
        let count = vb::grouped(self.different as u64);
        let EyeFound { frame, eye, bounds, .. } = self;
        let levels = self.levels.as_ref().map_or(String::new(), |all| {
            let all: Vec<String> = all.iter().map(Level::text).collect();
            format!("; levels taken: {}", all.join(", "))
        });
        format!(
            "frame {frame}, {eye} eye: {count} of 86,016 pixels differ, {}{most}{levels}",
            bounds.text()
        )
    }
}
