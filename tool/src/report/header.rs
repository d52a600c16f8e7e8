//! The head of every form of a report: what was judged, by which model, and when.

use std::path::PathBuf;
use std::time::SystemTime;

use serde::{Deserialize, Serialize};

use super::{FileRead, Hash};
use crate::eye::Eyes;
use crate::failure::Failure;
use crate::files::printable;
use crate::plan::{Expected, Plan, Records};
use crate::reports::invocation;
use crate::version::{version, Version};

#[derive(Clone, Debug, Deserialize, PartialEq, Serialize)]
pub struct Header {
    /// The plan's name and file; none where parts were judged by their captures alone.
    #[serde(default, skip_serializing_if = "Option::is_none")]
    pub plan: Option<String>,
    #[serde(default, skip_serializing_if = "Option::is_none")]
    pub plan_file: Option<String>,
    /// What such parts were judged by.
    #[serde(default, skip_serializing_if = "Option::is_none")]
    pub captures: Option<Captures>,
    pub lot: String,
    pub model: Identity,
    pub command: String,
    pub date: String,
    pub pass_bin: u16,
    pub invalid_bin: u16,
    pub tests: Vec<TestHeader>,
    pub allow_extra: bool,
    #[serde(default, skip_serializing_if = "Option::is_none")]
    pub shard: Option<Shard>,
    /// Parts of the whole lot, and the SHA-256 of their names, a line each.
    pub parts: usize,
    #[serde(default, skip_serializing_if = "Option::is_none")]
    pub names: Option<Hash>,
    /// Files of the lot that no rule takes.
    pub unknown: Vec<String>,
    /// The plan's files, and the list of parts; or the manifest, and scenes.
    pub files: Vec<FileRead>,
}

/// What holds for parts of a lot of captures that do not say it themselves.
#[derive(Clone, Debug, Default, Deserialize, PartialEq, Eq, Serialize)]
pub struct Captures {
    #[serde(default, skip_serializing_if = "Option::is_none")]
    pub state: Option<PathBuf>,
    #[serde(default, skip_serializing_if = "Option::is_none")]
    pub vram: Option<PathBuf>,
    #[serde(default, skip_serializing_if = "Option::is_none")]
    pub drawing: Option<PathBuf>,
    #[serde(default, skip_serializing_if = "Option::is_none")]
    pub threshold: Option<u8>,
    pub eyes: Eyes,
}

/// Which model it was.
#[derive(Clone, Debug, Deserialize, PartialEq, Eq, Serialize)]
pub struct Identity {
    pub version: String,
    pub commit: String,
    pub vb_version: u32,
    pub library: String,
    /// SHA-256 of the proved archive in the library.
    pub archive: String,
    /// Whether the archive was proved in this build, and by which kit.
    pub proved: String,
}

#[derive(Clone, Debug, Deserialize, PartialEq, Eq, Serialize)]
pub struct TestHeader {
    pub name: String,
    pub bin: u16,
    pub frames: usize,
    /// Records that a part's trace must have.
    pub records: Option<u64>,
    /// Instructions that the model's program took.
    pub instructions: u64,
}

/// Part K of N of a lot.
#[derive(Clone, Copy, Debug, Deserialize, PartialEq, Eq, Serialize)]
pub struct Shard {
    pub number: usize,
    pub of: usize,
}

/// `3/8`
pub fn shard(text: &str) -> Result<Shard, String> {
    let wrong = || format!("`{text}` is not a shard; write K/N, K from 1 to N, such as 3/8");
    let (number, of) = text.split_once('/').ok_or_else(wrong)?;
    let parse = |text: &str| text.parse::<usize>().map_err(|_| wrong());
    let shard = Shard { number: parse(number)?, of: parse(of)? };
    (1..=shard.of).contains(&shard.number).then_some(shard).ok_or_else(wrong)
}

impl Shard {
    /// Whether the n-th part of the lot is this shard's.
    pub fn has(&self, n: usize) -> bool {
        n % self.of == self.number - 1
    }
}

impl Identity {
    pub fn now() -> Identity {
        let Version { version, commit, vb_version, library, archive, proved } = version();
        let (version, commit) = (version.to_string(), commit.to_string());
        Identity { version, commit, vb_version, library, archive, proved }
    }

    pub fn text(&self) -> String {
        let Identity { version, commit, vb_version, library, archive, proved } = self;
        format!(
            "vbmodel {version}, {commit}, VB_VERSION {vb_version}, {library}, proved archive SHA-256 {archive}, {proved}"
        )
    }
}

impl Header {
    pub fn of(plan: &Plan, expected: &[Expected], lot: &str) -> Header {
        let test = |(test, expected): (&crate::plan::Test, &Expected)| TestHeader {
            name: test.name.clone(),
            bin: test.bin,
            frames: test.frames.len(),
            records: expected.records.as_ref().map(Records::count),
            instructions: expected.count,
        };
        Header {
            plan: Some(plan.name.clone()),
            plan_file: Some(plan.file.to_string_lossy().into_owned()),
            pass_bin: plan.pass_bin,
            invalid_bin: plan.invalid_bin,
            tests: plan.tests.iter().zip(expected).map(test).collect(),
            ..Header::bare(lot)
        }
    }

    /// Model, command and date, with nothing judged yet.
    pub fn bare(lot: &str) -> Header {
        Header {
            plan: None,
            plan_file: None,
            captures: None,
            lot: lot.to_string(),
            model: Identity::now(),
            command: invocation::command(),
            date: humantime::format_rfc3339_seconds(SystemTime::now()).to_string(),
            pass_bin: 1,
            invalid_bin: 0,
            tests: Vec::new(),
            allow_extra: false,
            shard: None,
            parts: 0,
            names: None,
            unknown: Vec::new(),
            files: Vec::new(),
        }
    }

    /// `demo (demo/plan.toml)`, where there is a plan.
    pub fn plan_text(&self) -> Option<String> {
        let file = self.plan_file.as_deref().unwrap_or_default();
        self.plan.as_ref().map(|plan| printable(&format!("{plan} ({file})")))
    }

    /// Whether another report is one of the same plan, lot and model.
    pub fn joins(&self, other: &Header) -> Result<(), Failure> {
        let differs = |what: &str, one: &str, two: &str| {
            Err(Failure::bad(format!("{what} is `{two}`; the first report has `{one}`")))
        };
        let plain = |header: &Header| Header {
            command: String::new(),
            date: String::new(),
            shard: None,
            ..header.clone()
        };
        match (plain(self), plain(other)) {
            (one, two) if one == two => Ok(()),
            (one, two) if one.plan != two.plan => {
                let named = |header: &Header| header.plan.clone().unwrap_or_default();
                differs("the plan", &named(&one), &named(&two))
            }
            (one, two) if one.lot != two.lot => differs("the lot", &one.lot, &two.lot),
            (one, two) if one.model != two.model => {
                differs("the model", &one.model.text(), &two.model.text())
            }
            (one, two) if one.files != two.files => {
                let file = two.files.iter().find(|file| !one.files.contains(file));
                let file = file.map_or("one is missing", |file| file.path.as_str()).to_string();
                Err(Failure::bad(format!("a file of the plan or the lot differs: {file}")))
            }
            (one, two) if (one.parts, one.names) != (two.parts, two.names) => {
                let rule = "every shard must be judged from the same lot";
                Err(Failure::bad(format!("the lot had other parts; {rule}")))
            }
            _ => Err(Failure::bad("the tests or the options differ")),
        }
    }
}
