//! A test plan: the programs that a part must run, and what it must show. It is read whole before any part is.

mod keys;
mod memory;
mod records;
mod run;
mod test;
mod writers;

pub use memory::{Memory, Region};
pub use records::Records;
pub use run::{again, expected, watched, Ended, Expected, Frame, Watch};
pub use writers::{writers, Writer};

use std::collections::HashSet;
use std::path::{Path, PathBuf};

use toml::value::{Table, Value};

use crate::eye::Eyes;
use crate::failure::Failure;
use crate::files::{read_hashed, shown, FileRead};
use crate::inputs::scene::Scene;
use crate::inputs::setup::Setup;
use keys::Keys;

/// The largest number of a bin.
pub const LARGEST_BIN: u64 = 32_767;

const PLAN: &str = "a test plan, TOML with a table `[[test]]` for each test";

pub struct Plan {
    pub file: PathBuf,
    /// The file as it was parsed.
    pub read: FileRead,
    pub name: String,
    /// The bin of a part that passes, and that of one that could not be judged.
    pub pass_bin: u16,
    pub invalid_bin: u16,
    pub tests: Vec<Test>,
}

pub struct Test {
    pub name: String,
    pub source: Source,
    /// The most instructions.
    pub budget: u64,
    pub schedule: Option<PathBuf>,
    /// When the frames are drawn, the first one into frame buffer 0, the next into 1, and so on in turn.
    pub frames: Vec<When>,
    pub eyes: Eyes,
    pub trace: Asked,
    /// The memories that a part must hold when the test has ended.
    pub memory: Vec<Region>,
    /// How far a PNG's sample may lie from its level.
    pub threshold: u8,
    /// The bin of a part whose first failed test this is.
    pub bin: u16,
    /// Where the plan has it, for messages.
    pub place: String,
    /// The files that it names.
    pub files: Vec<PathBuf>,
}

/// What is drawn from.
pub enum Source {
    /// A program that is run.
    Program(Box<Setup>),
    /// VRAM and drawing registers as they are.
    Scene(Scene),
}

/// When a frame is drawn.
#[derive(Clone, Copy, Debug, PartialEq, Eq)]
pub enum When {
    /// At the next HALT.
    Halt,
    /// After this many instructions.
    After(u64),
}

/// The records that a part's trace must have.
#[derive(Clone, Copy, Debug, PartialEq, Eq)]
pub enum Asked {
    Nothing,
    /// To the program's end.
    Whole,
    First(u64),
}

impl Plan {
    pub fn read(file: &Path) -> Result<Plan, Failure> {
        let (input, read) = read_hashed(file, PLAN)?;
        let text = String::from_utf8(input.bytes.clone())
            .map_err(|_| Failure::bad(input.wrong("not a text file")))?;
        let text = text.trim_start_matches('\u{FEFF}');
        let table: Table = toml::from_str(text).map_err(|error| syntax(file, &error))?;
        let keys = Keys { file, text, test: None, table: &table };
        keys.known(&["name", "pass_bin", "invalid_bin", "test"])?;
        let name = keys.text("name")?;
        let name = name.ok_or_else(|| keys.wrong("name", "the plan has no `name`"))?;
        let bin =
            |key: &str, default: u64| Ok(keys.number(key, 0..=LARGEST_BIN)?.unwrap_or(default));
        let (pass_bin, invalid_bin) = (bin("pass_bin", 1)? as u16, bin("invalid_bin", 0)? as u16);
        if pass_bin == invalid_bin {
            let rule = format!("invalid_bin is {invalid_bin}, as is pass_bin; it must be another");
            return Err(keys.wrong("invalid_bin", rule));
        }
        let tests = tests(&keys, pass_bin)?;
        Ok(Plan { file: file.to_path_buf(), read, name, pass_bin, invalid_bin, tests })
    }

    /// Every file that the plan names, itself the first.
    pub fn files(&self) -> Vec<&Path> {
        let mut seen = HashSet::new();
        let all = std::iter::once(&self.file).chain(self.tests.iter().flat_map(|test| &test.files));
        all.map(PathBuf::as_path).filter(|path| seen.insert(*path)).collect()
    }
}

fn syntax(file: &Path, error: &toml::de::Error) -> Failure {
    let message = error.to_string();
    let what = message.split(" at line ").next().unwrap_or_default();
    let line = error.line_col().map_or(String::new(), |(line, _)| format!("line {}: ", line + 1));
    Failure::bad(format!("{}: {line}not TOML: {what}", shown(file)))
}

/// The tests of a plan whose parts that pass have this bin: no part that fails may have it.
fn tests(keys: &Keys, pass_bin: u16) -> Result<Vec<Test>, Failure> {
    let wrong = || keys.not_allowed("test", "tables `[[test]]`, at least one");
    let all = keys.table.get("test").and_then(Value::as_array).ok_or_else(wrong)?;
    let mut tests: Vec<Test> = Vec::new();
    for (number, value) in all.iter().enumerate() {
        let table = value.as_table().ok_or_else(wrong)?;
        let keys = Keys { test: Some(number), table, ..*keys };
        let test = Test::read(&keys)?;
        let same = |other: &Test| other.name.eq_ignore_ascii_case(&test.name);
        if tests.iter().any(same) {
            let rule = format!("the name `{}` is given to an earlier test", test.name);
            return Err(keys.wrong("name", rule));
        }
        if test.bin == pass_bin {
            let rule = format!("bin is {pass_bin}, as is pass_bin; it must be another");
            return Err(keys.wrong("bin", rule));
        }
        tests.push(test);
    }
    if tests.is_empty() {
        return Err(wrong());
    }
    Ok(tests)
}
