//! `vbmodel expect`: what the model expects of a plan's tests, as files, for a bench that compares by itself.

use std::path::PathBuf;

use clap::Args;
use serde::Serialize;
use vb::grouped;

use super::Report;
use crate::failure::Failure;
use crate::files::Outputs;
use crate::interrupt;
use crate::judge::model_of;
use crate::plan::{Expected, Plan, Records, Region, Test};

#[derive(Args)]
#[command(after_help = "Example: what the demo's lot should show
  vbmodel demo --lot demo-lot
  vbmodel expect --plan demo-lot/plan.toml --out expected

For each test and frame there are TEST.frameN.left.png and TEST.frameN.right.png, and TEST.frameN.vram and
TEST.frameN.drawing, from which it was drawn (for `vbmodel why`); TEST.trace has the records where the plan asks for them,
and TEST.wram, TEST.vram, TEST.pak and TEST.05000000+400.bin the memories and ranges.
Exit status: 0 written; 2 a plan or a file is wrong, and then nothing is written.")]
pub struct Options {
    /// The test plan, TOML
    #[arg(long, value_name = "FILE")]
    plan: PathBuf,
    /// The folder for the files
    #[arg(long, value_name = "FOLDER", default_value = "expected")]
    out: PathBuf,
    /// Print JSON
    #[arg(long)]
    pub json: bool,
}

/// What is reported; its members are those of the JSON.
#[derive(Serialize)]
struct Reported {
    plan: String,
    tests: Vec<TestReported>,
    written: Vec<String>,
}

#[derive(Serialize)]
struct TestReported {
    name: String,
    instructions: u64,
    frames: usize,
    records: Option<u64>,
    memories: Vec<String>,
}

pub fn run(options: &Options) -> Result<Report, Failure> {
    let plan = Plan::read(&options.plan)?;
    interrupt::watch();
    let (expected, _) = model_of(&plan)?;
    let mut outputs = Outputs::default();
    for (test, expected) in plan.tests.iter().zip(&expected) {
        frames(options, test, expected, &mut outputs);
        if let Some(records) = &expected.records {
            outputs.add_in(&options.out, format!("{}.trace", test.name), bytes(records)?);
        }
        for memory in &expected.memories {
            let name = format!("{}.{}", test.name, memory.region.file());
            outputs.add_in(&options.out, name, memory.bytes.clone());
        }
    }
    outputs.write()?;
    let written = outputs.paths();
    let reported = |(test, expected): (&Test, &Expected)| TestReported {
        name: test.name.clone(),
        instructions: expected.count,
        frames: expected.frames.len(),
        records: expected.records.as_ref().map(Records::count),
        memories: test.memory.iter().map(Region::to_string).collect(),
    };
    let tests = plan.tests.iter().zip(&expected).map(reported).collect();
    let reported = Reported { plan: plan.name.clone(), tests, written };
    Ok(Report::new(reported.text(), &reported, 0))
}

fn frames(options: &Options, test: &Test, expected: &Expected, outputs: &mut Outputs) {
    for (number, frame) in expected.frames.iter().enumerate() {
        let mut add = |end: &str, bytes: Vec<u8>| {
            outputs.add_in(&options.out, format!("{}.frame{number}.{end}", test.name), bytes);
        };
        add("left.png", frame.views.left.png(1));
        add("right.png", frame.views.right.png(1));
        add("vram", frame.vram.clone());
        add("drawing", frame.drawing.to_bytes());
    }
}

/// The records as a trace has them.
fn bytes(records: &Records) -> Result<Vec<u8>, Failure> {
    let mut bytes = Vec::new();
    let length = records.count() as usize * vb::RECORD_LENGTH;
    let read = records.bytes(0, length, &mut bytes);
    read.map_err(|error| Failure::bad(format!("the model's records: {error}")))?;
    Ok(bytes)
}

impl Reported {
    fn text(&self) -> String {
        let mut text = String::new();
        for TestReported { name, instructions, frames, records, memories } in &self.tests {
            let records = records.map_or(String::new(), |n| format!(", {} records", grouped(n)));
            let memories: String = memories.iter().map(|one| format!(", {one}")).collect();
            text += &format!(
                "{name}: {} instructions, {frames} frames{records}{memories}\n",
                grouped(*instructions)
            );
        }
        text.extend(self.written.iter().map(|path| format!("written: {path}\n")));
        text
    }
}
