//! One `[[test]]` of a plan.

use std::path::PathBuf;

use toml::Value;

use super::keys::Keys;
use super::memory::{Region, ALLOWED};
use super::{Asked, Source, Test, When, LARGEST_BIN};
use crate::eye::Eyes;
use crate::failure::Failure;
use crate::files::shown;
use crate::inputs::capture::LARGEST_THRESHOLD;
use crate::inputs::changes::{assignment, placed, Changes, Side};
use crate::inputs::scene::Scene;
use crate::inputs::setup::Setup;

const KEYS: [&str; 19] = [
    "name",
    "rom",
    "state",
    "wram",
    "vram",
    "pak",
    "processor",
    "drawing",
    "set",
    "load",
    "pad",
    "budget",
    "schedule",
    "frames",
    "eyes",
    "trace",
    "memory",
    "threshold",
    "bin",
];
/// The keys that need a program.
const RUNNING: [&str; 8] = ["wram", "pak", "processor", "set", "load", "pad", "budget", "schedule"];
/// A test's budget where it has none.
const BUDGET: u64 = 20_000_000;

impl Test {
    pub fn read(keys: &Keys) -> Result<Test, Failure> {
        keys.known(&KEYS)?;
        let name = name(keys)?;
        let mut files = Vec::new();
        let source = source(keys, &mut files)?;
        let schedule = file(keys, "schedule", &mut files)?;
        let trace = trace(keys)?;
        let is_scene = matches!(source, Source::Scene(_));
        if is_scene && trace != Asked::Nothing {
            return Err(keys.wrong("trace", "trace needs a program; the test has no `rom`"));
        }
        let memory = memory(keys)?;
        if is_scene && !memory.is_empty() {
            return Err(keys.wrong("memory", "memory needs a program; the test has no `rom`"));
        }
        let budget = keys.number("budget", 1..=i64::MAX as u64)?.unwrap_or(BUDGET);
        let frames = frames(keys, is_scene, budget)?;
        if frames.is_empty() && trace == Asked::Nothing && memory.is_empty() {
            return Err(keys.wrong("frames", "the test asks for nothing: no frame and no trace"));
        }
        let threshold = keys.number("threshold", 0..=u64::from(LARGEST_THRESHOLD))?.unwrap_or(0);
        Ok(Test {
            place: format!("{}: line {}: test {name}", shown(keys.file), keys.line("name")),
            name,
            source,
            budget,
            schedule,
            frames,
            eyes: eyes(keys)?,
            trace,
            memory,
            threshold: threshold as u8,
            bin: keys.number("bin", 0..=LARGEST_BIN)?.unwrap_or(2) as u16,
            files,
        })
    }
}

/// A name stands in the names of files, before a dot.
fn name(keys: &Keys) -> Result<String, Failure> {
    let name = keys.text("name")?.ok_or_else(|| keys.wrong("name", "the test has no `name`"))?;
    let plain = |c: char| c.is_ascii_alphanumeric() || "-_".contains(c);
    match name.chars().all(plain) {
        true => Ok(name),
        false => Err(keys.not_allowed("name", "letters, digits, `-` and `_`, as in a file's name")),
    }
}

/// A file, from the plan's folder.
fn file(keys: &Keys, key: &str, files: &mut Vec<PathBuf>) -> Result<Option<PathBuf>, Failure> {
    let path = keys.text(key)?.map(|text| within(keys, text));
    files.extend(path.clone());
    Ok(path)
}

fn within(keys: &Keys, path: impl Into<PathBuf>) -> PathBuf {
    keys.file.parent().unwrap_or(std::path::Path::new("")).join(path.into())
}

fn source(keys: &Keys, files: &mut Vec<PathBuf>) -> Result<Source, Failure> {
    let rom = file(keys, "rom", files)?;
    let state = file(keys, "state", files)?;
    let (vram, drawing) = (file(keys, "vram", files)?, file(keys, "drawing", files)?);
    if state.is_some() {
        let other = ["wram", "vram", "pak", "processor", "drawing"];
        if let Some(other) = other.iter().find(|key| keys.table.contains_key(**key)) {
            let rule =
                format!("`{other}` and `state` are both given; a state holds it, give one of them");
            return Err(keys.wrong(other, rule));
        }
    }
    let Some(rom) = rom else { return scene(keys, Scene { vram, drawing, state }) };
    let (wram, pak) = (file(keys, "wram", files)?, file(keys, "pak", files)?);
    let processor = file(keys, "processor", files)?;
    let changes = changes(keys, files)?;
    let requests = Default::default();
    Ok(Source::Program(Box::new(Setup {
        rom,
        wram,
        vram,
        pak,
        processor,
        drawing,
        state,
        changes,
        requests,
    })))
}

fn scene(keys: &Keys, scene: Scene) -> Result<Source, Failure> {
    if let Some(key) = RUNNING.iter().find(|key| keys.table.contains_key(**key)) {
        return Err(keys.wrong(key, format!("`{key}` needs a program; the test has no `rom`")));
    }
    let whole = scene.state.is_some() || (scene.vram.is_some() && scene.drawing.is_some());
    match whole {
        true => Ok(Source::Scene(scene)),
        false => {
            Err(keys.wrong("name", "the test needs `rom`, or `state`, or `vram` and `drawing`"))
        }
    }
}

fn changes(keys: &Keys, files: &mut Vec<PathBuf>) -> Result<Changes, Failure> {
    let mut set = Vec::new();
    for text in keys.texts("set", "a list of texts such as \"r1=0x10\"")? {
        set.push(assignment(&text).map_err(|rule| keys.wrong("set", format!("set: {rule}")))?);
    }
    let mut load = Vec::new();
    for text in keys.texts("load", "a list of texts such as \"0x05000000=file\"")? {
        let (address, path) =
            placed(&text).map_err(|rule| keys.wrong("load", format!("load: {rule}")))?;
        files.push(within(keys, path));
        load.extend(files.last().map(|path| (address, path.clone())));
    }
    let pad = match keys.text("pad")?.as_deref() {
        None => None,
        Some("end") => Some(Side::End),
        Some("front") => Some(Side::Front),
        Some(_) => return Err(keys.not_allowed("pad", "\"end\" or \"front\"")),
    };
    Ok(Changes { pc: None, set, load, pad })
}

fn eyes(keys: &Keys) -> Result<Eyes, Failure> {
    match keys.text("eyes")?.as_deref() {
        None | Some("both") => Ok(Eyes::Both),
        Some("left") => Ok(Eyes::Left),
        Some("right") => Ok(Eyes::Right),
        Some(_) => Err(keys.not_allowed("eyes", "\"both\", \"left\" or \"right\"")),
    }
}

fn trace(keys: &Keys) -> Result<Asked, Failure> {
    let allowed = "\"none\", \"whole\" or a number of records, at least 1";
    match keys.table.get("trace") {
        None => Ok(Asked::Nothing),
        Some(Value::String(text)) if text == "none" => Ok(Asked::Nothing),
        Some(Value::String(text)) if text == "whole" => Ok(Asked::Whole),
        Some(Value::Integer(count)) if *count > 0 => Ok(Asked::First(*count as u64)),
        Some(_) => Err(keys.not_allowed("trace", allowed)),
    }
}

fn memory(keys: &Keys) -> Result<Vec<Region>, Failure> {
    let mut all = Vec::new();
    for text in keys.texts("memory", ALLOWED)? {
        let region =
            Region::of(&text).map_err(|rule| keys.wrong("memory", format!("memory: {rule}")))?;
        if all.contains(&region) {
            return Err(keys.not_allowed("memory", ALLOWED));
        }
        all.push(region);
    }
    Ok(all)
}

/// When the frames are drawn: at HALTs, or after counts of instructions that grow. A scene's are drawn at once.
fn frames(keys: &Keys, is_scene: bool, budget: u64) -> Result<Vec<When>, Failure> {
    let allowed = match is_scene {
        true => "[0] or [0, 0]: the scene's frames are drawn at once",
        false => {
            "a list of \"halt\" and of counts of instructions, each larger than the one before"
        }
    };
    let wrong = || keys.not_allowed("frames", allowed);
    let Some(value) = keys.table.get("frames") else {
        return Ok(vec![if is_scene { When::After(0) } else { When::Halt }]);
    };
    let mut frames = Vec::new();
    let mut least = 0;
    for one in value.as_array().ok_or_else(wrong)? {
        frames.push(match (one.as_str(), one.as_integer()) {
            (Some("halt"), _) if !is_scene => When::Halt,
            (_, Some(0)) if is_scene && frames.len() < 2 => When::After(0),
            (_, Some(count)) if !is_scene && count >= least => {
                least = count.saturating_add(1);
                When::After(count as u64)
            }
            _ => return Err(wrong()),
        });
    }
    if frames.iter().any(|frame| matches!(frame, When::After(count) if *count > budget)) {
        return Err(keys.wrong(
            "frames",
            format!("a frame is drawn after the budget of {budget} instructions"),
        ));
    }
    Ok(frames)
}
