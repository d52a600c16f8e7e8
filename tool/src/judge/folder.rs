//! A folder as a lot: the files' names say which part they belong to, and what they are.
//!
//! `NAME.vram` and `NAME.drawing`, or `NAME.state`, are a part's scene; `all.vram`, `all.drawing` and `all.state` stand
//! for parts that have none. `NAME.left.png`, `NAME.right.png` (or `.raw`) and `NAME.dump` (a whole VRAM) are its
//! captures; those of frame 1 have `.frame1` after NAME.

use std::collections::{BTreeMap, BTreeSet};
use std::fs;
use std::path::{Path, PathBuf};

use super::{Entry, Lot, Part};
use crate::failure::Failure;
use crate::files::{printable, shown};

/// What a file is, by the end of its name.
#[derive(Clone, Copy)]
enum Kind {
    Vram,
    Drawing,
    State,
    Left,
    Right,
    Dump,
}

const ENDS: [(&str, Kind); 8] = [
    (".vram", Kind::Vram),
    (".drawing", Kind::Drawing),
    (".state", Kind::State),
    (".left.png", Kind::Left),
    (".left.raw", Kind::Left),
    (".right.png", Kind::Right),
    (".right.raw", Kind::Right),
    (".dump", Kind::Dump),
];

/// The scenes by name, and the captures by name and frame.
#[derive(Default)]
struct Found {
    scenes: BTreeMap<String, Part>,
    parts: BTreeMap<(String, u32), Part>,
}

pub fn read(folder: &Path) -> Result<Lot, Failure> {
    let failed = |error: std::io::Error| Failure::bad(format!("{}: {error}", shown(folder)));
    let mut names = Vec::new();
    for entry in fs::read_dir(folder).map_err(failed)? {
        names.push(entry.map_err(failed)?.file_name());
    }
    names.sort();
    let mut lot = Lot::default();
    let mut found = Found::default();
    for name in names {
        let path = folder.join(&name);
        // two names of other bytes may be printed alike
        let garbled = name.to_str().is_none().then_some("the name is not UTF-8".to_string());
        let name = name.to_string_lossy().into_owned();
        match ending(&name) {
            Some((part, kind)) if !part.is_empty() => found.take(part, kind, path, garbled),
            _ => match ending(&name.to_lowercase()) {
                Some((part, kind)) if !part.is_empty() => found.mistyped(&name, kind, path),
                _ => lot.unknown.push(printable(&name)),
            },
        }
    }
    found.refuse_names_that_differ_in_case();
    lot.entries = found.entries();
    Ok(lot)
}

/// A name without its ending, and what the ending says.
fn ending(name: &str) -> Option<(&str, Kind)> {
    ENDS.iter().find_map(|(end, kind)| Some((name.strip_suffix(end)?, *kind)))
}

impl Found {
    /// A file of a part; `wrong` says why it may be another's.
    fn take(&mut self, name: &str, kind: Kind, path: PathBuf, wrong: Option<String>) {
        let (base, frame, not_a_frame) = framed(name);
        let part = match kind {
            Kind::Vram | Kind::Drawing | Kind::State => {
                self.scenes.entry(name.to_string()).or_default()
            }
            Kind::Left | Kind::Right | Kind::Dump => self.parts.entry((base, frame)).or_default(),
        };
        let place = match kind {
            Kind::Vram => &mut part.vram,
            Kind::Drawing => &mut part.drawing,
            Kind::State => &mut part.state,
            Kind::Left => &mut part.left,
            Kind::Right => &mut part.right,
            Kind::Dump => &mut part.capture,
        };
        if let Some(other) = place.replace(path.clone()) {
            let [first, second] = [&other, &path].map(|path| shown(path));
            part.refuse(format!("{first} and {second} are the same capture; it must have one"));
        }
        for wrong in [wrong, not_a_frame].into_iter().flatten() {
            part.refuse(format!("{}: {wrong}", shown(&path)));
        }
    }

    /// A file whose ending is known but for its case: the part cannot be judged without knowing what it is.
    fn mistyped(&mut self, name: &str, kind: Kind, path: PathBuf) {
        let known = ENDS.iter().find(|(end, _)| name.to_lowercase().ends_with(end));
        let Some((end, _)) = known.filter(|(end, _)| name.is_char_boundary(name.len() - end.len()))
        else {
            return;
        };
        let part = &name[..name.len() - end.len()];
        self.take(part, kind, path, Some(format!("the ending must be written `{end}`")));
    }

    /// Two names that differ only in case may be one part: neither is judged.
    fn refuse_names_that_differ_in_case(&mut self) {
        let mut spelled: BTreeMap<String, BTreeSet<String>> = BTreeMap::new();
        let names = self.scenes.keys().chain(self.parts.keys().map(|(base, _)| base));
        for name in names {
            spelled.entry(name.to_lowercase()).or_default().insert(name.clone());
        }
        spelled.retain(|_, names| names.len() > 1);
        let wrong = |name: &str| {
            let names: Vec<String> =
                spelled.get(&name.to_lowercase())?.iter().map(|name| printable(name)).collect();
            Some(format!("the names {} differ only in case", names.join(" and ")))
        };
        for (name, part) in &mut self.scenes {
            wrong(name).into_iter().for_each(|wrong| part.refuse(wrong));
        }
        for ((name, _), part) in &mut self.parts {
            wrong(name).into_iter().for_each(|wrong| part.refuse(wrong));
        }
    }

    /// The parts with their scenes; a scene that no capture belongs to is reported as a part without one.
    fn entries(mut self) -> Vec<Entry> {
        let all = self.scenes.remove("all").unwrap_or_default();
        for name in self.scenes.keys() {
            if !self.parts.keys().any(|(base, _)| base == name) {
                self.parts.insert((name.clone(), 0), Part::default());
            }
        }
        let scenes = self.scenes;
        let entry = |((base, frame), captures): ((String, u32), Part)| {
            let scene = scenes.get(&base).cloned().unwrap_or_default();
            let name = if frame == 0 { base } else { format!("{base}.frame{frame}") };
            let Part { left, right, capture, ambiguous, .. } = captures;
            let own = scene.state.is_some() || (scene.vram.is_some() && scene.drawing.is_some());
            let shared = all.ambiguous.clone().filter(|_| !own);
            let ambiguous = ambiguous.or(scene.ambiguous.clone()).or(shared);
            let part = Part { name, frame: Some(frame), left, right, capture, ambiguous, ..scene };
            let mut entry = Entry::of(part);
            entry.complete(&all);
            entry
        };
        self.parts.into_iter().map(entry).collect()
    }
}

impl Part {
    /// Notes the first reason why the part's files are not known.
    fn refuse(&mut self, wrong: String) {
        self.ambiguous.get_or_insert(wrong);
    }
}

/// A capture's name without its frame, and what is wrong with the frame.
fn framed(name: &str) -> (String, u32, Option<String>) {
    let Some((base, last)) = name.rsplit_once('.') else { return (name.to_string(), 0, None) };
    let number = last.to_lowercase().strip_prefix("frame").map(str::to_string);
    match (last, number) {
        ("frame0", _) => (base.to_string(), 0, None),
        ("frame1", _) => (base.to_string(), 1, None),
        (_, Some(number)) if number.chars().all(|c| c.is_ascii_digit()) => {
            let wrong = format!("`{}` is not a frame; write frame0 or frame1", printable(last));
            (base.to_string(), u32::from(number == "1"), Some(wrong))
        }
        _ => (name.to_string(), 0, None),
    }
}
