//! A lot read from a manifest or a folder.

use std::collections::{BTreeMap, HashSet};
use std::fs;
use std::path::{Path, PathBuf};

use vb::VRAM_LENGTH;

use super::{folder, manifest, Entry, Part};
use crate::failure::Failure;
use crate::files::{printable, shown, FileRead};

/// The entries in order, and the files of a folder that no naming rule takes.
#[derive(Default)]
pub struct Lot {
    pub entries: Vec<Entry>,
    pub unknown: Vec<String>,
    /// The manifest.
    pub files: Vec<FileRead>,
}

/// Which part names a capture, and the frame and eye that it is for; a whole VRAM is for both eyes.
struct Owner {
    number: usize,
    frame: u32,
    eye: Option<u32>,
}

impl Owner {
    /// Whether both name the same picture of a file.
    fn shares(&self, other: &Owner, is_vram: bool) -> bool {
        let same_eye = self.eye.is_none() || other.eye.is_none() || self.eye == other.eye;
        let same_part = self.number == other.number;
        match is_vram {
            true => !same_part && self.frame == other.frame && same_eye,
            false => !same_part || self.eye != other.eye,
        }
    }
}

impl Lot {
    /// `defaults` stands in for what the lot itself leaves out.
    pub fn read(path: &Path, defaults: &Part) -> Result<Lot, Failure> {
        let mut lot = match path.extension().and_then(|end| end.to_str()) {
            _ if path.is_dir() => folder::read(path)?,
            Some("toml") => manifest::toml(path)?,
            Some("csv") => manifest::csv(path)?,
            _ if path.exists() => {
                let rule = "a lot is a folder, or a manifest whose name ends in .toml or .csv";
                return Err(Failure::bad(format!("{}: {rule}", shown(path))));
            }
            _ => {
                let wanted = "it must be a folder, or a manifest whose name ends in .toml or .csv";
                let given = "No such file or directory";
                return Err(Failure::bad(format!("{}: {given}; {wanted}", shown(path))));
            }
        };
        if lot.entries.is_empty() {
            return Err(Failure::bad(format!("{}: has no part", shown(path))));
        }
        lot.entries.iter_mut().for_each(|entry| entry.complete(defaults));
        lot.refuse_repeated();
        lot.entries.iter_mut().for_each(Entry::refuse_ambiguous);
        lot.refuse_shared();
        Ok(lot)
    }

    /// A picture is one part's and one eye's: of two that name the same one, one was not seen. A whole VRAM has four.
    fn refuse_shared(&mut self) {
        let mut owners: BTreeMap<&Path, Vec<Owner>> = BTreeMap::new();
        for (number, entry) in self.entries.iter().enumerate() {
            let Ok(part) = &entry.part else { continue };
            let frame = part.frame.unwrap_or(0);
            for (path, eye) in part.captures() {
                owners.entry(path).or_default().push(Owner { number, frame, eye });
            }
        }
        let mut shared: Vec<(usize, String)> = Vec::new();
        for (path, owners) in owners.into_iter().filter(|(_, owners)| owners.len() > 1) {
            let is_vram = fs::metadata(path).is_ok_and(|about| about.len() == VRAM_LENGTH as u64);
            for owner in &owners {
                let shares = |other: &&Owner| owner.shares(other, is_vram);
                let Some(other) = owners.iter().find(shares) else { continue };
                let name = printable(&self.entries[other.number].name);
                let whose = match other.number == owner.number {
                    true => "the capture of both eyes".to_string(),
                    false => format!("the capture of {name} too"),
                };
                let rule = "each eye of a part must have its own file";
                shared.push((owner.number, format!("{}: is {whose}; {rule}", shown(path))));
            }
        }
        // the first message of a part stays
        for (number, message) in shared.into_iter().rev() {
            self.entries[number].part = Err(Failure::bad(message));
        }
    }

    /// A name stands for one part: it is how a report finds it.
    fn refuse_repeated(&mut self) {
        let mut seen = HashSet::new();
        for entry in &mut self.entries {
            if !seen.insert(entry.name.clone()) && entry.part.is_ok() {
                let message = format!("the name {} is given to an earlier part", entry.name);
                entry.part = Err(Failure::bad(message));
            }
        }
    }
}

impl Entry {
    pub fn of(part: Part) -> Entry {
        Entry { name: part.name.clone(), part: Ok(part) }
    }

    pub fn wrong(name: String, message: String) -> Entry {
        Entry { name, part: Err(Failure::bad(message)) }
    }

    /// A part with two scenes, two captures of an eye or a name that is not known is not judged.
    fn refuse_ambiguous(&mut self) {
        let wrong = self.part.as_ref().ok().and_then(Part::wrong);
        if let Some(wrong) = wrong {
            self.part = Err(Failure::bad(wrong));
        }
    }

    pub fn complete(&mut self, defaults: &Part) {
        if let Ok(part) = &mut self.part {
            part.complete(defaults);
        }
    }
}

impl Part {
    /// Its captures, each with its eye, 0 left and 1 right; a whole VRAM has none.
    fn captures(&self) -> impl Iterator<Item = (&Path, Option<u32>)> {
        let Part { left, right, capture, .. } = self;
        let all = [(left, Some(0)), (right, Some(1)), (capture, None)];
        all.into_iter().filter_map(|(path, eye)| Some((path.as_deref()?, eye)))
    }

    /// What makes a part's files ambiguous, if anything does.
    fn wrong(&self) -> Option<String> {
        if let Some(wrong) = &self.ambiguous {
            return Some(wrong.clone());
        }
        let two = |first: &Option<PathBuf>, second: &Option<PathBuf>, what: &str| {
            let [first, second] = [first.as_deref()?, second.as_deref()?].map(shown);
            Some(format!("{first} and {second} are {what}; it must have one"))
        };
        two(&self.state, &self.vram, "two scenes")
            .or_else(|| two(&self.state, &self.drawing, "two scenes"))
            .or_else(|| two(&self.capture, &self.left, "two captures of the left eye"))
            .or_else(|| two(&self.capture, &self.right, "two captures of the right eye"))
    }

    /// Takes what the part leaves out. A part with its own state needs no VRAM, and the other way round. Both
    /// are taken where the defaults have both, so that they are seen to be two scenes.
    fn complete(&mut self, defaults: &Part) {
        let own = self.state.is_some() || self.vram.is_some();
        let take = |own: &mut Option<PathBuf>, other: &Option<PathBuf>| {
            if own.is_none() {
                own.clone_from(other);
            }
        };
        if self.state.is_none() {
            take(&mut self.drawing, &defaults.drawing);
        }
        if !own {
            take(&mut self.vram, &defaults.vram);
            take(&mut self.state, &defaults.state);
        }
        self.frame = self.frame.or(defaults.frame);
        self.threshold = self.threshold.or(defaults.threshold);
        self.eyes = self.eyes.or(defaults.eyes);
    }

    /// Makes the files' paths those in a folder.
    pub fn within(mut self, folder: &Path) -> Part {
        let Part { state, vram, drawing, left, right, capture, .. } = &mut self;
        for path in [state, vram, drawing, left, right, capture].into_iter().flatten() {
            *path = folder.join(&*path);
        }
        self
    }
}
