//! A lot for a plan: a folder with a folder for each part, or with flat names, and what they hold of each test.
//!
//! `die-17/pier.frame0.left.png` and `die-17.pier.frame0.left.png` are the same capture, `die-17/pier.trace` is a trace,
//! and `die-17@2` is the second test of the part. `parts.csv` says where the parts lie on their wafers.

mod names;
mod parts;

pub use names::{Seen, Slot, What};
pub use parts::Listed;

use std::collections::{BTreeMap, HashMap};
use std::fs::{self, DirEntry};
use std::path::{Path, PathBuf};

use rayon::prelude::*;

use crate::failure::Failure;
use crate::files::{printable, reason, shown, FileRead, Identity};
use crate::plan::Plan;
use names::{attempt, flat, within_part, Flat, Named};

/// The list of a lot's parts.
pub const LIST: &str = "parts.csv";

pub struct Lot {
    /// By name.
    pub parts: Vec<Part>,
    /// Files that no rule takes.
    pub unknown: Vec<String>,
    /// The list of parts, where there is one.
    pub list: Option<FileRead>,
}

pub struct Part {
    pub name: String,
    /// In the order of their numbers; the last one decides.
    pub attempts: Vec<Attempt>,
    pub listed: Listed,
}

/// A part's files of one test of it.
#[derive(Default)]
pub struct Attempt {
    pub number: u32,
    /// How the lot writes it: `die-17` and `die-17@1` have one number, and may be two runs.
    spelled: String,
    pub files: Files,
    /// What makes it invalid before any file is read.
    pub problems: Vec<String>,
}

/// The files by what they are. A list: an attempt has few, and a lot may have 100,000 of these.
#[derive(Default)]
pub struct Files(Vec<(Slot, PathBuf)>);

impl Files {
    pub fn get(&self, slot: &Slot) -> Option<&Path> {
        self.0.iter().find(|(one, _)| one == slot).map(|(_, path)| path.as_path())
    }

    pub fn slots(&self) -> impl Iterator<Item = &Slot> {
        self.0.iter().map(|(slot, _)| slot)
    }

    /// Gives the file that was there before.
    fn insert(&mut self, slot: Slot, path: PathBuf) -> Option<PathBuf> {
        if let Some((_, there)) = self.0.iter_mut().find(|(one, _)| *one == slot) {
            return Some(std::mem::replace(there, path));
        }
        self.0.reserve_exact(1);
        self.0.push((slot, path));
        None
    }
}

/// The attempts of each part, by their numbers.
type Found = BTreeMap<String, Vec<Attempt>>;

impl Lot {
    pub fn read(folder: &Path, plan: &Plan, allow_extra: bool) -> Result<Lot, Failure> {
        let failed = |what: String| {
            let wanted = "it must be a folder of parts";
            Failure::bad(format!("{}: {what}; {wanted}", shown(folder)))
        };
        let entries = entries(folder).map_err(failed)?;
        let is_list = |entry: &&DirEntry| entry.file_name().eq_ignore_ascii_case(LIST);
        let list = entries.iter().find(is_list).map(DirEntry::path);
        if let Some(other) = list.as_deref().filter(|path| !path.ends_with(LIST)) {
            let rule = format!("the list of parts must be written {LIST}");
            return Err(Failure::bad(format!("{}: {rule}", shown(other))));
        }
        let (listed, list) = list.as_deref().map(parts::read).transpose()?.unzip();
        let mut lot = Lot { parts: Vec::new(), unknown: Vec::new(), list };
        let found = found(&entries, plan, &mut lot.unknown);
        lot.unknown.sort();
        lot.parts = joined(found, listed, allow_extra);
        if lot.parts.is_empty() {
            let name = shown(folder);
            return Err(Failure::bad(format!(
                "{name}: has no part; a part is a folder of captures and traces"
            )));
        }
        Ok(lot)
    }
}

fn entries(folder: &Path) -> Result<Vec<DirEntry>, String> {
    let all = fs::read_dir(folder).map_err(|error| reason(&error))?;
    all.collect::<Result<_, _>>().map_err(|error| reason(&error))
}

/// What lies in the lot's folder, sorted into parts.
fn found(entries: &[DirEntry], plan: &Plan, unknown: &mut Vec<String>) -> Found {
    let (mut found, mut folders) = (Found::new(), Folders::new());
    let inside: Vec<(Attempt, Vec<String>)> =
        entries.par_iter().map(|entry| part_folder(&entry.path(), plan)).collect();
    for (entry, (mut read, others)) in entries.iter().zip(inside) {
        let name = entry.file_name().to_string_lossy().into_owned();
        let about = fs::metadata(entry.path());
        let is_folder = about.as_ref().is_ok_and(|about| about.is_dir());
        let there = match (attempt(&name), flat(&name, plan)) {
            (Some((part, number)), _) if is_folder && !name.starts_with('.') => {
                unknown.extend(others.iter().map(|other| format!("{}/{other}", printable(&name))));
                let there = at(&mut found, part, number, &name);
                there.problems.append(&mut read.problems);
                read.files.0.into_iter().for_each(|(slot, path)| insert(there, slot, path));
                let identity = about.as_ref().ok().map(Identity::of);
                folders.entry(identity).or_default().push((part.to_string(), number, name.clone()));
                there
            }
            (Some((part, number)), None) if about.is_err() && !name.starts_with('.') => {
                let there = at(&mut found, part, number, &name);
                let error = about.err().map(|error| reason(&error)).unwrap_or_default();
                there.problems.push(format!("{}: {error}", shown(&entry.path())));
                there
            }
            _ if is_folder || name == LIST => {
                unknown.extend((name != LIST).then(|| printable(&name)));
                continue;
            }
            (_, Some(Flat { part, number, spelled, named })) => {
                let there = at(&mut found, part, number, spelled);
                match named {
                    Named::Slot(slot) => insert(there, slot, entry.path()),
                    _ => there.problems.push(mistyped(&entry.path())),
                }
                there
            }
            _ => {
                unknown.push(printable(&name));
                continue;
            }
        };
        // two names of other bytes may be printed alike
        if entry.file_name().to_str().is_none() {
            there.problems.push(format!("{}: the name is not UTF-8", shown(&entry.path())));
        }
    }
    refuse_shared(&mut found, folders);
    found
}

/// Folders by what they are on the disk: the part, the number of its test, and the name in the lot.
type Folders = HashMap<Option<Identity>, Vec<(String, u32, String)>>;

/// A folder that is another part's too, by a link, is not known to be this part's.
fn refuse_shared(found: &mut Found, folders: Folders) {
    for mut same in folders.into_values().filter(|same| same.len() > 1) {
        same.sort();
        let names: Vec<String> = same.iter().map(|(_, _, name)| printable(name)).collect();
        let rule = "are the same folder; each part must have its own";
        for (part, number, name) in &same {
            let problem = format!("{} {rule}", names.join(" and "));
            at(found, part, *number, name).problems.push(problem);
        }
    }
}

/// A part's folder: its files by what they are, and the names that no rule takes.
fn part_folder(folder: &Path, plan: &Plan) -> (Attempt, Vec<String>) {
    let (mut read, mut unknown) = (Attempt::default(), Vec::new());
    if !folder.is_dir() {
        return (read, unknown);
    }
    let all = match entries(folder) {
        Ok(all) => all,
        Err(error) => {
            read.problems.push(format!("{}: {error}", shown(folder)));
            return (read, unknown);
        }
    };
    for entry in all {
        let name = entry.file_name().to_string_lossy().into_owned();
        match within_part(&name, plan) {
            Named::Slot(slot) => insert(&mut read, slot, entry.path()),
            Named::Mistyped => read.problems.push(mistyped(&entry.path())),
            Named::Unknown => unknown.push(printable(&name)),
        }
    }
    (read, unknown)
}

fn mistyped(path: &Path) -> String {
    format!("{}: the name differs only in case from one that the plan asks for", shown(path))
}

/// The attempt of this number. Written in two ways it is ambiguous.
fn at<'a>(found: &'a mut Found, part: &str, number: u32, spelled: &str) -> &'a mut Attempt {
    let attempts = found.entry(part.to_string()).or_default();
    let place = attempts.partition_point(|one| one.number < number);
    if attempts.get(place).is_none_or(|one| one.number != number) {
        attempts.reserve_exact(1);
        let spelled = spelled.to_string();
        attempts.insert(place, Attempt { number, spelled, ..Attempt::default() });
    }
    let there = &mut attempts[place];
    if there.spelled != spelled {
        let mut two = [there.spelled.as_str(), spelled].map(printable);
        two.sort();
        let problem =
            format!("{} and {} are the same test of the part; it must have one", two[0], two[1]);
        if !there.problems.contains(&problem) {
            there.problems.push(problem);
        }
    }
    there
}

fn insert(attempt: &mut Attempt, slot: Slot, path: PathBuf) {
    if let Some(other) = attempt.files.insert(slot, path.clone()) {
        let mut two = [shown(&other), shown(&path)];
        two.sort();
        attempt.problems.push(format!("{} and {} are the same; it must have one", two[0], two[1]));
    }
}

/// The parts that were found with those that are listed. A listed part without files is there, and invalid.
fn joined(mut found: Found, listed: Option<Vec<(String, Listed)>>, allow_extra: bool) -> Vec<Part> {
    let is_listed = listed.is_some();
    let mut listed: HashMap<String, Listed> = listed.unwrap_or_default().into_iter().collect();
    for name in listed.keys().filter(|name| !found.contains_key(*name)).cloned().collect::<Vec<_>>()
    {
        at(&mut found, &name, 1, &name).problems.push(format!("{LIST} lists it; it has no file"));
    }
    let mut spelled: HashMap<String, u32> = HashMap::new();
    for name in found.keys() {
        *spelled.entry(name.to_lowercase()).or_default() += 1;
    }
    let part = |(name, mut attempts): (String, Vec<Attempt>)| {
        let place = listed.remove(&name);
        let problem = match (spelled[&name.to_lowercase()], &place) {
            (2.., _) => Some("the name differs only in case from another part's".to_string()),
            (_, None) if is_listed && !allow_extra => Some(format!("{LIST} does not list it")),
            _ => None,
        };
        attempts.iter_mut().for_each(|one| one.problems.extend(problem.clone()));
        Part { name, attempts, listed: place.unwrap_or_default() }
    };
    found.into_iter().map(part).collect()
}
