//! What a file of a lot is, by its name.

use crate::plan::{Asked, Plan};

/// Which file of a part it is: the test by its number in the plan, and what of it.
#[derive(Clone, Copy, Debug, PartialEq, Eq, PartialOrd, Ord)]
pub struct Slot {
    pub test: usize,
    pub what: What,
}

#[derive(Clone, Copy, Debug, PartialEq, Eq, PartialOrd, Ord)]
pub enum What {
    Frame(usize, Seen),
    Trace,
    /// By its number in the test.
    Memory(usize),
}

/// Whose capture it is; a whole VRAM is one of both eyes.
#[derive(Clone, Copy, Debug, PartialEq, Eq, PartialOrd, Ord)]
pub enum Seen {
    Left,
    Right,
    Both,
}

/// What a name says.
#[derive(Clone, Copy, Debug, PartialEq, Eq)]
pub enum Named {
    Slot(Slot),
    /// It would be one, written with other capitals.
    Mistyped,
    Unknown,
}

const ENDS: [(&str, Seen); 5] = [
    (".left.png", Seen::Left),
    (".left.raw", Seen::Left),
    (".right.png", Seen::Right),
    (".right.raw", Seen::Right),
    (".dump", Seen::Both),
];

/// `pier.frame0.left.png` or `pier.trace`
pub fn within_part(name: &str, plan: &Plan) -> Named {
    let exact = |test: &str, other: &str| test == other;
    let lower = name.to_lowercase();
    match slot(name, plan, &exact) {
        Some(slot) => Named::Slot(slot),
        None if slot(&lower, plan, &|a, b| a.eq_ignore_ascii_case(b)).is_some() => Named::Mistyped,
        None => Named::Unknown,
    }
}

fn slot(name: &str, plan: &Plan, same: &dyn Fn(&str, &str) -> bool) -> Option<Slot> {
    let test = |name: &str| plan.tests.iter().position(|test| same(&test.name, name));
    if let Some(name) = name.strip_suffix(".trace") {
        let test = test(name).filter(|&test| plan.tests[test].trace != Asked::Nothing)?;
        return Some(Slot { test, what: What::Trace });
    }
    if let Some(slot) = memory(name, plan, same) {
        return Some(slot);
    }
    let (name, seen) =
        ENDS.iter().find_map(|(end, seen)| Some((name.strip_suffix(end)?, *seen)))?;
    let (name, frame) = name.split_once(".frame")?;
    let test = test(name)?;
    let number: usize = frame.parse().ok().filter(|_| !frame.starts_with('+'))?;
    let fits = number < plan.tests[test].frames.len() && number.to_string() == frame;
    fits.then_some(Slot { test, what: What::Frame(number, seen) })
}

/// `pier.wram` or `pier.05000000+400.bin`
fn memory(name: &str, plan: &Plan, same: &dyn Fn(&str, &str) -> bool) -> Option<Slot> {
    let (test, end) = name.split_once('.')?;
    let test = plan.tests.iter().position(|one| same(&one.name, test))?;
    let memories = &plan.tests[test].memory;
    let number = memories.iter().position(|region| same(&region.file(), end))?;
    Some(Slot { test, what: What::Memory(number) })
}

/// A flat name.
pub struct Flat<'a> {
    pub part: &'a str,
    /// The number of its test, and both as they are written.
    pub number: u32,
    pub spelled: &'a str,
    /// What the rest says; it is known.
    pub named: Named,
}

pub fn flat<'a>(name: &'a str, plan: &Plan) -> Option<Flat<'a>> {
    let dots: Vec<usize> = name.rmatch_indices('.').map(|(at, _)| at).take(4).collect();
    dots.iter().rev().find_map(|&dot| {
        let (spelled, named) = (&name[..dot], within_part(&name[dot + 1..], plan));
        let (part, number) = attempt(spelled).filter(|_| named != Named::Unknown)?;
        (!part.starts_with('.')).then_some(Flat { part, number, spelled, named })
    })
}

/// `die-17@2`: the part, and which test of it. Without a number it is the first one.
pub fn attempt(name: &str) -> Option<(&str, u32)> {
    let (part, number) = match name.rsplit_once('@') {
        Some((part, digits))
            if digits.chars().all(|c| c.is_ascii_digit()) && !digits.is_empty() =>
        {
            (part, digits.parse().ok().filter(|number| *number > 0)?)
        }
        _ => (name, 1),
    };
    (!part.trim().is_empty()).then_some((part, number))
}

#[cfg(test)]
mod tests {
    use super::*;

    #[test]
    fn a_retest_is_known_by_its_name() {
        for (name, part) in [
            ("die-17", Some(("die-17", 1))),
            ("die-17@2", Some(("die-17", 2))),
            ("a@b", Some(("a@b", 1))),
            ("a@b@3", Some(("a@b", 3))),
            ("a@", Some(("a@", 1))),
            ("a@0", None),
            ("@2", None),
            ("a@99999999999", None),
        ] {
            assert_eq!(attempt(name), part, "{name}");
        }
    }
}
