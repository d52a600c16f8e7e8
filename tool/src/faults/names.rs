//! Names of faults: patterns that choose some of them, the nearest name, and many names in few words.

use std::collections::BTreeMap;

use super::Fault;
use crate::files::printable;

/// Whether a name fits a pattern, in which `*` stands for any text and `?` for one character.
pub fn fits(pattern: &str, name: &str) -> bool {
    let (pattern, name): (Vec<char>, Vec<char>) =
        (pattern.chars().collect(), name.chars().collect());
    let (mut at, mut of, mut star) = (0, 0, None);
    while of < name.len() {
        if at < pattern.len() && (pattern[at] == '?' || pattern[at] == name[of]) {
            (at, of) = (at + 1, of + 1);
        } else if at < pattern.len() && pattern[at] == '*' {
            (star, at) = (Some((at, of)), at + 1);
        } else if let Some((before, begun)) = star {
            (star, at, of) = (Some((before, begun + 1)), before + 1, begun + 1);
        } else {
            return false;
        }
    }
    pattern[at..].iter().all(|c| *c == '*')
}

/// The faults that one of the patterns fits, in the list's order. A pattern that fits none is refused, with the nearest
/// name.
pub fn chosen<'a>(list: &'a [Fault], patterns: &[String]) -> Result<Vec<&'a Fault>, String> {
    for pattern in patterns {
        if !list.iter().any(|fault| fits(pattern, &fault.name)) {
            return Err(unknown(list, pattern));
        }
    }
    let chosen = |fault: &&Fault| {
        patterns.is_empty() || patterns.iter().any(|pattern| fits(pattern, &fault.name))
    };
    Ok(list.iter().filter(chosen).collect())
}

/// The fault of a name.
pub fn named<'a>(list: &'a [Fault], name: &str) -> Result<&'a Fault, String> {
    list.iter().find(|fault| fault.name == name).ok_or_else(|| unknown(list, name))
}

fn unknown(list: &[Fault], given: &str) -> String {
    let near = |fault: &&Fault| strsim::damerau_levenshtein(&fault.name, given);
    let nearest = list.iter().min_by_key(near).map_or("", |fault| &fault.name);
    let version = super::LIST_VERSION;
    format!("no fault of list {version} is `{}`; the nearest is `{nearest}`", printable(given))
}

/// Names in which numbers that follow each other are written as a range: `cpu.reg.r2.0-31.stuck0`.
pub fn collapsed<'a>(names: impl Iterator<Item = &'a str>) -> Vec<String> {
    // the bit is the last number of a name
    let mut groups: BTreeMap<(String, String), Vec<u32>> = BTreeMap::new();
    let mut order: Vec<(String, String)> = Vec::new();
    for name in names {
        let parts: Vec<&str> = name.split('.').collect();
        let place = parts.iter().rposition(|part| part.parse::<u32>().is_ok());
        let (key, number) = match place {
            Some(place) => {
                let key = (parts[..place].join("."), parts[place + 1..].join("."));
                (key, parts[place].parse::<u32>().ok())
            }
            None => ((name.to_string(), String::new()), None),
        };
        if !groups.contains_key(&key) {
            order.push(key.clone());
        }
        groups.entry(key).or_default().extend(number);
    }
    let written = |key: (String, String)| {
        let numbers = ranges(groups.get(&key).map_or(&[], Vec::as_slice));
        let parts = [key.0, numbers, key.1];
        parts.iter().filter(|part| !part.is_empty()).cloned().collect::<Vec<String>>().join(".")
    };
    order.into_iter().map(written).collect()
}

/// `0-3,7`
fn ranges(numbers: &[u32]) -> String {
    let mut numbers = numbers.to_vec();
    numbers.sort_unstable();
    let mut runs: Vec<(u32, u32)> = Vec::new();
    for number in numbers {
        match runs.last_mut() {
            Some((_, last)) if *last + 1 == number => *last = number,
            _ => runs.push((number, number)),
        }
    }
    let written = runs.iter().map(|(first, last)| match first == last {
        true => first.to_string(),
        false => format!("{first}-{last}"),
    });
    written.collect::<Vec<String>>().join(",")
}

#[cfg(test)]
mod tests {
    use super::*;

    #[test]
    fn a_pattern_chooses_names() {
        for (pattern, name, is) in [
            ("cpu.*", "cpu.reg.r1.0.stuck0", true),
            ("*.stuck0", "cpu.reg.r1.0.stuck0", true),
            ("cpu.reg.r?.*.stuck0", "cpu.reg.r1.0.stuck0", true),
            ("cpu.reg.r?.*.stuck0", "cpu.reg.r10.0.stuck0", false),
            ("cpu", "cpu.reg.r1.0.stuck0", false),
            ("*", "x", true),
            ("a*b*c", "a-b-b-c", true),
            ("a*b*c", "a-c-b", false),
        ] {
            assert_eq!(fits(pattern, name), is, "{pattern} {name}");
        }
    }

    #[test]
    fn bits_that_follow_each_other_are_one_name() {
        let names =
            ["r2.0.stuck0", "r2.1.stuck0", "r2.2.stuck0", "r2.5.stuck0", "r3.1.stuck1", "int.lost"];
        let names = collapsed(names.into_iter());
        assert_eq!(names, ["r2.0-2,5.stuck0", "r3.1.stuck1", "int.lost"]);
    }

    #[test]
    fn an_unknown_name_is_refused_with_the_nearest_one() {
        let list = super::super::list();
        let wrong = named(&list, "cpu.reg.r2.5.stuk0").unwrap_err();
        assert_eq!(
            wrong,
            "no fault of list 1 is `cpu.reg.r2.5.stuk0`; the nearest is `cpu.reg.r2.5.stuck0`"
        );
        assert!(chosen(&list, &["cpu.rge.*".to_string()]).is_err());
        assert_eq!(chosen(&list, &["cpu.reg.*".to_string()]).unwrap().len(), 1984);
    }
}
