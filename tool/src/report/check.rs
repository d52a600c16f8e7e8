//! Whether a report that is read agrees with itself. It may have been cut or edited, or its lot changed between shards.

use super::{Header, Part, Report, Shard};
use crate::files::{printable, Hash};
use crate::inputs::trace::WORDS;
use crate::judge::Verdict;

/// SHA-256 of the parts' names in the lot's order, a line each.
pub fn names_hash<'a>(names: impl Iterator<Item = &'a str>) -> Hash {
    Hash::of(names.flat_map(|name| [name, "\n"]).collect::<String>().as_bytes())
}

impl Report {
    /// What does not fit together, if anything does not.
    pub fn contradiction(&self) -> Option<String> {
        let header = &self.header;
        let all = match header.shard.map(|shard| shard.count(header.parts)) {
            None => header.parts,
            Some(Some(count)) => count,
            Some(None) => return Some("its shard is not K of N with K from 1 to N".to_string()),
        };
        let mut names: Vec<&str> = self.parts.iter().map(|part| part.part.as_str()).collect();
        if header.plan_file.is_some() {
            if let Some(twice) = self.not_in_order() {
                return Some(twice);
            }
            names.dedup();
        }
        if names.len() + self.not_judged != all {
            let (there, not_judged) = (names.len(), self.not_judged);
            return Some(format!(
                "it has {there} parts, and {not_judged} that were not judged; it must have {all}"
            ));
        }
        let whole = header.shard.is_none() && self.not_judged == 0;
        let other = |hash: Hash| hash != names_hash(names.iter().copied());
        if whole && header.names.is_some_and(other) {
            return Some("its parts are not those that the lot had".to_string());
        }
        self.parts.iter().find_map(|part| part.contradiction(header))
    }

    /// A part's tests follow each other, and the last one decides.
    fn not_in_order(&self) -> Option<String> {
        let next = self.parts.iter().skip(1).map(Some).chain([None]);
        self.parts.iter().zip(next).find_map(|(part, next)| {
            let again = next.filter(|next| next.part == part.part);
            let grows = again.is_none_or(|next| next.attempt > part.attempt);
            let name = printable(&part.title());
            match (grows, part.decides == again.is_none()) {
                (false, _) => Some(format!("part {name} appears twice")),
                (_, false) => Some(format!("part {name}: only its last test decides")),
                _ => None,
            }
        })
    }
}

impl Part {
    /// A part that passes has passed every test, and only such a part has the bin of those that pass.
    fn contradiction(&self, header: &Header) -> Option<String> {
        let tested = self.tests.len() == header.tests.len();
        let mut tests = self.tests.iter().zip(&header.tests);
        let passed = tests.all(|(test, planned)| {
            let equal = test.eyes.is_empty() && test.trace.is_none() && test.memories.is_empty();
            let whole = test.problems.is_empty() && equal;
            whole && test.verdict == Verdict::Pass && test.test == planned.name
        });
        let whole = tested && passed && self.problems.is_empty();
        let passes = self.verdict == Verdict::Pass;
        let name = printable(&self.title());
        let words = self.tests.iter().filter_map(|test| Some(test.trace.as_ref()?.word));
        if words.max().is_some_and(|word| word >= WORDS.len()) {
            return Some(format!("part {name}: a record has no such word"));
        }
        match (passes == whole, passes == (self.bin == header.pass_bin)) {
            (false, _) => Some(format!("part {name}: its verdict does not follow from its tests")),
            (_, false) => Some(format!("part {name}: its bin does not follow from its verdict")),
            _ => None,
        }
    }
}

impl Shard {
    /// How many of a lot's parts are this shard's; none where there is no such shard.
    fn count(self, parts: usize) -> Option<usize> {
        let Shard { number, of } = self;
        let others = (1..=of).contains(&number).then(|| parts.checked_sub(number))?;
        Some(others.map_or(0, |others| others / of + 1))
    }
}
