//! Faults that a die can have, as a list with names, and what a die with one of them shows.
//!
//! The reference stays the proved library: a fault is put around its calls. A wrong injector can misstate what a plan
//! detects; it never changes a verdict.

pub mod course;
pub mod coverage;
pub mod cpu;
pub mod cycle;
pub mod die;
pub mod evidence;
pub mod names;
pub mod quantities;
pub mod reference;
pub mod report;
pub mod scenes;
pub mod simulate;
pub mod vip;
pub mod watch;

use sha2::{Digest, Sha256};

/// The version of the list. A name keeps its meaning for ever; a list with other names has another version.
pub const LIST_VERSION: u32 = 1;

/// One fault of the list.
#[derive(Clone, Debug, PartialEq)]
pub struct Fault {
    /// `unit.class.place.bit.kind`, as in `cpu.reg.r2.5.stuck0`.
    pub name: String,
    /// The class that a report counts it under.
    pub class: &'static str,
    /// What a die with it does, in one sentence.
    pub meaning: String,
    /// Why no program can show it, where none can. Such a fault is never counted as missed.
    pub equivalent: Option<&'static str>,
    pub effect: Effect,
}

/// What a fault changes.
#[derive(Clone, Debug, PartialEq)]
pub enum Effect {
    /// Processor, bus, request lines or timer.
    Processor(cpu::Effect),
    /// What a drawing leaves in VRAM.
    Picture(vip::Effect),
}

impl Fault {
    pub fn processor(
        name: String,
        class: &'static str,
        meaning: String,
        effect: cpu::Effect,
    ) -> Fault {
        Fault { name, class, meaning, equivalent: None, effect: Effect::Processor(effect) }
    }

    pub fn picture(
        name: String,
        class: &'static str,
        meaning: String,
        effect: vip::Effect,
    ) -> Fault {
        Fault { name, class, meaning, equivalent: None, effect: Effect::Picture(effect) }
    }

    pub fn equivalent(self, reason: &'static str) -> Fault {
        Fault { equivalent: Some(reason), ..self }
    }
}

/// The whole list, always in the same order.
pub fn list() -> Vec<Fault> {
    cpu::list().into_iter().chain(vip::list()).collect()
}

/// The SHA-256 of a list: names, classes, meanings and reasons, a line each.
pub fn digest(list: &[Fault]) -> String {
    let mut all = Sha256::new();
    for Fault { name, class, meaning, equivalent, .. } in list {
        let reason = equivalent.unwrap_or_default();
        all.update(format!("{name}\t{class}\t{meaning}\t{reason}\n"));
    }
    all.finalize().iter().map(|byte| format!("{byte:02x}")).collect()
}

#[cfg(test)]
mod tests {
    use super::*;
    use std::collections::BTreeSet;

    #[test]
    fn no_name_is_given_to_two_faults() {
        let all = list();
        let names: BTreeSet<&str> = all.iter().map(|fault| fault.name.as_str()).collect();
        assert_eq!(names.len(), all.len());
    }

    #[test]
    fn a_meaning_is_a_sentence_on_one_line() {
        for Fault { name, meaning, class, .. } in list() {
            assert!(meaning.ends_with('.') && !meaning.contains('\n'), "{name}: {meaning}");
            assert!(!class.is_empty() && name.split('.').count() >= 2, "{name}");
        }
    }
}
