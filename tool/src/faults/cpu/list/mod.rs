//! The list of the processor's side: names, classes and meanings. Names are those of fault list 1 and never change their
//! meaning.

mod further;
mod operations;
mod rules;
mod storage;

use vb::op;

use super::super::Fault;
use super::Effect;
use crate::programs::mnemonics;

/// The faults of this side, always in the same order.
pub fn list() -> Vec<Fault> {
    let mut all = List::default();
    storage::add(&mut all);
    operations::add(&mut all);
    rules::add(&mut all);
    further::add(&mut all);
    all.faults
}

#[derive(Default)]
struct List {
    faults: Vec<Fault>,
}

impl List {
    fn add(&mut self, name: String, class: &'static str, meaning: String, effect: Effect) {
        self.faults.push(Fault::processor(name, class, meaning, effect));
    }

    /// Marks the last one as equivalent, where it is.
    fn equivalent_if(&mut self, is: bool, reason: &'static str) {
        if let Some(fault) = self.faults.last_mut().filter(|_| is) {
            fault.equivalent = Some(reason);
        }
    }
}

const STUCK: [bool; 2] = [false, true];

/// `stuck0` or `stuck1`
fn stuck(value: bool) -> &'static str {
    if value {
        "stuck1"
    } else {
        "stuck0"
    }
}

/// The immediate forms of operations that have two.
const IMMEDIATE: [u32; 6] =
    [op::MOV_IMM, op::ADD_IMM, op::CMP_IMM, op::SHL_IMM, op::SHR_IMM, op::SAR_IMM];

/// `add`, `add5` for the immediate form, `addf.s`, `bcond`
fn name(operation: u32) -> String {
    if operation == op::BCOND {
        return "bcond".to_string();
    }
    let five = if IMMEDIATE.contains(&operation) { "5" } else { "" };
    mnemonics::of(operation).0.to_lowercase() + five
}

/// The mnemonic for a sentence.
fn said(operation: u32) -> String {
    match operation {
        op::BCOND => "Bcond".to_string(),
        _ if IMMEDIATE.contains(&operation) => {
            format!("{} with an immediate", mnemonics::of(operation).0)
        }
        _ => mnemonics::of(operation).0.to_string(),
    }
}
