//! The names of the image processor's faults and what they mean.

mod lines;
mod rules;

use super::{Bits, Effect, Fault};

/// The image processor's faults, always in the same order.
pub fn list() -> Vec<Fault> {
    let mut names = Names(Vec::new());
    lines::worlds(&mut names);
    lines::objects(&mut names);
    lines::memory(&mut names);
    lines::registers(&mut names);
    lines::characters(&mut names);
    lines::buffers(&mut names);
    rules::windows(&mut names);
    rules::order(&mut names);
    rules::parallax(&mut names);
    rules::exchanges(&mut names);
    rules::pictures(&mut names);
    names.0
}

/// A list that grows.
pub struct Names(Vec<Fault>);

/// Some neighbouring bits of a field, and how they are named.
#[derive(Clone, Copy)]
pub struct Field<'a> {
    /// What stands before the bit's number.
    pub prefix: &'a str,
    pub class: &'static str,
    /// What the bit is of, in a sentence.
    pub what: &'a str,
    /// The numbers of the bits in the name.
    pub first: u32,
    pub width: u32,
    /// How much higher the bits stand in the halfword.
    pub raised: u32,
}

impl Names {
    pub fn add(&mut self, name: &str, class: &'static str, meaning: &str, effect: Effect) {
        self.0.push(Fault::picture(name.to_string(), class, meaning.to_string(), effect));
    }

    /// The last one that was added is equivalent.
    pub fn equivalent(&mut self, reason: &'static str) {
        let last = self.0.pop().expect("a fault was added");
        self.0.push(last.equivalent(reason));
    }

    /// Each bit of a field stuck, and each two neighbours bridged.
    pub fn field(&mut self, field: Field, effect: impl Fn(Bits) -> Effect) {
        let Field { prefix, class, what, first, width, raised } = field;
        let bits = first..first + width;
        for bit in bits.clone() {
            for (value, fault) in [(0, Bits::Stuck0(bit)), (1, Bits::Stuck1(bit))] {
                let name = format!("{prefix}.{bit}.stuck{value}");
                let meaning = format!("Bit {bit} of {what} is always {value}.");
                self.add(&name, class, &meaning, effect(fault.raised(raised)));
            }
        }
        for bit in bits.skip(1) {
            let low = bit - 1;
            for (rule, fault) in [("and", Bits::And(low, bit)), ("or", Bits::Or(low, bit))] {
                let name = format!("{prefix}.{low}-{bit}.{rule}");
                let meaning = format!(
                    "Bits {low} and {bit} of {what} are bridged: both are their {}.",
                    rule.to_uppercase()
                );
                self.add(&name, BRIDGE, &meaning, effect(fault.raised(raised)));
            }
        }
    }
}

/// The class of bridges.
const BRIDGE: &str = "vip bridge of neighbouring bits";
