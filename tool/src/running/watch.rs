//! `vbmodel run --watch-undefined`: stops after the first instruction that fetched or loaded a byte with no meaning
//! (paper 02, W2), or warns of it and goes on.

use std::collections::BTreeSet;

use clap::Args;

use crate::running::follow::Effects;

#[derive(Args)]
pub struct WatchOptions {
    /// Stop after the first instruction that fetched or loaded an undefined byte: one of the VIP's unmapped ranges, or of
    /// a register address where there is no register
    #[arg(long)]
    watch_undefined: bool,
    /// With --watch-undefined: go on, and report each such instruction once, on standard error
    #[arg(long, requires = "watch_undefined")]
    warn: bool,
}

impl WatchOptions {
    pub fn is_on(&self) -> bool {
        self.watch_undefined
    }

    /// Receives each instruction of a run, and notes what was seen.
    pub fn watch(&self) -> Watch<'_> {
        Watch { options: self, warned: BTreeSet::new(), stopped: None }
    }
}

pub struct Watch<'a> {
    options: &'a WatchOptions,
    /// Where the reported instructions stand.
    warned: BTreeSet<u32>,
    /// What the run stops at.
    pub stopped: Option<String>,
}

impl Watch<'_> {
    /// Whether to go on after an instruction.
    pub fn goes_on(&mut self, effects: &Effects) -> bool {
        if !self.options.watch_undefined || effects.undefined.is_empty() {
            return true;
        }
        let read = sentence(effects);
        if self.options.warn {
            if self.warned.insert(effects.pc) {
                eprintln!("vbmodel: {read}");
            }
            return true;
        }
        self.stopped = Some(read);
        false
    }
}

/// `the instruction at 0xFFFFFFF4, LD.W -1936[r1], r1, read undefined bytes at 0x0005F872, 0x0005F873`
fn sentence(effects: &Effects) -> String {
    let bytes: Vec<String> = effects.undefined.iter().map(|at| format!("0x{at:08X}")).collect();
    let some = if bytes.len() == 1 { "an undefined byte" } else { "undefined bytes" };
    let (pc, instruction) = (effects.pc, &effects.instruction);
    format!("the instruction at 0x{pc:08X}, {instruction}, read {some} at {}", bytes.join(", "))
}
