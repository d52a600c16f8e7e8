//! How many parts came out how, and the exit status that follows.

use serde::Serialize;

use super::{Judged, Verdict};

/// The parts by verdict; its members are those of the JSON.
#[derive(Clone, Copy, Debug, Default, PartialEq, Eq, Serialize)]
pub struct Summary {
    pub parts: usize,
    pub pass: usize,
    pub fail: usize,
    pub invalid: usize,
    pub fault: usize,
    /// Ctrl-C came first.
    pub not_judged: usize,
    /// Files of the lot's folder that no rule takes, where they are not allowed.
    pub unknown_files: usize,
}

impl Summary {
    pub fn of(judged: &[Judged], parts: usize, unknown_files: usize) -> Summary {
        let count = |verdict: Verdict| judged.iter().filter(|one| one.verdict == verdict).count();
        Summary {
            parts,
            pass: count(Verdict::Pass),
            fail: count(Verdict::Fail),
            invalid: count(Verdict::Invalid),
            fault: count(Verdict::Fault),
            not_judged: parts - judged.len(),
            unknown_files,
        }
    }

    /// `3 parts: 1 pass, 1 fail, 1 invalid`
    pub fn text(&self) -> String {
        let count = |count: usize, what: &str| format!("{} {what}", vb::grouped(count as u64));
        let mut counts = vec![count(self.pass, "pass"), count(self.fail, "fail")];
        let s = if self.unknown_files == 1 { "" } else { "s" };
        for (number, what) in [
            (self.invalid, "invalid".to_string()),
            (self.fault, "where the independent model and the proved library differ".to_string()),
            (self.not_judged, "not judged".to_string()),
            (self.unknown_files, format!("unknown file{s}")),
        ] {
            if number > 0 {
                counts.push(count(number, &what));
            }
        }
        let s = if self.parts == 1 { "" } else { "s" };
        format!("{} part{s}: {}", vb::grouped(self.parts as u64), counts.join(", "))
    }

    /// 130 where Ctrl-C came, 3 for a fault, then 2 for what could not be judged, 1 for a part that failed.
    pub fn status(&self) -> i32 {
        match self {
            _ if self.not_judged > 0 => crate::interrupt::STATUS,
            _ if self.fault > 0 => 3,
            _ if self.invalid + self.unknown_files > 0 => 2,
            _ if self.fail > 0 => 1,
            _ => 0,
        }
    }
}
