//! What a comparison of a trace found, as it is printed.

use serde::Serialize;
use vb::grouped;

use super::explanation::Explanation;
use super::{End, Later, Wish};
use crate::inputs::setup::Bench;
use crate::inputs::trace::WORDS;
use crate::interrupt;
use crate::running::outcome::Registers;

/// Whether a die's trace is the model's.
#[derive(Clone, Copy, Debug, PartialEq, Eq, Serialize)]
#[serde(rename_all = "lowercase")]
pub enum Verdict {
    Pass,
    /// A record differs.
    Fail,
    /// It could not be judged.
    Invalid,
}

impl Verdict {
    pub fn name(self) -> &'static str {
        match self {
            Verdict::Pass => "pass",
            Verdict::Fail => "fail",
            Verdict::Invalid => "invalid",
        }
    }
}

/// What was found; its members are those of the JSON.
#[derive(Serialize)]
pub struct Found {
    /// What was done to the files before.
    #[serde(skip_serializing_if = "Vec::is_empty")]
    pub notes: Vec<String>,
    pub verdict: Verdict,
    /// How the comparison ended, by name and in words.
    pub reason: &'static str,
    pub sentence: String,
    /// How many records agreed; it is the index of the record that is explained.
    pub agreed: u64,
    #[serde(flatten)]
    pub explanation: Option<Explanation>,
    /// The records after the first difference, where the model went on.
    #[serde(skip_serializing_if = "Option::is_none")]
    pub later: Option<Later>,
    #[serde(skip_serializing_if = "Option::is_none")]
    pub later_end: Option<String>,
    #[serde(skip_serializing_if = "Option::is_none")]
    pub refusal: Option<u32>,
    #[serde(skip_serializing_if = "Option::is_none")]
    pub error: Option<String>,
    #[serde(flatten)]
    registers: Registers,
    pub written: Vec<String>,
    #[serde(skip)]
    stopped: bool,
}

impl Found {
    /// A comparison that ended so, with records that differ or cannot be judged.
    pub(super) fn new(
        bench: &Bench,
        agreed: u64,
        end: End,
        explanation: Option<Explanation>,
        later: Option<(Later, End)>,
    ) -> Found {
        let (verdict, reason, sentence) = words(&end, agreed);
        let (refusal, error) = match &end {
            End::Refused(refusal) => (Some(refusal.number()), Some(sentence.clone())),
            _ => (None, None),
        };
        let (later, ended) = later.map_or((None, None), |(later, end)| (Some(later), Some(end)));
        let stopped = end == End::Stopped || ended == Some(End::Stopped);
        let at = later.as_ref().map_or(0, |later| agreed + 1 + later.compared);
        Found {
            notes: bench.notes.clone(),
            verdict,
            reason,
            sentence,
            agreed,
            explanation,
            later_end: ended.map(|end| words(&end, at).2),
            later,
            refusal,
            error,
            registers: Registers::of(&bench.machine),
            written: Vec::new(),
            stopped,
        }
    }

    /// The same of one without a difference, which may still be less than was asked for.
    pub(super) fn judged(
        bench: &Bench,
        agreed: u64,
        end: End,
        explanation: Option<Explanation>,
        wish: &Wish,
    ) -> Found {
        let n = grouped(agreed);
        let wanted = wish.records;
        let short = wanted.filter(|&wanted| agreed < wanted);
        let judged = match &end {
            End::Whole(why) => match short {
                None => (Verdict::Pass, format!("all {n} records agree, to the program's end: {why}")),
                Some(wanted) => (
                    Verdict::Invalid,
                    format!(
                        "agrees for {n} records, to the program's end; {} were asked for",
                        grouped(wanted)
                    ),
                ),
            },
            End::Short => match (short, wanted) {
                (Some(wanted), _) => (
                    Verdict::Invalid,
                    format!("agrees for {n} records; {} were asked for", grouped(wanted)),
                ),
                (None, Some(wanted)) => (
                    Verdict::Pass,
                    format!("all {n} records agree; {} were asked for", grouped(wanted)),
                ),
                (None, None) if wish.partial && agreed > 0 => {
                    (Verdict::Pass, format!("all {n} records agree; the program goes on"))
                }
                (None, None) => (
                    Verdict::Invalid,
                    format!(
                        "agrees for {n} records, and ends before the program does; the whole program was asked for \
                         (--records N asks for N records, --partial for as many as there are)"
                    ),
                ),
            },
            _ => return Found::new(bench, agreed, end, explanation, None),
        };
        let found = Found::new(bench, agreed, end, explanation, None);
        Found { verdict: judged.0, sentence: judged.1, ..found }
    }

    /// The exit status.
    pub fn status(&self) -> i32 {
        match self.verdict {
            _ if self.stopped => interrupt::STATUS,
            Verdict::Pass => 0,
            Verdict::Fail => 1,
            Verdict::Invalid => 2,
        }
    }

    pub fn text(&self) -> String {
        let mut lines: Vec<String> =
            self.notes.iter().map(|note| format!("note:         {note}")).collect();
        lines.push(format!("verdict:      {}: {}", self.verdict.name(), self.sentence));
        lines.push(format!("agreed:       {} records", grouped(self.agreed)));
        lines.extend(self.explanation.iter().flat_map(Explanation::lines));
        lines.extend(self.later.iter().map(|later| {
            let Later { compared, differ, by_word, .. } = later;
            let by: Vec<String> = WORDS
                .iter()
                .zip(by_word)
                .filter(|(_, count)| **count > 0)
                .map(|(name, count)| format!("{name} {}", grouped(*count)))
                .collect();
            let by = if by.is_empty() { String::new() } else { format!(" ({})", by.join(", ")) };
            format!(
                "later:        {} of the {} records after it differ{by}",
                grouped(*differ),
                grouped(*compared)
            )
        }));
        lines.extend(self.later_end.iter().map(|end| format!("then:         {end}")));
        lines.extend(self.registers.lines());
        lines.extend(self.written.iter().map(|path| format!("written:      {path}")));
        lines.join("\n") + "\n"
    }
}

/// How a comparison ended: the verdict without regard to what was asked for, a name, and a sentence.
fn words(end: &End, agreed: u64) -> (Verdict, &'static str, String) {
    let n = grouped(agreed);
    match end {
        End::Whole(why) => {
            (Verdict::Pass, "whole", format!("the trace ends with the program: {why}"))
        }
        End::Short => {
            (Verdict::Invalid, "short", "the trace ends before the program does".to_string())
        }
        End::Differed(word) => {
            let word = *word as usize;
            let name = WORDS[word];
            let sentence = format!("record {n} differs first in word {word}, {name}");
            (Verdict::Fail, "different", sentence)
        }
        End::WasHalted => {
            let sentence = format!("at record {n} the model is halted and accepts no interrupt");
            (Verdict::Fail, "halted", sentence)
        }
        End::WasFatal => (Verdict::Fail, "fatal", format!("at record {n} the model is fatal")),
        End::TurnedFatal => {
            (Verdict::Fail, "turned fatal", format!("at record {n} the model turned fatal"))
        }
        End::Refused(refusal) => (Verdict::Invalid, "refused", format!("at record {n}: {refusal}")),
        End::Stopped => {
            let sentence = format!("it was stopped by a signal after {n} records that agree");
            (Verdict::Invalid, "interrupted", sentence)
        }
    }
}
