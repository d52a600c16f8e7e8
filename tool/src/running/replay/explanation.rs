//! What a record that differs says: the instruction, its operands, the flags by name, and what would explain the sum.

use serde::Serialize;
use vb::{grouped, op, record, Decoded, Processor};

use crate::inputs::setup::Bench;
use crate::inputs::trace::{records, Record, WORDS};
use crate::running::follow::{step, Effects};

/// How the model and the record part.
#[derive(Clone, Copy)]
pub enum Ending {
    Differed,
    /// The model makes a step that has no record.
    Step,
    /// The model makes no step.
    NoStep,
}

/// One record, explained; its members are those of the JSON.
#[derive(Serialize)]
pub struct Explanation {
    /// The first word that differs, 0 to 3, as the model has it and as the die has it.
    #[serde(skip_serializing_if = "Option::is_none")]
    pub word: Option<usize>,
    #[serde(skip_serializing_if = "Option::is_none")]
    pub expected: Option<u32>,
    #[serde(skip_serializing_if = "Option::is_none")]
    pub seen: Option<u32>,
    #[serde(skip_serializing_if = "Option::is_none")]
    pub expected_record: Option<Record>,
    #[serde(skip_serializing_if = "Option::is_none")]
    pub seen_record: Option<Record>,
    /// What the model did there, or has there.
    #[serde(skip_serializing_if = "Option::is_none")]
    pub instruction: Option<Effects>,
    /// The registers that the instruction names, and PSW, before the step.
    #[serde(skip_serializing_if = "Vec::is_empty")]
    pub operands: Vec<(String, u32)>,
    /// The flags of PSW that differ.
    #[serde(skip_serializing_if = "Vec::is_empty")]
    pub flags: Vec<Flag>,
    /// What would explain the differences.
    #[serde(skip_serializing_if = "Vec::is_empty")]
    pub hints: Vec<String>,
    /// The last records that agreed, and the instruction at each.
    #[serde(skip_serializing_if = "Vec::is_empty")]
    pub before: Vec<Record>,
    #[serde(skip_serializing_if = "Vec::is_empty")]
    pub before_instructions: Vec<String>,
    #[serde(skip)]
    index: u64,
}

/// A field of PSW that differs.
#[derive(Clone, Debug, PartialEq, Eq, Serialize)]
pub struct Flag {
    pub name: &'static str,
    pub expected: u32,
    pub seen: u32,
}

/// The fields of PSW: name, lowest bit, bits.
pub const FIELDS: [(&str, u32, u32); 15] = [
    ("Z", 0, 1),
    ("S", 1, 1),
    ("OV", 2, 1),
    ("CY", 3, 1),
    ("FPR", 4, 1),
    ("FUD", 5, 1),
    ("FOV", 6, 1),
    ("FZD", 7, 1),
    ("FIV", 8, 1),
    ("FRO", 9, 1),
    ("ID", 12, 1),
    ("AE", 13, 1),
    ("EP", 14, 1),
    ("NP", 15, 1),
    ("I", 16, 4),
];

/// The value of a field of PSW.
pub fn field(psw: u32, (_, low, bits): (&str, u32, u32)) -> u32 {
    psw >> low & ((1 << bits) - 1)
}

/// `Z CY NP I=3`, or `none`: the fields that are not zero.
pub fn named(psw: u32) -> String {
    let set = FIELDS.iter().filter(|one| field(psw, **one) != 0);
    let set: Vec<String> = set
        .map(|one| match one.2 {
            1 => one.0.to_string(),
            _ => format!("{}={}", one.0, field(psw, *one)),
        })
        .collect();
    if set.is_empty() {
        "none".to_string()
    } else {
        set.join(" ")
    }
}

/// The model's step at a record, which may be compared with several records that dies have there.
pub struct Step {
    index: u64,
    ending: Ending,
    before: Processor,
    after: Processor,
    instruction: Option<Effects>,
    last: Vec<Record>,
    last_instructions: Vec<String>,
}

impl Step {
    /// The step at the record with this index, after the last records. The bench holds the machine before the step, and
    /// afterwards the machine after it.
    pub fn of(bench: &mut Bench, index: u64, ending: Ending, last: &[Record]) -> Step {
        let before = bench.machine.processor;
        let last_instructions = last.iter().map(|record| instruction_at(bench, record)).collect();
        let instruction = match ending {
            Ending::Differed | Ending::Step => step(bench).ok().flatten(),
            Ending::NoStep => Effects::before(bench).ok(),
        };
        let after = bench.machine.processor;
        let last = last.to_vec();
        Step { index, ending, before, after, instruction, last, last_instructions }
    }

    /// Whether the model made a step.
    pub fn was_made(&self) -> bool {
        self.instruction.is_some()
    }

    /// Explains what a die has there.
    pub fn explain(&self, seen: Option<Record>) -> Explanation {
        let Step { before, after, instruction, .. } = self;
        let mut found = Explanation {
            word: None,
            expected: None,
            seen: None,
            expected_record: None,
            seen_record: seen,
            operands: operands(before, instruction.as_ref()),
            flags: Vec::new(),
            hints: Vec::new(),
            before: self.last.clone(),
            before_instructions: self.last_instructions.clone(),
            index: self.index,
            instruction: instruction.clone(),
        };
        let expected = records(&record(before.pc, after)).next();
        if let (Ending::Differed, Some(expected), Some(seen)) = (self.ending, expected, seen) {
            let differing = (0..4).find(|&word| expected[word] != seen[word]);
            found.word = differing;
            (found.expected, found.seen) =
                (differing.map(|word| expected[word]), differing.map(|word| seen[word]));
            found.expected_record = Some(expected);
            found.flags = flags(expected[2], seen[2]);
            found.hints = hints(before, after, instruction.as_ref(), &expected, &seen);
        }
        found
    }
}

impl Explanation {
    pub fn lines(&self) -> Vec<String> {
        let mut lines = Vec::new();
        if let (Some(word), Some(expected), Some(seen)) = (self.word, self.expected, self.seen) {
            let name = WORDS[word];
            lines.push(format!(
                "word {word}:       {name}: expected 0x{expected:08X}, seen 0x{seen:08X}"
            ));
        }
        lines.extend(self.instruction.iter().map(|one| format!("instruction:  {}", one.text())));
        if !self.operands.is_empty() {
            let each = self.operands.iter().map(|(name, value)| match name.as_str() {
                "psw" => format!("psw 0x{value:08X} ({})", named(*value)),
                _ => format!("{name} 0x{value:08X}"),
            });
            lines.push(format!("before it:    {}", each.collect::<Vec<_>>().join(", ")));
        }
        if let (false, Some(expected), Some(seen)) =
            (self.flags.is_empty(), self.expected_record, self.seen_record)
        {
            let (expected, seen) = (named(expected[2]), named(seen[2]));
            lines.push(format!("flags:        expected {expected}; seen {seen}"));
            lines.extend(self.flags.iter().map(|Flag { name, expected, seen }| {
                format!("  {name:<12}expected {expected}, seen {seen}")
            }));
        }
        lines.extend(self.hints.iter().map(|hint| format!("hint:         {hint}")));
        lines.extend(self.lines_before());
        lines.extend(self.expected_record.iter().map(|record| row("expected", record)));
        lines.extend(self.seen_record.iter().map(|record| row("seen", record)));
        lines
    }
}

impl Explanation {
    /// The records before it, with the instruction at each.
    pub fn lines_before(&self) -> Vec<String> {
        let first = self.index - self.before.len() as u64;
        let rows = self.before.iter().zip(&self.before_instructions);
        let line = |(n, (record, instruction)): (u64, (&Record, &String))| {
            format!("{}  {instruction}", row(&grouped(n), record))
        };
        (first..).zip(rows).map(line).collect()
    }
}

/// `  seen        0x07000000 0x07000002 0x00000000 0x00000001`
fn row(name: &str, record: &Record) -> String {
    let words = record.map(|word| format!("0x{word:08X}"));
    format!("  {name:<12}{}", words.join(" "))
}

/// The instruction of a record that agreed, as memory holds it now.
fn instruction_at(bench: &Bench, record: &Record) -> String {
    if record[1] & !0x70 == 0xFFFF_FE00 {
        return "interrupt".to_string();
    }
    let mut there = bench.machine;
    there.processor.pc = record[0];
    Effects::at(bench, &there).map_or_else(|_| "?".to_string(), |effects| effects.instruction)
}

/// The registers that an instruction names, as they were before it, and PSW.
fn operands(before: &Processor, instruction: Option<&Effects>) -> Vec<(String, u32)> {
    let Some(effects) = instruction else { return Vec::new() };
    let mut numbers: Vec<usize> = effects
        .instruction
        .split(|c: char| !c.is_ascii_alphanumeric())
        .filter_map(|word| word.strip_prefix('r')?.parse().ok())
        .filter(|number| *number < 32)
        .collect();
    numbers.sort_unstable();
    numbers.dedup();
    let mut operands: Vec<(String, u32)> =
        numbers.into_iter().map(|n| (format!("r{n}"), before.regs[n])).collect();
    operands.push(("psw".to_string(), before.psw));
    operands
}

fn flags(expected: u32, seen: u32) -> Vec<Flag> {
    FIELDS
        .iter()
        .map(|one| Flag { name: one.0, expected: field(expected, *one), seen: field(seen, *one) })
        .filter(|flag| flag.expected != flag.seen)
        .collect()
}

fn hints(
    before: &Processor,
    after: &Processor,
    instruction: Option<&Effects>,
    expected: &Record,
    seen: &Record,
) -> Vec<String> {
    let mut hints = Vec::new();
    if seen[0] == expected[0] {
        hints.extend(instruction.and_then(|effects| branch(effects, seen[1])));
    }
    let difference = seen[3].wrapping_sub(expected[3]);
    if difference != 0 {
        hints.extend(sum(before, after, difference));
    }
    hints
}

/// A branch that went the other way.
fn branch(effects: &Effects, seen: u32) -> Option<String> {
    let first = *effects.halfwords.first()?;
    let Decoded::Instruction { instruction, .. } = vb::decode(first, 0) else { return None };
    let next = effects.pc.wrapping_add(2);
    let target = effects.pc.wrapping_add(instruction.immediate);
    match effects.jumped {
        _ if instruction.operation != op::BCOND => None,
        Some(_) if seen == next => Some("PC is as if the branch was not taken".to_string()),
        None if seen == target => Some("PC is as if the branch was taken".to_string()),
        _ => None,
    }
}

/// What a single register would have to hold for the sum that was seen.
fn sum(before: &Processor, after: &Processor, difference: u32) -> Vec<String> {
    let signed = i64::from(difference as i32);
    let size = signed.unsigned_abs();
    let more = if signed > 0 { "more" } else { "less" };
    let bit = if size.is_power_of_two() {
        format!(", bit {}", size.trailing_zeros())
    } else {
        String::new()
    };
    let mut hints = vec![format!("the sum is 0x{size:X} {more} than expected{bit}")];
    let written: Vec<usize> = (1..32).filter(|&n| before.regs[n] != after.regs[n]).collect();
    for &n in &written {
        let value = after.regs[n].wrapping_add(difference);
        hints.push(match value == before.regs[n] {
            true => format!("r{n} alone would explain it: not written, it is still 0x{value:08X}"),
            false => format!(
                "r{n} alone would explain it: 0x{value:08X} in place of 0x{:08X}",
                after.regs[n]
            ),
        });
    }
    if let [n] = written[..] {
        let instead = (1..32).filter(|&m| m != n);
        let instead =
            instead.filter(|&m| before.regs[n].wrapping_sub(before.regs[m]) == difference);
        hints.extend(
            instead.take(4).map(|m| {
                format!("or 0x{:08X} was written to r{m} in place of r{n}", after.regs[n])
            }),
        );
    }
    if written.is_empty() {
        hints
            .push("no register is written here: one of r1 to r31 changed by that much".to_string());
    }
    hints
}
