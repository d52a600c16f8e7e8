//! An assembler for the processor's modelled instructions, in the notation of document 000 ("Assembly Notation"):
//! destination on the right, `disp[reg]` for memory, a label as the target of branches and jumps. The halfwords are
//! those of the proved encoder.
//!
//! It also has `LI value, reg` (MOVHI, then MOVEA), labels (`name:`), `.equ name, value`, `.origin` (the first byte's
//! address, before all bytes), `.byte`, `.half`, `.word`, `.space`, `.align`, `.org` (an address) and `.bytes name` (bytes
//! that the caller names). A value is an expression.

mod expression;
mod instruction;

use std::collections::{BTreeMap, HashMap};

use crate::files::printable;
use expression::{evaluate, Names, Value};

/// Where a program goes, and what it may refer to by name.
pub struct Source<'a> {
    pub text: &'a str,
    /// The address of the first byte.
    pub origin: u32,
    pub symbols: &'a [(&'a str, i64)],
    pub bytes: &'a [(&'a str, &'a [u8])],
}

/// Bytes of the largest ROM.
const LARGEST: usize = 0x100_0000;
/// Mistakes that are reported.
const MOST: usize = 100;
/// Constants that are defined by each other.
const DEEPEST: usize = 500;

/// The program's bytes from the origin on, in two passes: the first places the labels, the second writes. Where there are
/// mistakes, every one of them, a line each.
pub fn assemble(source: &Source) -> Result<Vec<u8>, String> {
    let mut symbols = Symbols::of(source);
    // by the line's number
    let mut mistakes: BTreeMap<usize, String> = BTreeMap::new();
    let mut bytes = Vec::new();
    // of each line in the first pass
    let mut lengths = Vec::new();
    for writing in [false, true] {
        bytes.clear();
        symbols.memo.clear();
        let mut origin = source.origin;
        for (number, line) in source.text.lines().enumerate() {
            if mistakes.contains_key(&number) {
                bytes.resize(bytes.len() + lengths[number], 0);
                continue;
            }
            let placed = mistakes.is_empty();
            let before = bytes.len();
            let mut place = Place {
                source,
                origin: &mut origin,
                symbols: &mut symbols,
                bytes: &mut bytes,
                writing,
                placed,
            };
            if let Err(wrong) = place.line(line) {
                mistakes.insert(number, wrong);
                // what follows stays where the first pass has placed it
                bytes.resize(before + lengths.get(number).copied().unwrap_or(0), 0);
            }
            if !writing {
                lengths.push(bytes.len() - before);
            }
            if bytes.len() > LARGEST {
                let rule = format!("the program has over {} bytes", vb::grouped(LARGEST as u64));
                mistakes.insert(number, rule);
                break;
            }
        }
        if bytes.len() > LARGEST {
            break;
        }
    }
    match mistakes.is_empty() {
        true => Ok(bytes),
        false => Err(report(source, &mistakes)),
    }
}

/// A line for each mistake, as many as are shown.
fn report(source: &Source, mistakes: &BTreeMap<usize, String>) -> String {
    let lines: Vec<&str> = source.text.lines().collect();
    let mut all: Vec<String> = mistakes
        .iter()
        .take(MOST)
        .map(|(number, wrong)| {
            let line = printable(lines[*number].trim());
            format!("line {}: {}: {line}", number + 1, printable(wrong))
        })
        .collect();
    if mistakes.len() > MOST {
        let more = vb::grouped((mistakes.len() - MOST) as u64);
        all.push(format!("{more} more mistakes are left out"));
    }
    all.join("\n")
}

/// What names stand for: labels and the caller's names by value, constants by their expression.
#[derive(Default)]
struct Symbols {
    values: HashMap<String, i64>,
    constants: HashMap<String, Constant>,
    /// Constants that were worked out; labels that they use stay where they are in the second pass alone.
    memo: HashMap<String, Value>,
}

struct Constant {
    text: String,
    /// The address of its line, once it is placed.
    here: Option<i64>,
}

impl Symbols {
    fn of(source: &Source) -> Symbols {
        let mut symbols = Symbols::default();
        symbols
            .values
            .extend(source.symbols.iter().map(|&(name, value)| (name.to_string(), value)));
        for &(name, bytes) in source.bytes {
            symbols.values.insert(format!("{name}_size"), bytes.len() as i64);
        }
        // a constant may be used above its line
        for line in source.text.lines() {
            let line = without_comment(line);
            let after = line.rsplit_once(':').map_or(line, |(_, after)| after).trim();
            let Some(rest) =
                after.strip_prefix(".equ").filter(|r| r.starts_with(char::is_whitespace))
            else {
                continue;
            };
            if let [name, text] = operands(rest)[..] {
                let constant = Constant { text: text.to_string(), here: None };
                symbols.constants.entry(name.to_string()).or_insert(constant);
            }
        }
        symbols
    }
}

fn without_comment(line: &str) -> &str {
    line.split(';').next().unwrap_or("")
}

fn operands(text: &str) -> Vec<&str> {
    text.split(',').map(str::trim).filter(|operand| !operand.is_empty()).collect()
}

/// One evaluation, with the constants that it is inside of.
struct Scope<'a> {
    symbols: &'a mut Symbols,
    here: Value,
    inside: Vec<String>,
    writing: bool,
}

impl Names for Scope<'_> {
    fn value_of(&mut self, name: &str) -> Result<Value, String> {
        if let Some(value) = self.symbols.values.get(name) {
            return Ok(Value::known(*value));
        }
        if let Some(value) = self.symbols.memo.get(name) {
            return Ok(*value);
        }
        let Some(Constant { text, here }) = self.symbols.constants.get(name) else {
            return match self.writing {
                true => Err(format!("`{name}` is not named")),
                false => Ok(Value::UNKNOWN),
            };
        };
        if self.inside.iter().any(|outer| outer == name) {
            let circle = [self.inside.join(", "), name.to_string()].join(", ");
            return Err(format!("`{name}` is defined by itself: {circle}"));
        }
        if self.inside.len() == DEEPEST {
            return Err(format!("over {DEEPEST} constants are defined by each other"));
        }
        let (text, here) = (text.clone(), here.map_or(Value::UNKNOWN, Value::known));
        let outer = std::mem::replace(&mut self.here, here);
        self.inside.push(name.to_string());
        let value = evaluate(&text, self);
        self.inside.pop();
        self.here = outer;
        let value = value?;
        self.symbols.memo.insert(name.to_string(), value);
        Ok(value)
    }

    fn here(&self) -> Value {
        self.here
    }
}

/// A pass at one line.
struct Place<'a> {
    source: &'a Source<'a>,
    origin: &'a mut u32,
    symbols: &'a mut Symbols,
    bytes: &'a mut Vec<u8>,
    writing: bool,
    /// Whether no mistake was found so far: then a label that is elsewhere has moved by itself.
    placed: bool,
}

impl Place<'_> {
    fn address(&self) -> i64 {
        i64::from(*self.origin) + self.bytes.len() as i64
    }

    fn line(&mut self, line: &str) -> Result<(), String> {
        let mut rest = without_comment(line).trim();
        while let Some((label, after)) = rest.split_once(':') {
            self.label(label.trim())?;
            rest = after.trim();
        }
        if rest.is_empty() {
            return Ok(());
        }
        let (word, after) = rest.split_once(char::is_whitespace).unwrap_or((rest, ""));
        let operands = operands(after);
        if let Some(directive) = word.strip_prefix('.') {
            return self.directive(directive, &operands);
        }
        for half in self.instruction(&word.to_uppercase(), &operands)? {
            self.bytes.extend_from_slice(&half.to_le_bytes());
        }
        Ok(())
    }

    fn label(&mut self, name: &str) -> Result<(), String> {
        let address = self.address();
        named(name)?;
        let before = self.symbols.values.get(name);
        if !self.writing && (before.is_some() || self.symbols.constants.contains_key(name)) {
            return Err(format!("`{name}` is named twice"));
        }
        if self.writing && self.placed && before != Some(&address) {
            return Err(format!("`{name}` has moved; a size above it uses a name further down"));
        }
        self.symbols.values.insert(name.to_string(), address);
        Ok(())
    }

    /// A constant: its expression was found before the first pass, its line is here.
    fn constant(&mut self, name: &str, text: &str) -> Result<(), String> {
        named(name)?;
        let here = self.address();
        let twice = || format!("`{name}` is named twice");
        let constant = self.symbols.constants.get_mut(name).ok_or_else(twice)?;
        let again = constant.text != text || (!self.writing && constant.here.is_some());
        if again || self.symbols.values.contains_key(name) {
            return Err(twice());
        }
        constant.here = Some(here);
        let mut scope = self.scope();
        scope.value_of(name).map(|_| ())
    }

    fn scope(&mut self) -> Scope<'_> {
        if !self.writing {
            self.symbols.memo.clear();
        }
        let here = Value::known(self.address());
        Scope { symbols: self.symbols, here, inside: Vec::new(), writing: self.writing }
    }

    /// The value of an expression. A label further down is unknown in the first pass.
    fn value(&mut self, text: &str) -> Result<Value, String> {
        evaluate(text, &mut self.scope())
    }

    /// A value within bounds; one that is not yet known is the lowest from 0 on.
    fn within(&mut self, text: &str, low: i64, high: i64) -> Result<i64, String> {
        match self.value(text)? {
            Value { known: false, .. } => Ok(low.max(0)),
            Value { number, .. } => within(number, low, high),
        }
    }

    fn directive(&mut self, directive: &str, operands: &[&str]) -> Result<(), String> {
        match (directive, operands) {
            ("equ", [name, value]) => self.constant(name, value)?,
            ("origin", [address]) => {
                if !self.bytes.is_empty() {
                    return Err("`.origin` must stand before all bytes".to_string());
                }
                *self.origin = self.within(address, 0, 0xFFFF_FFFF)? as u32;
            }
            ("byte", values) if !values.is_empty() => self.numbers(values, 1, -0x80, 0xFF)?,
            ("half", values) => self.numbers(values, 2, -0x8000, 0xFFFF)?,
            ("word", values) => self.numbers(values, 4, -0x8000_0000, 0xFFFF_FFFF)?,
            ("space", [count]) => {
                let count = self.within(count, 0, 0x100_0000)?;
                self.bytes.resize(self.bytes.len() + count as usize, 0);
            }
            ("align", [to]) => {
                let to = self.within(to, 1, 0x1000)? as usize;
                self.bytes.resize(self.bytes.len().next_multiple_of(to), 0);
            }
            ("org", [address]) => {
                let here = self.address();
                let ahead = match self.value(address)? {
                    Value { known: false, .. } => 0,
                    Value { number, .. } => number - here,
                };
                let ahead =
                    within(ahead, 0, 0x100_0000).map_err(|_| "`.org` lies behind".to_string())?;
                self.bytes.resize(self.bytes.len() + ahead as usize, 0);
            }
            ("bytes", [name]) => {
                let named = self.source.bytes.iter().find(|(n, _)| n == name);
                self.bytes.extend_from_slice(named.ok_or(format!("no bytes named `{name}`"))?.1);
            }
            _ => {
                return Err(format!("`.{directive}` with {} operands is not known", operands.len()))
            }
        }
        Ok(())
    }

    /// Numbers of `length` bytes each, lowest byte first.
    fn numbers(
        &mut self,
        values: &[&str],
        length: usize,
        low: i64,
        high: i64,
    ) -> Result<(), String> {
        for value in values {
            let value = self.within(value, low, high)?;
            self.bytes.extend_from_slice(&value.to_le_bytes()[..length]);
        }
        Ok(())
    }
}

/// Whether this can name a label or a constant.
fn named(text: &str) -> Result<(), String> {
    let inner = |c: char| c.is_ascii_alphanumeric() || c == '_';
    let first = |c: char| c.is_ascii_alphabetic() || c == '_';
    match text.chars().all(inner) && text.starts_with(first) {
        true => Ok(()),
        false => Err(format!(
            "`{text}` is not a name; a name has letters, digits and `_`, a letter or `_` first"
        )),
    }
}

fn within(value: i64, low: i64, high: i64) -> Result<i64, String> {
    if (low..=high).contains(&value) {
        return Ok(value);
    }
    Err(format!("{value} is not within {low} to {high}"))
}

#[cfg(test)]
mod tests;
