//! A part's trace compared with the model's records, block by block.

use vb::{grouped, RECORD_LENGTH};

use crate::failure::Failure;
use crate::inputs::trace::{records, Record};
use crate::plan::{Asked, Ended, Expected, Records, Test};
use crate::report::TraceFound;

/// A trace as far as it was compared.
pub struct Compared<'a> {
    model: &'a Records,
    bytes: u64,
    /// The first record that differs, the model's, none after its last one, and the trace's.
    first: Option<(u64, Option<Record>, Record)>,
    differing: u64,
    /// The model's block.
    expected: Vec<u8>,
}

impl<'a> Compared<'a> {
    pub fn with(model: &'a Records) -> Compared<'a> {
        Compared { model, bytes: 0, first: None, differing: 0, expected: Vec::new() }
    }

    /// The trace's next bytes. Only the last block may be no whole number of records, and such a trace is refused.
    pub fn take(&mut self, block: &[u8]) -> Result<(), Failure> {
        let mut expected = std::mem::take(&mut self.expected);
        let read = self.model.bytes(self.bytes, block.len(), &mut expected);
        read.map_err(|error| Failure::bad(format!("the model's records: {error}")))?;
        if block != expected {
            self.compare(block, &expected);
        }
        self.bytes += block.len() as u64;
        self.expected = expected;
        Ok(())
    }

    /// Two blocks that are not the same: record by record. Records after the model's last one differ from nothing.
    fn compare(&mut self, block: &[u8], expected: &[u8]) {
        let from = self.bytes / RECORD_LENGTH as u64;
        let mut model = records(expected);
        for (number, seen) in (from..).zip(records(block)) {
            let expected = model.next();
            if expected == Some(seen) {
                continue;
            }
            if expected.is_some() || self.first.is_none() {
                self.differing += 1;
            }
            self.first.get_or_insert((number, expected, seen));
        }
    }

    /// What differs; none where all records that were asked for are there and agree.
    pub fn found(
        self,
        file: String,
        test: &Test,
        expected: &Expected,
    ) -> Result<Option<TraceFound>, Failure> {
        let (there, asked) = (self.bytes / RECORD_LENGTH as u64, self.model.count());
        if !self.bytes.is_multiple_of(RECORD_LENGTH as u64) {
            let refusal = vb::Refusal::TraceLength { given: self.bytes as usize };
            let message = format!("{file} ({} bytes): {refusal}", grouped(self.bytes));
            return Err(Failure::refused(&refusal, message));
        }
        let ended = match (test.trace, &expected.ended) {
            // the plan's number or budget cuts the model's records, not the program's end
            (Asked::First(_), _) | (_, Ended::Budget | Ended::Enough) => false,
            _ => true,
        };
        let first = self.first.filter(|first| first.1.is_some() || ended);
        if let Some((record, expected, seen)) = first {
            let word = expected.map_or(0, |expected| word(expected, seen));
            let (records, later, explained) = (there, self.differing - 1, None);
            return Ok(Some(TraceFound {
                file,
                records,
                asked,
                record,
                word,
                expected,
                seen,
                later,
                explained,
            }));
        }
        match there < asked {
            true => Err(Failure::bad(format!(
                "{file}: agrees for {} records; {} were asked for",
                grouped(there),
                grouped(asked)
            ))),
            false => Ok(None),
        }
    }
}

/// The first word that differs.
fn word(expected: Record, seen: Record) -> usize {
    (0..4).find(|&word| expected[word] != seen[word]).unwrap_or(0)
}
