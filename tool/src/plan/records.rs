//! The model's records of a test. Short ones stay in memory; long ones go to a file that has no name.

use std::fs::File;
use std::io::{self, Write};
use std::os::unix::fs::FileExt;

use vb::RECORD_LENGTH;

use crate::inputs::trace::{records, Record};

/// Bytes that stay in memory.
const MOST_KEPT: usize = 32 << 20;

#[derive(Default)]
pub struct Records {
    /// The last of them, or all.
    memory: Vec<u8>,
    file: Option<File>,
    /// Bytes in the file.
    filed: u64,
}

impl Records {
    pub fn push(&mut self, record: &[u8; RECORD_LENGTH]) -> io::Result<()> {
        self.memory.extend_from_slice(record);
        if self.memory.len() < MOST_KEPT {
            return Ok(());
        }
        let file = match &mut self.file {
            Some(file) => file,
            none => none.insert(tempfile::tempfile()?),
        };
        file.write_all(&self.memory)?;
        self.filed += self.memory.len() as u64;
        self.memory.clear();
        Ok(())
    }

    pub fn count(&self) -> u64 {
        (self.filed + self.memory.len() as u64) / RECORD_LENGTH as u64
    }

    /// The bytes from an offset on, at most so many, in a buffer.
    pub fn bytes(&self, offset: u64, most: usize, buffer: &mut Vec<u8>) -> io::Result<()> {
        buffer.clear();
        if let Some(file) = self.file.as_ref().filter(|_| offset < self.filed) {
            let length = most.min((self.filed - offset) as usize);
            buffer.resize(length, 0);
            file.read_exact_at(buffer, offset)?;
        }
        let at = (offset + buffer.len() as u64).saturating_sub(self.filed) as usize;
        let rest = self.memory.get(at..).unwrap_or_default();
        buffer.extend_from_slice(&rest[..rest.len().min(most - buffer.len())]);
        Ok(())
    }

    /// The records from one on, at most so many.
    pub fn some(&self, first: u64, most: usize) -> io::Result<Vec<Record>> {
        let mut buffer = Vec::new();
        self.bytes(first * RECORD_LENGTH as u64, most * RECORD_LENGTH, &mut buffer)?;
        Ok(records(&buffer).collect())
    }
}

#[cfg(test)]
mod tests {
    use super::*;

    #[test]
    fn records_in_a_file_and_in_memory_are_read_alike() {
        let mut all = Records::default();
        let count = (MOST_KEPT / RECORD_LENGTH) as u64 + 1_000;
        for n in 0..count {
            let mut record = [0; RECORD_LENGTH];
            record[..8].copy_from_slice(&n.to_le_bytes());
            all.push(&record).unwrap();
        }
        assert_eq!(all.count(), count);
        let edge = (MOST_KEPT / RECORD_LENGTH) as u64;
        for first in [0, 1, edge - 2, edge - 1, edge, count - 1] {
            let some = all.some(first, 3).unwrap();
            let wanted: Vec<u32> = (first..count.min(first + 3)).map(|n| n as u32).collect();
            assert_eq!(some.iter().map(|record| record[0]).collect::<Vec<u32>>(), wanted);
        }
        assert!(all.some(count, 3).unwrap().is_empty());
    }
}
