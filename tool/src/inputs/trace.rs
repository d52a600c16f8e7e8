//! Recorded traces (paper 02, W10): four little-endian words per completed step, read in pieces.

use std::fs::{self, File};
use std::io::{self, Read};
use std::path::{Path, PathBuf};

use vb::{grouped, Refusal, RECORD_LENGTH};

use crate::failure::Failure;
use crate::files::{reason, register_standard_input, shown, Reader};

/// A record's words: PC before, PC after, PSW after, the sum of the registers after.
pub type Record = [u32; 4];

/// The names of a record's words.
pub const WORDS: [&str; 4] = ["PC before", "PC after", "PSW after", "the registers' sum after"];

/// The records of bytes, 16 each.
pub fn records(bytes: &[u8]) -> impl DoubleEndedIterator<Item = Record> + '_ {
    bytes.chunks_exact(RECORD_LENGTH).map(|record| {
        let word =
            |n: usize| u32::from_le_bytes(record[4 * n..4 * n + 4].try_into().expect("four bytes"));
        [0, 1, 2, 3].map(word)
    })
}

/// Bytes that are read at a time.
const PIECE: usize = 1 << 20;
const WANTED: &str = "a trace, 16 bytes per record";

/// Trace files, one after the other.
pub struct Traces {
    /// Those that are still to be read, the next one last.
    files: Vec<(PathBuf, Source)>,
    /// What was read and not yet used.
    bytes: Vec<u8>,
    used: usize,
    /// How many records there are, where no file is a pipe.
    pub records: Option<u64>,
}

enum Source {
    File(Reader),
    Pipe(Box<dyn Read>),
}

impl Traces {
    /// Opens all of them; a file whose length is not a whole number of records is refused before anything is done.
    pub fn open(paths: &[PathBuf]) -> Result<Traces, Failure> {
        let mut files: Vec<(PathBuf, Source)> = Vec::new();
        let mut records = Some(0);
        for path in paths {
            let failed = |what: String| {
                Failure::bad(format!("{}: {what}; it must be {WANTED}", shown(path)))
            };
            if path == Path::new("-") {
                if files.iter().any(|(path, _)| path == Path::new("standard input")) {
                    return Err(failed("only one input can be `-`".to_string()));
                }
                register_standard_input();
                let pipe = Source::Pipe(Box::new(io::stdin().lock()));
                files.push((PathBuf::from("standard input"), pipe));
                records = None;
                continue;
            }
            let about = fs::metadata(path).map_err(|error| failed(reason(&error)))?;
            if about.is_file() || about.is_dir() {
                let file = Reader::open(path, WANTED)?;
                whole(path, file.length())?;
                records = records.map(|sum| sum + file.length() / RECORD_LENGTH as u64);
                files.push((path.clone(), Source::File(file)));
            } else {
                let pipe = File::open(path).map_err(|error| failed(reason(&error)))?;
                files.push((path.clone(), Source::Pipe(Box::new(pipe))));
                records = None;
            }
        }
        files.reverse();
        Ok(Traces { files, bytes: Vec::new(), used: 0, records })
    }

    /// A trace that was read already.
    pub fn of(name: impl Into<PathBuf>, bytes: Vec<u8>) -> Result<Traces, Failure> {
        whole(&name.into(), bytes.len() as u64)?;
        let records = Some((bytes.len() / RECORD_LENGTH) as u64);
        Ok(Traces { files: Vec::new(), bytes, used: 0, records })
    }

    /// The next records, at most so many; none where all were used.
    pub fn next(&mut self, most: u64) -> Result<&[u8], Failure> {
        while self.used == self.bytes.len() && !self.files.is_empty() {
            self.read()?;
        }
        let there = self.bytes.len() - self.used;
        let most = most.saturating_mul(RECORD_LENGTH as u64).min(there as u64) as usize;
        Ok(&self.bytes[self.used..self.used + most])
    }

    /// So many of them were used.
    pub fn used(&mut self, records: u64) {
        self.used += records as usize * RECORD_LENGTH;
    }

    fn read(&mut self) -> Result<(), Failure> {
        let Some((path, source)) = self.files.last_mut() else { return Ok(()) };
        (self.bytes, self.used) = (Vec::new(), 0);
        match source {
            Source::File(file) => file.block(PIECE, &mut self.bytes)?,
            Source::Pipe(pipe) => {
                let read = pipe.take(PIECE as u64).read_to_end(&mut self.bytes);
                read.map_err(|error| Failure::bad(format!("{}: {}", shown(path), reason(&error))))?;
            }
        }
        whole(path, self.bytes.len() as u64)?;
        if self.bytes.len() < PIECE {
            if let Some((_, Source::File(file))) = self.files.pop() {
                file.finish()?;
            }
        }
        Ok(())
    }
}

/// Refusal 14 where a length is not a multiple of 16.
fn whole(path: &Path, length: u64) -> Result<(), Failure> {
    if length.is_multiple_of(RECORD_LENGTH as u64) {
        return Ok(());
    }
    let refusal = Refusal::TraceLength { given: length as usize };
    let message = format!("{} ({} bytes): {refusal}", shown(path), grouped(length));
    Err(Failure::refused(&refusal, message))
}
