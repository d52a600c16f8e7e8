//! A part's files as evidence. Each is read once; what is compared is what is hashed.

use std::path::Path;

use vb::VRAM_LENGTH;

use super::case::{Evidence, Shot};
use super::trace::Compared;
use crate::eye::Eye;
use crate::failure::Failure;
use crate::files::{read_hashed, shown, FileRead, Reader};
use crate::inputs::capture::{Capture, Wanted};
use crate::inputs::scene::CAPTURE;
use crate::lot::{Attempt, Seen, Slot, What};
use crate::plan::{Expected, Test};

/// Bytes that are read at a time, a whole number of records.
const BLOCK: usize = 1 << 18;
const TRACE: &str = "a trace, 16 bytes per record";

/// The files of one test in an attempt.
pub struct Files<'a> {
    pub test: &'a Test,
    pub expected: &'a Expected,
    /// The test's number in the plan.
    pub number: usize,
    pub attempt: &'a Attempt,
    /// Those that were read.
    pub read: &'a mut Vec<FileRead>,
}

impl Files<'_> {
    fn path(&self, what: What) -> Option<&Path> {
        self.attempt.files.get(&Slot { test: self.number, what })
    }

    /// A capture; `seen` says of which eyes, and `eyes` which of them are wanted.
    fn shots(&mut self, number: usize, seen: Seen, eyes: &[Eye]) -> Result<Vec<Shot>, Failure> {
        let Some(path) = self.path(What::Frame(number, seen)) else { return Ok(Vec::new()) };
        let (input, read) = read_hashed(path, CAPTURE)?;
        if seen == Seen::Both && input.bytes.len() != VRAM_LENGTH {
            let rule = "a capture of both eyes is a whole VRAM of 262,144 bytes";
            return Err(Failure::bad(input.wrong(rule)));
        }
        let name = path.to_string_lossy().into_owned();
        read.noted(self.read)?;
        let (frame, threshold) = (self.expected.frames[number].buffer, self.test.threshold);
        let shot = |eye: &Eye| {
            let wanted = Wanted { frame, eye: eye.number(), threshold };
            let Capture { picture, levels } = Capture::read(&input, wanted)?;
            Ok(Shot { name: name.clone(), picture, levels })
        };
        eyes.iter().map(shot).collect()
    }
}

impl Evidence for Files<'_> {
    fn frame(&mut self, number: usize) -> Result<[Result<Option<Shot>, Failure>; 2], Failure> {
        let own = |eye: Eye| if eye == Eye::Left { Seen::Left } else { Seen::Right };
        if let Some(both) = self.path(What::Frame(number, Seen::Both)) {
            for eye in Eye::BOTH {
                if let Some(one) = self.path(What::Frame(number, own(eye))) {
                    return Err(Failure::bad(format!(
                        "{} and {} are two captures of the {eye} eye; it must have one",
                        shown(both),
                        shown(one)
                    )));
                }
            }
            let mut shots = self.shots(number, Seen::Both, &Eye::BOTH)?.into_iter();
            return Ok(Eye::BOTH.map(|_| Ok(shots.next())));
        }
        Ok(Eye::BOTH.map(|eye| Ok(self.shots(number, own(eye), &[eye])?.into_iter().next())))
    }

    fn trace(&mut self, compared: &mut Compared) -> Result<String, Failure> {
        let path = self.path(What::Trace).ok_or_else(|| Failure::bad("no trace"))?;
        let name = shown(path);
        let read = Reader::each(path, TRACE, BLOCK, &mut |block| compared.take(block))?;
        self.read.push(read);
        Ok(name)
    }

    fn memory(&mut self, number: usize) -> Result<Option<(String, Vec<u8>)>, Failure> {
        let region = self.expected.memories[number].region;
        let Some(path) = self.path(What::Memory(number)) else { return Ok(None) };
        let (input, read) = read_hashed(path, &format!("the memory {region}"))?;
        read.noted(self.read)?;
        Ok(Some((input.name(), input.bytes)))
    }
}
