//! One case judged: what a part shows of a test, compared with what the model shows. The evidence is a part's files, or what
//! a simulated part holds in memory; the rules are the same.

use vb::grouped;

use super::trace::Compared;
use super::Verdict;
use crate::eye::Eye;
use crate::failure::Failure;
use crate::inputs::capture::Level;
use crate::pictures::difference::{differences, Difference};
use crate::pictures::picture::Picture;
use crate::pictures::views::Views;
use crate::plan::{Expected, Memory, Test};
use crate::report::{MemoryFound, TraceFound};

/// What a part shows of one test.
pub trait Evidence {
    /// The captures of a frame, by its number in the test, the left eye's first. A failure of both eyes is given once.
    fn frame(&mut self, number: usize) -> Result<[Result<Option<Shot>, Failure>; 2], Failure>;
    /// Hands on the trace's bytes in order, and gives its name.
    fn trace(&mut self, compared: &mut Compared) -> Result<String, Failure>;
    /// A memory, by its number in the test: its name, and its bytes; none where it is not there.
    fn memory(&mut self, number: usize) -> Result<Option<(String, Vec<u8>)>, Failure>;

    /// What is said of an eye that has no capture and needs one.
    fn missing(&self, frame: usize, eye: Eye) -> String {
        format!("no capture of frame {frame}, {eye} eye")
    }
}

/// A capture of one eye.
pub struct Shot {
    pub name: String,
    pub picture: Picture,
    /// The samples that were taken for each level, where a threshold allows others.
    pub levels: Option<Vec<Level>>,
}

/// What a part holds in memory, as a simulated one does.
#[derive(Default)]
pub struct Held {
    /// Those that were drawn, in order.
    pub frames: Vec<Views>,
    /// 16 bytes for each record.
    pub trace: Vec<u8>,
    /// In the test's order.
    pub memories: Vec<Vec<u8>>,
}

impl Evidence for Held {
    fn frame(&mut self, number: usize) -> Result<[Result<Option<Shot>, Failure>; 2], Failure> {
        let shot = |eye: Eye| {
            let picture = self.frames.get(number)?.eye(eye).clone();
            Some(Shot { name: format!("frame {number}, {eye} eye"), picture, levels: None })
        };
        Ok(Eye::BOTH.map(|eye| Ok(shot(eye))))
    }

    fn trace(&mut self, compared: &mut Compared) -> Result<String, Failure> {
        compared.take(&self.trace)?;
        Ok("the trace".to_string())
    }

    fn memory(&mut self, number: usize) -> Result<Option<(String, Vec<u8>)>, Failure> {
        Ok(self.memories.get(number).map(|bytes| ("the memory".to_string(), bytes.clone())))
    }
}

/// A case with its verdict. Only what differs is in it.
#[derive(Default)]
pub struct Judged {
    pub verdict: Verdict,
    /// What could not be judged, and why.
    pub problems: Vec<String>,
    /// The captures that are equal.
    pub equal: Vec<(usize, Eye)>,
    pub pictures: Vec<PictureFound>,
    pub trace: Option<TraceFound>,
    pub memories: Vec<MemoryFound>,
}

/// A capture that differs, with every pixel that does.
pub struct PictureFound {
    pub frame: usize,
    pub eye: Eye,
    pub shot: Shot,
    pub found: Vec<Difference>,
}

/// Compares what a part shows of a test with what the model shows. Every capture, trace and memory that the test asks for
/// must be there, valid and equal; what is there and was not asked for is compared too.
pub fn judge(test: &Test, expected: &Expected, evidence: &mut dyn Evidence) -> Judged {
    let mut judged = Judged::default();
    for number in 0..expected.frames.len() {
        judged.frame(test, expected, number, evidence);
    }
    if let Some(records) = &expected.records {
        let mut compared = Compared::with(records);
        let read = evidence.trace(&mut compared);
        match read.and_then(|name| compared.found(name, test, expected)) {
            Ok(found) => judged.trace = found,
            Err(failure) => judged.problems.push(failure.message),
        }
    }
    for (number, memory) in expected.memories.iter().enumerate() {
        match evidence.memory(number).and_then(|there| compared(memory, there)) {
            Ok(found) => judged.memories.extend(found),
            Err(failure) => judged.problems.push(failure.message),
        }
    }
    let equal = judged.pictures.is_empty() && judged.trace.is_none() && judged.memories.is_empty();
    judged.verdict = match (judged.problems.is_empty(), equal) {
        (false, _) => Verdict::Invalid,
        (_, false) => Verdict::Fail,
        _ => Verdict::Pass,
    };
    judged
}

impl Judged {
    fn frame(
        &mut self,
        test: &Test,
        expected: &Expected,
        number: usize,
        evidence: &mut dyn Evidence,
    ) {
        let shots = match evidence.frame(number) {
            Ok(shots) => shots,
            Err(failure) => return self.problems.push(failure.message),
        };
        let frame = &expected.frames[number];
        for (eye, shot) in Eye::BOTH.into_iter().zip(shots) {
            match shot {
                Err(failure) => self.problems.push(failure.message),
                Ok(None) if test.eyes.need(eye) => {
                    self.problems.push(evidence.missing(number, eye));
                }
                Ok(None) => {}
                Ok(Some(shot)) => {
                    let found = differences(frame.views.eye(eye), &shot.picture);
                    match found.is_empty() {
                        true => self.equal.push((number, eye)),
                        false => {
                            self.pictures.push(PictureFound { frame: number, eye, shot, found });
                        }
                    }
                }
            }
        }
    }
}

/// What differs in a memory, whose length must be exact.
fn compared(
    Memory { region, address, bytes }: &Memory,
    there: Option<(String, Vec<u8>)>,
) -> Result<Option<MemoryFound>, Failure> {
    let (file, seen) = there.ok_or_else(|| Failure::bad(format!("no memory {region}")))?;
    if seen.len() != bytes.len() {
        let [there, asked] = [seen.len(), bytes.len()].map(|length| grouped(length as u64));
        let rule = format!("{region} has {asked} bytes");
        return Err(Failure::bad(format!("{file} ({there} bytes): {rule}")));
    }
    let pairs = bytes.iter().zip(&seen).enumerate();
    let mut differing = pairs.filter(|(_, (expected, seen))| expected != seen);
    let Some((first, (&expected, &seen))) = differing.next() else { return Ok(None) };
    let (more, last) = differing.fold((0, first), |(more, _), (n, _)| (more + 1, n));
    Ok(Some(MemoryFound {
        memory: region.to_string(),
        file,
        different: 1 + more,
        address: address + first as u32,
        last: address + last as u32,
        expected,
        seen,
        written_by: None,
    }))
}
