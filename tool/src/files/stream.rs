//! A file that grows while a command runs.

use std::fs::{File, Metadata};
use std::io::{self, BufWriter, Write};
use std::path::{Path, PathBuf};

use super::names::shown;
use super::output::{failed, place_of, Kind};
use super::place::{folder_of, Place};
use super::temporary::Temporary;
use crate::failure::Failure;

/// It has a temporary name until `Outputs` gives it its own, and is removed where that never comes.
pub struct Stream {
    path: PathBuf,
    kind: Kind,
    sink: BufWriter<Sink>,
}

pub enum Sink {
    Temporary {
        file: Temporary,
        target: PathBuf,
        now: Option<Box<Metadata>>,
    },
    /// Standard output, a device or a pipe.
    Through(Box<dyn Write>),
}

impl Stream {
    /// The file that the command is for; `-` is standard output.
    pub fn main(path: &Path) -> Result<Stream, Failure> {
        Stream::of(path, Kind::Main)
    }

    /// A file; its folder must be there.
    pub fn new(path: &Path) -> Result<Stream, Failure> {
        Stream::of(path, Kind::File)
    }

    fn of(path: &Path, kind: Kind) -> Result<Stream, Failure> {
        let sink = match place_of(path, kind, &mut Vec::new())? {
            Place::StandardOutput => Sink::Through(Box::new(io::stdout())),
            Place::Through { target, .. } if target == Path::new("/dev/stdout") => {
                Sink::Through(Box::new(io::stdout()))
            }
            Place::Through { target, .. } => {
                let file = File::options().write(true).open(target);
                Sink::Through(Box::new(file.map_err(|error| failed(path, &error))?))
            }
            Place::File { target, now } => {
                let file = Temporary::new(folder_of(&target), now.as_ref());
                let file = file.map_err(|error| failed(path, &error))?;
                Sink::Temporary { file, target, now: now.map(Box::new) }
            }
        };
        let sink = BufWriter::with_capacity(1 << 16, sink);
        Ok(Stream { path: path.to_path_buf(), kind, sink })
    }

    /// Its name as it is printed; the file that the command is for is reported by the command itself.
    pub(super) fn named(&self) -> Option<String> {
        (self.kind == Kind::File).then(|| shown(&self.path))
    }

    pub fn write(&mut self, bytes: &[u8]) -> Result<(), Failure> {
        self.sink.write_all(bytes).map_err(|error| failed(&self.path, &error))
    }

    /// Its path, and where its bytes are, all of them written.
    pub(super) fn finished(mut self) -> Result<(PathBuf, Sink), Failure> {
        self.sink.flush().map_err(|error| failed(&self.path, &error))?;
        let (sink, _) = self.sink.into_parts();
        Ok((self.path, sink))
    }
}

impl Write for Sink {
    fn write(&mut self, bytes: &[u8]) -> io::Result<usize> {
        match self {
            Sink::Temporary { file, .. } => file.write(bytes),
            Sink::Through(file) => file.write(bytes),
        }
    }

    fn flush(&mut self) -> io::Result<()> {
        match self {
            Sink::Temporary { file, .. } => file.flush(),
            Sink::Through(file) => file.flush(),
        }
    }
}
