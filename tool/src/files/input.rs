//! A file that is read, `-` being standard input.

use std::fs::{self, File};
use std::io::{self, Read};
use std::os::fd::AsFd;
use std::path::{Path, PathBuf};
use std::sync::atomic::{AtomicBool, Ordering};

use vb::grouped;

use super::names::shown;
use super::read::register;
use super::reader::Reader;
use crate::failure::Failure;

/// No memory of the console is larger than a quarter of this.
const LARGEST: u64 = 64 << 20;

/// A file's bytes, with its name for messages.
#[derive(Clone)]
pub struct Input {
    pub path: PathBuf,
    pub bytes: Vec<u8>,
}

impl Input {
    /// Reads a file, a pipe or standard input; `wanted` says what it should be, for the message where there is none.
    pub fn read(path: &Path, wanted: &str) -> Result<Input, Failure> {
        let failed =
            |what: String| Failure::bad(format!("{}: {what}; it must be {wanted}", shown(path)));
        if path == Path::new("-") {
            let bytes = standard_input().map_err(failed)?;
            return Ok(Input { path: PathBuf::from("standard input"), bytes });
        }
        let about = fs::metadata(path).map_err(|error| failed(reason(&error)))?;
        if about.is_file() || about.is_dir() {
            return Reader::whole(path, wanted);
        }
        let pipe = File::open(path).map_err(|error| failed(reason(&error)))?;
        let bytes = limited(pipe).map_err(failed)?;
        Ok(Input { path: path.to_path_buf(), bytes })
    }

    /// The file, its length, and what is wrong with it.
    pub fn wrong(&self, rule: impl std::fmt::Display) -> String {
        format!("{} ({} bytes): {rule}", self.name(), grouped(self.bytes.len() as u64))
    }

    /// Its name, as it is printed.
    pub fn name(&self) -> String {
        shown(&self.path)
    }

    /// The file as text in UTF-8, without the byte order mark that some editors put first.
    pub fn text(&self) -> Result<&str, Failure> {
        let other = |what: &str| Failure::bad(format!("{}: is {what}", self.name()));
        if self.bytes.starts_with(&[0xFF, 0xFE]) || self.bytes.starts_with(&[0xFE, 0xFF]) {
            return Err(other("text in UTF-16; it must be UTF-8"));
        }
        let text = std::str::from_utf8(&self.bytes);
        let text = text.map_err(|_| other("not a text file; it must be text in UTF-8"))?;
        Ok(text.strip_prefix('\u{FEFF}').unwrap_or(text))
    }
}

/// An error without the system's number.
pub fn reason(error: &io::Error) -> String {
    let text = error.to_string();
    match text.split_once(" (os error") {
        Some((sentence, _)) => sentence.to_string(),
        None => text,
    }
}

pub fn limited(file: impl Read) -> Result<Vec<u8>, String> {
    let mut bytes = Vec::new();
    file.take(LARGEST + 1).read_to_end(&mut bytes).map_err(|error| reason(&error))?;
    match bytes.len() as u64 > LARGEST {
        true => Err(format!("has over {} bytes", grouped(LARGEST))),
        false => Ok(bytes),
    }
}

/// Standard input can be read once.
fn standard_input() -> Result<Vec<u8>, String> {
    static TAKEN: AtomicBool = AtomicBool::new(false);
    if TAKEN.swap(true, Ordering::Relaxed) {
        return Err("only one input can be `-`".to_string());
    }
    register_standard_input();
    limited(io::stdin().lock())
}

/// Standard input may be a file that was redirected to it.
pub fn register_standard_input() {
    let about = io::stdin().as_fd().try_clone_to_owned().and_then(|fd| File::from(fd).metadata());
    about.iter().for_each(register);
}
