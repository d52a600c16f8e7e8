//! Files in, and files out: all of them whole, or none; and none that was read is written over.

mod hash;
mod input;
mod names;
mod output;
mod place;
mod read;
mod reader;
mod stream;
mod temporary;

pub use hash::{read_hashed, regular, FileRead, Hash};
pub use input::{reason, register_standard_input, Input};
pub use names::{hidden, printable, shown};
pub use output::Outputs;
pub use reader::Reader;
pub use stream::Stream;
pub use temporary::remove_all;

use std::fs::Metadata;
use std::os::unix::fs::MetadataExt;

/// What makes two names the same file: the device and the file's number on it.
#[derive(Clone, Copy, Debug, Hash, PartialEq, Eq, PartialOrd, Ord)]
pub struct Identity(u64, u64);

impl Identity {
    pub fn of(about: &Metadata) -> Identity {
        Identity(about.dev(), about.ino())
    }
}
