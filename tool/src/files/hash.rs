//! Files that were read, by their SHA-256 and length.

use std::fmt;
use std::fs;
use std::path::Path;

use serde::{de, Deserialize, Deserializer, Serialize, Serializer};
use sha2::{Digest, Sha256};

use super::{reason, shown, Input, Reader};
use crate::failure::Failure;

/// A SHA-256.
#[derive(Clone, Copy, PartialEq, Eq, Hash)]
pub struct Hash(pub [u8; 32]);

/// A file that was read.
#[derive(Clone, Debug, Deserialize, PartialEq, Eq, Serialize)]
pub struct FileRead {
    pub path: String,
    pub bytes: u64,
    pub sha256: Hash,
}

impl Hash {
    pub fn of(bytes: &[u8]) -> Hash {
        Hash(Sha256::digest(bytes).into())
    }
}

impl FileRead {
    /// A file that is held whole.
    pub fn whole(input: &Input) -> FileRead {
        FileRead::of(&input.path, input.bytes.len() as u64, Hash::of(&input.bytes))
    }

    pub fn of(path: &Path, bytes: u64, sha256: Hash) -> FileRead {
        FileRead { path: path.to_string_lossy().into_owned(), bytes, sha256 }
    }

    /// Adds it to a list that has it once. A file that is read again must be what it was.
    pub fn noted(self, list: &mut Vec<FileRead>) -> Result<(), Failure> {
        match list.iter().find(|one| one.path == self.path) {
            None => list.push(self),
            Some(before) if *before == self => {}
            Some(_) => {
                let name = shown(Path::new(&self.path));
                return Err(Failure::bad(format!("{name}: was changed while it was judged")));
            }
        }
        Ok(())
    }
}

/// Refuses a device or a pipe: it would make the command wait, and could not be read again.
pub fn regular(path: &Path, wanted: &str) -> Result<(), Failure> {
    let wrong =
        |what: String| Failure::bad(format!("{}: {what}; it must be {wanted}", shown(path)));
    let about = fs::metadata(path).map_err(|error| wrong(reason(&error)))?;
    match about.is_file() || about.is_dir() {
        true => Ok(()),
        false => Err(wrong("is a device or a pipe".to_string())),
    }
}

/// Reads a file that must be a regular one, so that no part can make the others wait.
pub fn read_hashed(path: &Path, wanted: &str) -> Result<(Input, FileRead), Failure> {
    let input = Reader::whole(path, wanted)?;
    let read = FileRead::whole(&input);
    Ok((input, read))
}

impl fmt::Display for Hash {
    fn fmt(&self, f: &mut fmt::Formatter) -> fmt::Result {
        self.0.iter().try_for_each(|byte| write!(f, "{byte:02x}"))
    }
}

impl fmt::Debug for Hash {
    fn fmt(&self, f: &mut fmt::Formatter) -> fmt::Result {
        write!(f, "{self}")
    }
}

impl Serialize for Hash {
    fn serialize<S: Serializer>(&self, serializer: S) -> Result<S::Ok, S::Error> {
        serializer.collect_str(self)
    }
}

impl<'de> Deserialize<'de> for Hash {
    fn deserialize<D: Deserializer<'de>>(deserializer: D) -> Result<Hash, D::Error> {
        let text = String::deserialize(deserializer)?;
        let digits: Option<Vec<u8>> = (0..text.len() / 2)
            .map(|n| u8::from_str_radix(text.get(2 * n..2 * n + 2)?, 16).ok())
            .collect();
        let bytes = digits.and_then(|bytes| bytes.try_into().ok());
        bytes.map(Hash).ok_or_else(|| de::Error::custom("a SHA-256 has 64 hexadecimal digits"))
    }
}

#[cfg(test)]
mod tests {
    use super::*;

    #[test]
    fn a_file_that_is_read_again_must_be_what_it_was() {
        let read = |path: &str, bytes: &[u8]| {
            FileRead::of(Path::new(path), bytes.len() as u64, Hash::of(bytes))
        };
        let mut list = Vec::new();
        for (path, bytes) in [("a", b"1"), ("b", b"2"), ("a", b"1")] {
            assert!(read(path, bytes).noted(&mut list).is_ok());
        }
        assert_eq!(list.len(), 2);
        let changed = read("a", b"3").noted(&mut list).unwrap_err();
        assert_eq!(changed.message, "a: was changed while it was judged");
    }

    #[test]
    fn a_hash_is_read_as_it_is_written() {
        let hash = Hash::of(b"abc");
        let text = "\"ba7816bf8f01cfea414140de5dae2223b00361a396177a9cb410ff61f20015ad\"";
        assert_eq!(serde_json::to_string(&hash).unwrap(), text);
        assert_eq!(serde_json::from_str::<Hash>(text).unwrap(), hash);
        assert!(serde_json::from_str::<Hash>("\"ab\"").is_err());
    }
}
