//! The one reader of files that are judged. A regular file is read once, from its first byte to its last; what is handed
//! on is what is hashed. A file that grows, shrinks or changes meanwhile is refused, and so is one that is replaced.

use std::fs::{self, File, Metadata};
use std::io::Read;
use std::os::unix::fs::{MetadataExt, OpenOptionsExt};
use std::path::{Path, PathBuf};

use sha2::{Digest, Sha256};

use super::hash::{FileRead, Hash};
use super::input::{limited, reason, Input};
use super::names::shown;
use super::read::register;
use super::Identity;
use crate::failure::Failure;
use crate::interrupt;

/// A file that is being read.
pub struct Reader {
    path: PathBuf,
    /// What it must be, for messages.
    wanted: String,
    file: File,
    opened: Stamp,
    bytes: u64,
    hash: Sha256,
}

/// What must be the same of a file when it is opened and when it was read.
#[derive(Clone, Copy, PartialEq, Eq)]
struct Stamp {
    identity: Identity,
    length: u64,
    modified: (i64, i64),
}

impl Stamp {
    fn of(about: &Metadata) -> Stamp {
        let modified = (about.mtime(), about.mtime_nsec());
        Stamp { identity: Identity::of(about), length: about.len(), modified }
    }
}

impl Reader {
    /// Opens a regular file; a folder, a pipe or a device is refused, and never waited for.
    pub fn open(path: &Path, wanted: &str) -> Result<Reader, Failure> {
        let failed =
            |what: &str| Failure::bad(format!("{}: {what}; it must be {wanted}", shown(path)));
        let regular = |about: &Metadata| match (about.is_file(), about.is_dir()) {
            (true, _) => Ok(()),
            (_, true) => Err(failed("is a folder")),
            _ => Err(failed("is a device or a pipe")),
        };
        // looked at before it is opened: a device may do something when it is
        regular(&fs::metadata(path).map_err(|error| failed(&reason(&error)))?)?;
        let open = File::options().read(true).custom_flags(libc::O_NONBLOCK).open(path);
        let file = open.map_err(|error| failed(&reason(&error)))?;
        let about = file.metadata().map_err(|error| failed(&reason(&error)))?;
        regular(&about)?;
        register(&about);
        let (path, wanted) = (path.to_path_buf(), wanted.to_string());
        Ok(Reader { path, wanted, file, opened: Stamp::of(&about), bytes: 0, hash: Sha256::new() })
    }

    /// The length that the file had when it was opened.
    pub fn length(&self) -> u64 {
        self.opened.length
    }

    /// The next bytes in a buffer: so many, and fewer only where the file ends.
    pub fn block(&mut self, most: usize, buffer: &mut Vec<u8>) -> Result<(), Failure> {
        buffer.clear();
        let read = self.file.by_ref().take(most as u64).read_to_end(buffer);
        read.map_err(|error| self.failed(&reason(&error)))?;
        self.hash.update(&buffer);
        self.bytes += buffer.len() as u64;
        Ok(())
    }

    /// The file after its last byte was read: its length and hash, where it is still the file that was opened.
    pub fn finish(self) -> Result<FileRead, Failure> {
        self.unchanged()?;
        Ok(FileRead::of(&self.path, self.bytes, Hash(self.hash.finalize().into())))
    }

    fn unchanged(&self) -> Result<(), Failure> {
        let now = self.file.metadata().map(|about| Stamp::of(&about));
        let named = fs::metadata(&self.path).map(|about| Identity::of(&about));
        let same = now.is_ok_and(|now| now == self.opened)
            && named.is_ok_and(|named| named == self.opened.identity)
            && self.bytes == self.opened.length;
        match same {
            true => Ok(()),
            false => Err(self.failed("was changed while it was read")),
        }
    }

    fn failed(&self, what: &str) -> Failure {
        Failure::bad(format!("{}: {what}; it must be {}", shown(&self.path), self.wanted))
    }

    /// Hands on a whole file in blocks of this size, the last one shorter or empty. A signal ends it between two.
    pub fn each(
        path: &Path,
        wanted: &str,
        size: usize,
        take: &mut dyn FnMut(&[u8]) -> Result<(), Failure>,
    ) -> Result<FileRead, Failure> {
        let mut reader = Reader::open(path, wanted)?;
        let mut block = Vec::with_capacity(size);
        loop {
            if interrupt::asked() {
                return Err(Failure::stopped());
            }
            reader.block(size, &mut block)?;
            take(&block)?;
            if block.len() < size {
                return reader.finish();
            }
        }
    }

    /// A file that is held whole, of at most 64 MB.
    pub fn whole(path: &Path, wanted: &str) -> Result<Input, Failure> {
        let mut reader = Reader::open(path, wanted)?;
        let bytes = limited(&mut reader.file).map_err(|what| reader.failed(&what))?;
        reader.bytes = bytes.len() as u64;
        reader.unchanged()?;
        Ok(Input { path: reader.path, bytes })
    }
}

#[cfg(test)]
mod tests {
    use std::io::{Seek, SeekFrom, Write};
    use std::time::{Duration, SystemTime};

    use super::*;

    const LONG: usize = 1_000;

    fn made(folder: &Path) -> PathBuf {
        let path = folder.join("a.trace");
        fs::write(&path, vec![7; LONG]).unwrap();
        path
    }

    /// Reads a file in blocks of 100; `between` is done after the fifth, or at the end of the file.
    fn read_while(between: fn(&Path), at_end: bool) -> Result<FileRead, Failure> {
        let folder = tempfile::tempdir().unwrap();
        let path = made(folder.path());
        let mut reader = Reader::open(&path, "a trace")?;
        let mut block = Vec::new();
        for number in 0.. {
            if number == if at_end { 11 } else { 5 } {
                between(&path);
            }
            reader.block(100, &mut block)?;
            if block.len() < 100 && number > 10 {
                break;
            }
        }
        reader.finish()
    }

    fn changes() -> [fn(&Path); 4] {
        [
            |path| File::options().append(true).open(path).unwrap().write_all(&[7; 8]).unwrap(),
            |path| File::options().write(true).open(path).unwrap().set_len(900).unwrap(),
            |path| {
                let mut file = File::options().write(true).open(path).unwrap();
                file.seek(SeekFrom::Start(10)).unwrap();
                file.write_all(&[8]).unwrap();
                // the clock of a file may stand still for some milliseconds
                file.set_modified(SystemTime::now() + Duration::from_secs(9)).unwrap();
            },
            |path| {
                fs::write(path.with_extension("new"), vec![7; LONG]).unwrap();
                fs::rename(path.with_extension("new"), path).unwrap();
            },
        ]
    }

    #[test]
    fn a_file_that_grows_shrinks_changes_or_is_replaced_while_it_is_read_is_refused() {
        for (number, change) in changes().into_iter().enumerate() {
            for at_end in [false, true] {
                let failure = read_while(change, at_end).unwrap_err();
                assert!(
                    failure.message.ends_with("was changed while it was read; it must be a trace"),
                    "{number}: {}",
                    failure.message
                );
            }
        }
        let read = read_while(|_| {}, false).unwrap();
        assert_eq!((read.bytes, read.sha256), (1_000, Hash::of(&[7; LONG])));
    }

    #[test]
    fn blocks_are_full_but_for_the_last_one_and_are_what_is_hashed() {
        let folder = tempfile::tempdir().unwrap();
        let path = made(folder.path());
        for size in [1, 16, 100, 999, 1_000, 1_001] {
            let (mut all, mut last) = (Vec::new(), size);
            let read = Reader::each(&path, "a trace", size, &mut |block| {
                assert_eq!(last, size, "a block after a short one");
                last = block.len();
                all.extend_from_slice(block);
                Ok(())
            });
            assert_eq!(all, [7; LONG]);
            assert_eq!(read.unwrap().sha256, Hash::of(&all));
        }
    }

    #[test]
    fn folders_and_devices_are_refused() {
        for (path, what) in [("/", "is a folder"), ("/dev/zero", "is a device or a pipe")] {
            let failure = Reader::open(Path::new(path), "a trace").err().unwrap();
            assert_eq!(failure.message, format!("{path}: {what}; it must be a trace"));
            assert!(Reader::whole(Path::new(path), "a trace").is_err());
        }
    }
}
