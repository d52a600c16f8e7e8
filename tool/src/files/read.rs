//! Which files were read: none of them may be an output of the same command. Inputs register themselves.

use std::collections::BTreeSet;
use std::fs::Metadata;
use std::sync::{Mutex, PoisonError};

use super::Identity;

static READ: Mutex<BTreeSet<Identity>> = Mutex::new(BTreeSet::new());

/// Notes that a file is read. Devices and pipes hold nothing that could be written over.
pub fn register(about: &Metadata) {
    if about.is_file() {
        READ.lock().unwrap_or_else(PoisonError::into_inner).insert(Identity::of(about));
    }
}

/// Whether the file was read by this command, under whatever name.
pub fn was_read(about: &Metadata) -> bool {
    READ.lock().unwrap_or_else(PoisonError::into_inner).contains(&Identity::of(about))
}
