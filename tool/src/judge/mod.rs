//! A lot judged: many parts, each a scene and the captures of it, compared with the model.

mod attempt;
mod by_plan;
mod captures;
pub mod case;
mod evidence;
mod explained;
mod folder;
mod lot;
mod manifest;
mod summary;
mod trace;
mod verdict;

pub use attempt::Model;
pub use by_plan::{judge_lot, model_of, Asked};
pub use captures::judge_captures;
pub use lot::Lot;
pub use summary::Summary;
pub use verdict::{missing, Judged, Verdict, Wish};

use std::path::PathBuf;

use serde::Deserialize;

use crate::eye::Eyes;
use crate::failure::Failure;

/// One part as a manifest names it. What it leaves out comes from the lot's defaults.
#[derive(Clone, Debug, Default, Deserialize)]
#[serde(deny_unknown_fields)]
pub struct Part {
    pub name: String,
    pub state: Option<PathBuf>,
    pub vram: Option<PathBuf>,
    pub drawing: Option<PathBuf>,
    pub frame: Option<u32>,
    pub left: Option<PathBuf>,
    pub right: Option<PathBuf>,
    /// A whole VRAM, taken for both eyes.
    pub capture: Option<PathBuf>,
    pub threshold: Option<u8>,
    /// Which eyes must have a capture.
    pub eyes: Option<Eyes>,
    /// Why a folder's names do not say which files are the part's.
    #[serde(skip)]
    pub ambiguous: Option<String>,
}

/// A part, or what is wrong with its entry.
pub struct Entry {
    pub name: String,
    pub part: Result<Part, Failure>,
}
