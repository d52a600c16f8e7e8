//! The commands. Each gives what it prints, and its exit status.

pub mod asm;
pub mod compare;
pub mod coverage;
pub mod demo;
pub mod disasm;
pub mod draw;
pub mod expect;
pub mod faults;
pub mod judge;
pub mod merge;
pub mod pages;
pub mod replay;
pub mod run;
pub mod selftest;
pub mod state;
pub mod step;
pub mod trace;
pub mod verify;
pub mod why;

use serde::Serialize;

use crate::failure::Failure;
use crate::reports::json::json;

/// What a command prints, in either form, and its exit status.
pub struct Report {
    pub text: String,
    pub json: String,
    pub status: i32,
    /// What went wrong after there was something to print.
    pub failure: Option<Failure>,
    /// Printed on standard error, because standard output is the command's output.
    pub aside: bool,
}

impl Report {
    pub fn new(text: String, value: &impl Serialize, status: i32) -> Report {
        Report { text, json: json(value), status, failure: None, aside: false }
    }
}
