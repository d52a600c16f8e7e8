//! The two eyes of the display, and which of them a test asks for.

use std::fmt;

use clap::ValueEnum;
use serde::{Deserialize, Serialize};

#[derive(
    Clone, Copy, Debug, PartialEq, Eq, PartialOrd, Ord, Hash, Deserialize, Serialize, ValueEnum,
)]
#[serde(rename_all = "lowercase")]
pub enum Eye {
    Left,
    Right,
}

impl Eye {
    pub const BOTH: [Eye; 2] = [Eye::Left, Eye::Right];

    /// Its number at the library's boundary.
    pub fn number(self) -> u32 {
        self as u32
    }

    pub fn name(self) -> &'static str {
        match self {
            Eye::Left => "left",
            Eye::Right => "right",
        }
    }

    pub fn other(self) -> Eye {
        match self {
            Eye::Left => Eye::Right,
            Eye::Right => Eye::Left,
        }
    }

    /// The same eye as the independent model names it.
    pub fn model(self) -> model::world::Eye {
        match self {
            Eye::Left => model::world::Eye::Left,
            Eye::Right => model::world::Eye::Right,
        }
    }
}

impl fmt::Display for Eye {
    fn fmt(&self, f: &mut fmt::Formatter) -> fmt::Result {
        f.write_str(self.name())
    }
}

/// The eyes whose captures a part must have.
#[derive(Clone, Copy, Debug, Default, PartialEq, Eq, Deserialize, Serialize, ValueEnum)]
#[serde(rename_all = "lowercase")]
pub enum Eyes {
    /// Both eyes
    #[default]
    Both,
    /// The left eye; a capture of the right one is judged where there is one
    Left,
    /// The right eye; a capture of the left one is judged where there is one
    Right,
}

impl Eyes {
    /// Whether an eye must have a capture.
    pub fn need(self, eye: Eye) -> bool {
        match self {
            Eyes::Both => true,
            Eyes::Left => eye == Eye::Left,
            Eyes::Right => eye == Eye::Right,
        }
    }
}
