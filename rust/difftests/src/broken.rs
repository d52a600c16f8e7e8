//! Sets of broken conditions: whatever else is wrong, a call answers with the first
//! of them.

use std::fmt;

use crate::machine::Buffers;

/// A set of broken conditions, by bits, each broken in one of two ways. Bits 0 to 3
/// are refusals 1 to 4, the memories' lengths; a test says what the others are.
#[derive(Clone, Copy, Debug)]
pub struct Broken {
    pub set: u32,
    pub way: usize,
}

impl fmt::Display for Broken {
    fn fmt(&self, f: &mut fmt::Formatter) -> fmt::Result {
        write!(f, "broken {:b}, way {}", self.set, self.way)
    }
}

impl Broken {
    /// Every set of this many conditions, in both ways.
    pub fn sets(conditions: u32) -> impl Iterator<Item = Broken> {
        (0..1 << conditions).flat_map(|set| [0, 1].map(|way| Broken { set, way }))
    }

    pub fn has(&self, bit: u32) -> bool {
        self.set >> bit & 1 == 1
    }

    /// Memories with the lengths that bits 0 to 3 break.
    pub fn buffers(&self) -> Buffers {
        let length = |bit, good, bad: [usize; 2]| if self.has(bit) { bad[self.way] } else { good };
        Buffers::zeroed(
            length(0, 1_024, [0, 512]),
            length(1, 65_536, [0, 65_537]),
            length(2, 262_144, [0, 262_143]),
            length(3, 8, [3, 24]),
        )
    }

    /// The refusal of the first broken condition, where these are those of bits 0
    /// and on.
    pub fn first(&self, refusals: &[u32]) -> Option<u32> {
        refusals.iter().zip(0..).find(|&(_, bit)| self.has(bit)).map(|(&refusal, _)| refusal)
    }
}
