//! Which bytes of a read are undefined (paper 02, W2): those of the VIP's unmapped ranges and of its register addresses
//! where document 000 lists no register. Their values are read all the same.

use std::fmt;

/// The undefined bytes of one read: bit k for byte k, counted from the aligned address.
#[derive(Clone, Copy, Debug, Default, PartialEq, Eq)]
pub struct Mask(u32);

impl Mask {
    pub(crate) fn of(bits: u32) -> Mask {
        Mask(bits)
    }

    /// Bit k is byte k, counted from the aligned address.
    pub fn bits(self) -> u32 {
        self.0
    }

    /// Whether a byte that was read is undefined.
    pub fn any(self) -> bool {
        self.0 != 0
    }

    /// The undefined bytes, counted from the aligned address.
    pub fn bytes(self) -> impl Iterator<Item = u32> {
        (0..4).filter(move |k| self.0 >> k & 1 == 1)
    }
}

/// A value that was read, and which of its bytes are undefined.
#[derive(Clone, Copy, Debug, PartialEq, Eq)]
pub struct Read<T> {
    /// The value that was read.
    pub value: T,
    /// Its undefined bytes.
    pub undefined: Mask,
}

/// What a step read that is undefined: of its first halfword, of its second, and of its load. What it did not read counts
/// as defined.
#[derive(Clone, Copy, Debug, Default, PartialEq, Eq)]
pub struct Undefined {
    /// Of the first halfword.
    pub first: Mask,
    /// Of the second halfword.
    pub second: Mask,
    /// Of what the instruction loaded.
    pub load: Mask,
}

impl Undefined {
    pub(crate) fn of(masks: vbsys::Undefined) -> Undefined {
        let vbsys::Undefined { first, second, load } = masks;
        Undefined { first: Mask(first), second: Mask(second), load: Mask(load) }
    }

    /// Whether a byte that the step read is undefined.
    pub fn any(self) -> bool {
        self.first.any() || self.second.any() || self.load.any()
    }
}

/// `byte 0`, `bytes 2 and 3`
impl fmt::Display for Mask {
    fn fmt(&self, f: &mut fmt::Formatter) -> fmt::Result {
        let bytes: Vec<String> = self.bytes().map(|k| k.to_string()).collect();
        match bytes.split_last() {
            None => write!(f, "no byte"),
            Some((last, [])) => write!(f, "byte {last}"),
            Some((last, rest)) => write!(f, "bytes {} and {last}", rest.join(", ")),
        }
    }
}
