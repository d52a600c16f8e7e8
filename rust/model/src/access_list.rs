//! A list of accesses in one call (W7): "the same memory, registers and answers as
//! the accesses made one by one, in order".

use crate::bus::{self, DrawingRegisters, Loaded, Memories};
use crate::hardware::Hardware;
use crate::refusal::{refuse_unless, Refusal};

/// An access takes five little-endian words: address, size, whether it writes,
/// value, undefined bytes.
pub const ACCESS_LENGTH: usize = 20;
/// "Up to 256 bus accesses".
pub const MOST_ACCESSES: usize = 256;

/// One access of the list.
#[derive(Clone, Copy, Debug, Default, PartialEq, Eq)]
pub struct Access {
    pub address: u32,
    pub size: u32,
    /// 0 reads; any other number writes.
    pub write: u32,
    /// Of a write the whole source register; a read puts its value here.
    pub value: u32,
    /// A read puts here which of its bytes are undefined; a write leaves it.
    pub undefined: u32,
}

impl Access {
    pub fn from_bytes(bytes: &[u8; ACCESS_LENGTH]) -> Access {
        let mut words = bytes
            .chunks_exact(4)
            .map(|word| u32::from_le_bytes(word.try_into().expect("four bytes")));
        let mut word = || words.next().expect("five words");
        Access { address: word(), size: word(), write: word(), value: word(), undefined: word() }
    }

    pub fn to_bytes(self) -> [u8; ACCESS_LENGTH] {
        let words = [self.address, self.size, self.write, self.value, self.undefined];
        let mut bytes = [0; ACCESS_LENGTH];
        for (place, word) in bytes.chunks_exact_mut(4).zip(words) {
            place.copy_from_slice(&word.to_le_bytes());
        }
        bytes
    }
}

/// Refusals 1 to 5, then 11: "more than 256, or a size that isn't 1, 2 or 4",
/// anywhere in the list and of reads and writes alike.
fn check(
    memories: &Memories,
    drawing: &DrawingRegisters,
    hardware: &Hardware,
    list: &[Access],
) -> Result<(), Refusal> {
    bus::check(&memories.read(), drawing, hardware)?;
    let sized = list.iter().all(|access| matches!(access.size, 1 | 2 | 4));
    refuse_unless(list.len() <= MOST_ACCESSES && sized, Refusal::AccessList)
}

/// One access, as the single call of its size makes it.
fn make(
    memories: &mut Memories,
    drawing: &mut DrawingRegisters,
    hardware: &mut Hardware,
    access: &mut Access,
) -> Result<(), Refusal> {
    let Access { address, value, .. } = *access;
    if access.write != 0 {
        let store = match access.size {
            1 => bus::store_byte,
            2 => bus::store_half,
            _ => bus::store_word,
        };
        return store(memories, drawing, hardware, address, value);
    }
    let load = match access.size {
        1 => bus::load_byte,
        2 => bus::load_half,
        _ => bus::load_word,
    };
    let Loaded { value, undefined } = load(&memories.read(), drawing, hardware, address)?;
    (access.value, access.undefined) = (value, undefined);
    Ok(())
}

/// Makes the accesses in order; a read's answer goes into its own record. Refused,
/// nothing changes.
pub fn access_list(
    memories: &mut Memories,
    drawing: &mut DrawingRegisters,
    hardware: &mut Hardware,
    list: &mut [Access],
) -> Result<(), Refusal> {
    check(memories, drawing, hardware, list)?;
    list.iter_mut().try_for_each(|access| make(memories, drawing, hardware, access))
}
