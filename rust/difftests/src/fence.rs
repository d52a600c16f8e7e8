//! Memory that ends, or begins, at a page that may not be touched: an access
//! one byte outside the caller's buffer stops the test. ROM may not be written.

use std::ptr::null_mut;
use std::slice;

use libc::{
    mmap, mprotect, munmap, MAP_ANONYMOUS, MAP_FAILED, MAP_PRIVATE, PROT_NONE, PROT_READ,
    PROT_WRITE,
};

use crate::machine::Buffers;

const PAGE: usize = 4_096;

/// Which end of the buffer touches its fence.
#[derive(Clone, Copy, Debug, PartialEq, Eq)]
pub enum Side {
    Start,
    End,
}

/// A buffer between two fences, flush with one of them.
pub struct Fenced {
    mapping: *mut u8,
    /// Bytes of the usable pages between the fences.
    usable: usize,
    offset: usize,
    length: usize,
}

impl Fenced {
    /// A copy of `bytes` that is flush with the fence on `side`.
    pub fn new(bytes: &[u8], side: Side) -> Fenced {
        let length = bytes.len();
        let usable = length.next_multiple_of(PAGE);
        let offset = PAGE + if side == Side::End { usable - length } else { 0 };
        // SAFETY: a new private mapping; the usable pages lie inside it.
        let mapping = unsafe {
            let whole = usable + 2 * PAGE;
            let mapping = mmap(null_mut(), whole, PROT_NONE, MAP_PRIVATE | MAP_ANONYMOUS, -1, 0);
            assert_ne!(mapping, MAP_FAILED, "no memory for a fenced buffer");
            let mapping = mapping.cast::<u8>();
            let opened = mprotect(mapping.add(PAGE).cast(), usable, PROT_READ | PROT_WRITE);
            assert!(usable == 0 || opened == 0, "the buffer's pages stay closed");
            mapping
        };
        let mut fenced = Fenced { mapping, usable, offset, length };
        fenced.bytes_mut().copy_from_slice(bytes);
        fenced
    }

    /// A copy that may not be written.
    pub fn closed(bytes: &[u8], side: Side) -> Fenced {
        let mut fenced = Fenced::new(bytes, side);
        fenced.forbid_writing();
        fenced
    }

    /// From now on a write stops the test.
    pub fn forbid_writing(&mut self) {
        // SAFETY: these are the mapping's usable pages.
        let closed = unsafe { mprotect(self.mapping.add(PAGE).cast(), self.usable, PROT_READ) };
        assert!(self.usable == 0 || closed == 0);
    }

    pub fn bytes(&self) -> &[u8] {
        // SAFETY: the range lies in the usable pages, which stay mapped.
        unsafe { slice::from_raw_parts(self.mapping.add(self.offset), self.length) }
    }

    pub fn bytes_mut(&mut self) -> &mut [u8] {
        // SAFETY: as above, and the buffer is borrowed mutably.
        unsafe { slice::from_raw_parts_mut(self.mapping.add(self.offset), self.length) }
    }

    /// The buffer as words, of which it has a whole number.
    pub fn words_mut(&mut self) -> &mut [u32] {
        assert!(self.length.is_multiple_of(4), "{} bytes are no words", self.length);
        // SAFETY: as above; the usable pages begin and end where a word may.
        unsafe { slice::from_raw_parts_mut(self.mapping.add(self.offset).cast(), self.length / 4) }
    }
}

impl Drop for Fenced {
    fn drop(&mut self) {
        // SAFETY: the mapping is this buffer's own and no slice of it is left.
        unsafe { munmap(self.mapping.cast(), self.usable + 2 * PAGE) };
    }
}

/// Both sides, each with pak RAM of no, one and more bytes.
pub fn sides_and_paks() -> impl Iterator<Item = (Side, usize)> {
    [Side::Start, Side::End].into_iter().flat_map(|side| [0, 1, 64].map(|pak| (side, pak)))
}

/// Four fenced memories; ROM may not be written.
pub struct FencedMemories {
    rom: Fenced,
    wram: Fenced,
    vram: Fenced,
    pak: Fenced,
}

impl FencedMemories {
    pub fn new(buffers: &Buffers, side: Side) -> FencedMemories {
        FencedMemories {
            rom: Fenced::closed(&buffers.rom, side),
            wram: Fenced::new(&buffers.wram, side),
            vram: Fenced::new(&buffers.vram, side),
            pak: Fenced::new(&buffers.pak, side),
        }
    }

    /// Memories that may all not be written.
    pub fn closed(buffers: &Buffers, side: Side) -> FencedMemories {
        let mut fenced = FencedMemories::new(buffers, side);
        for memory in [&mut fenced.wram, &mut fenced.vram, &mut fenced.pak] {
            memory.forbid_writing();
        }
        fenced
    }

    pub fn read(&self) -> vbsys::ReadMemories<'_> {
        vbsys::ReadMemories {
            rom: self.rom.bytes(),
            wram: self.wram.bytes(),
            vram: self.vram.bytes(),
            pak: self.pak.bytes(),
        }
    }

    pub fn write(&mut self) -> vbsys::Memories<'_> {
        vbsys::Memories {
            rom: self.rom.bytes(),
            wram: self.wram.bytes_mut(),
            vram: self.vram.bytes_mut(),
            pak: self.pak.bytes_mut(),
        }
    }

    pub fn expect_equal(&self, model: &Buffers) {
        assert!(self.rom.bytes() == &*model.rom, "ROM differs");
        assert!(self.wram.bytes() == &*model.wram, "WRAM differs");
        assert!(self.vram.bytes() == &*model.vram, "VRAM differs");
        assert!(self.pak.bytes() == &*model.pak, "pak RAM differs");
    }
}
