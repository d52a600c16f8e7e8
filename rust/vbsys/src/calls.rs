//! Safe wrappers over slices: each is passed with its own length, and the borrow
//! checker keeps the buffers apart.

use std::ffi::{c_char, CStr};

use crate::raw::*;
use crate::*;

/// A call with each memory's pointer and length first, then the other arguments.
/// ROM is always passed to be read, the other three by the method that is named.
macro_rules! with_memories {
    ($memories:ident, $wram:ident $vram:ident $pak:ident, $function:ident($($other:expr),*)) => {
        // SAFETY: each pointer is passed with its slice's own length, and a slice
        // that is written is borrowed mutably, apart from the others.
        unsafe {
            $function(
                $memories.rom.as_ptr(),
                $memories.rom.len(),
                $memories.wram.$wram(),
                $memories.wram.len(),
                $memories.vram.$vram(),
                $memories.vram.len(),
                $memories.pak.$pak(),
                $memories.pak.len(),
                $($other),*
            )
        }
    };
}

/// A wrapper of a call that only reads the memories, and has no other buffer.
macro_rules! reading {
    ($($wrapper:ident, $function:ident($($name:ident: $kind:ty),*) -> $answer:ty;)*) => {$(
        #[doc = concat!("`", stringify!($function), "`")]
        #[inline]
        pub fn $wrapper(memories: ReadMemories, $($name: $kind),*) -> $answer {
            with_memories!(memories, as_ptr as_ptr as_ptr, $function($($name),*))
        }
    )*};
}

/// The same of memories to be written.
macro_rules! writing {
    ($($wrapper:ident, $function:ident($($name:ident: $kind:ty),*) -> $answer:ty;)*) => {$(
        #[doc = concat!("`", stringify!($function), "`")]
        #[inline]
        pub fn $wrapper(memories: &mut Memories, $($name: $kind),*) -> $answer {
            with_memories!(memories, as_mut_ptr as_mut_ptr as_mut_ptr, $function($($name),*))
        }
    )*};
}

/// The same of a probe's memories: VRAM alone is written.
macro_rules! probing {
    ($($wrapper:ident, $function:ident;)*) => {$(
        #[doc = concat!("`", stringify!($function), "`")]
        #[inline]
        pub fn $wrapper(memories: &mut ProbeMemories, address: u32, value: u32) -> u32 {
            with_memories!(memories, as_ptr as_mut_ptr as_ptr, $function(address, value))
        }
    )*};
}

reading! {
    load_byte, vb_load_byte(drawing: Drawing, hardware: Hardware, address: u32) -> Loaded;
    load_half, vb_load_half(drawing: Drawing, hardware: Hardware, address: u32) -> Loaded;
    load_word, vb_load_word(drawing: Drawing, hardware: Hardware, address: u32) -> Loaded;
}

writing! {
    store_byte, vb_store_byte(drawing: Drawing, hardware: Hardware, address: u32, value: u32) -> Stored;
    store_half, vb_store_half(drawing: Drawing, hardware: Hardware, address: u32, value: u32) -> Stored;
    store_word, vb_store_word(drawing: Drawing, hardware: Hardware, address: u32, value: u32) -> Stored;
}

probing! {
    probe_byte, vb_probe_byte;
    probe_half, vb_probe_half;
    probe_word, vb_probe_word;
}

/// `vb_tick`
#[inline]
pub fn tick(hardware: Hardware) -> Ticked {
    // SAFETY: no buffer is passed.
    unsafe { vb_tick(hardware) }
}

/// `vb_version`: VB_VERSION of the linked library.
pub fn version() -> u32 {
    // SAFETY: no buffer is passed.
    unsafe { vb_version() }
}

/// A text of the library's.
fn text(constant: *const c_char) -> &'static str {
    // SAFETY: the library's texts are constants that end in 0, and never null.
    let text = unsafe { CStr::from_ptr(constant) };
    text.to_str().expect("the library's texts are ASCII")
}

/// `vb_version_text`
pub fn version_text() -> &'static str {
    // SAFETY: no buffer is passed.
    text(unsafe { vb_version_text() })
}

/// `vb_refusal_text`
pub fn refusal_text(refusal: u32) -> &'static str {
    // SAFETY: no buffer is passed.
    text(unsafe { vb_refusal_text(refusal) })
}

mod processor {
    use crate::raw::*;
    use crate::*;

    writing! {
        step, vb_step(processor: Processor, drawing: Drawing) -> Stepped;
        run, vb_run(processor: Processor, drawing: Drawing, budget: u64) -> Ran;
    }

    /// `vb_reset`
    #[inline]
    pub fn reset() -> Machine {
        // SAFETY: no buffer is passed.
        unsafe { vb_reset() }
    }

    /// `vb_encode`
    #[inline]
    pub fn encode(instruction: Instruction) -> Encoded {
        // SAFETY: no buffer is passed.
        unsafe { vb_encode(instruction) }
    }

    /// `vb_decode`
    #[inline]
    pub fn decode(first: u16, second: u16) -> Decoded {
        // SAFETY: no buffer is passed.
        unsafe { vb_decode(first, second) }
    }

    /// Wrappers that write a state into an output buffer.
    macro_rules! saving {
        ($($wrapper:ident, $function:ident;)*) => {$(
            #[doc = concat!("`", stringify!($function), "`")]
            #[inline]
            pub fn $wrapper(
                memories: ReadMemories,
                processor: Processor,
                drawing: Drawing,
                output: &mut [u8],
            ) -> u32 {
                let (at, length) = (output.as_mut_ptr(), output.len());
                with_memories!(
                    memories,
                    as_ptr as_ptr as_ptr,
                    $function(processor, drawing, at, length)
                )
            }
        )*};
    }

    saving! {
        write_state, vb_write_state;
        write_state_2, vb_write_state_2;
    }

    /// Wrappers that read a file or a trace with the machine.
    macro_rules! reading_a_file {
        ($($wrapper:ident, $function:ident($file:ident) -> $answer:ty;)*) => {$(
            #[doc = concat!("`", stringify!($function), "`")]
            #[inline]
            pub fn $wrapper(
                memories: &mut Memories,
                processor: Processor,
                drawing: Drawing,
                $file: &[u8],
            ) -> $answer {
                let (at, length) = ($file.as_ptr(), $file.len());
                with_memories!(
                    memories,
                    as_mut_ptr as_mut_ptr as_mut_ptr,
                    $function(processor, drawing, at, length)
                )
            }
        )*};
    }

    reading_a_file! {
        read_state, vb_read_state(file) -> Restored;
        replay, vb_replay(trace) -> Replayed;
    }

    /// `vb_move_state`
    #[inline]
    pub fn move_state(file: &[u8], output: &mut [u8]) -> u32 {
        // SAFETY: each pointer is passed with its slice's own length; the file is only read, and the
        // output buffer is borrowed mutably and apart.
        unsafe { vb_move_state(file.as_ptr(), file.len(), output.as_mut_ptr(), output.len()) }
    }

    /// `vb_salvage_state`
    #[inline]
    pub fn salvage_state(file: &[u8], output: &mut [u8]) -> Salvaged {
        // SAFETY: as for a move.
        unsafe { vb_salvage_state(file.as_ptr(), file.len(), output.as_mut_ptr(), output.len()) }
    }

    /// `vb_access_list` over bytes, 20 an access.
    #[inline]
    pub fn access_bytes(
        memories: &mut Memories,
        drawing: Drawing,
        hardware: Hardware,
        list: &mut [u8],
    ) -> Stored {
        let (at, length) = (list.as_mut_ptr(), list.len());
        with_memories!(
            memories,
            as_mut_ptr as_mut_ptr as_mut_ptr,
            vb_access_list(drawing, hardware, at, length)
        )
    }

    /// `vb_access_list`
    #[inline]
    pub fn access_list(
        memories: &mut Memories,
        drawing: Drawing,
        hardware: Hardware,
        list: &mut [Access],
    ) -> Stored {
        let length = std::mem::size_of_val(list);
        // SAFETY: an access is five words with no space between them, so that the list is that many
        // bytes, and any bytes are accesses. The library runs on a little-endian processor.
        let bytes =
            unsafe { std::slice::from_raw_parts_mut(list.as_mut_ptr().cast::<u8>(), length) };
        access_bytes(memories, drawing, hardware, bytes)
    }
}

pub use processor::*;

mod drawing {
    use crate::raw::*;
    use crate::*;

    /// `vb_draw_strip`
    #[inline]
    pub fn draw_strip(vram: &mut [u8], drawing: Drawing, frame: u32, strip: u32) -> u32 {
        // SAFETY: the pointer is passed with its slice's own length.
        unsafe { vb_draw_strip(vram.as_mut_ptr(), vram.len(), drawing, frame, strip) }
    }

    /// `vb_draw_frame`
    #[inline]
    pub fn draw_frame(vram: &mut [u8], drawing: Drawing, frame: u32) -> u32 {
        // SAFETY: the pointer is passed with its slice's own length.
        unsafe { vb_draw_frame(vram.as_mut_ptr(), vram.len(), drawing, frame) }
    }

    /// `vb_character`
    #[inline]
    pub fn character(vram: &[u8], character: u32) -> Part {
        // SAFETY: the pointer is passed with its slice's own length.
        unsafe { vb_character(vram.as_ptr(), vram.len(), character) }
    }

    /// `vb_pixel_bytes`
    #[inline]
    pub fn pixel_bytes(
        vram: &[u8],
        drawing: Drawing,
        eye: u32,
        x: u32,
        y: u32,
        output: &mut [u32],
    ) -> Listed {
        let (words, length) = (output.as_mut_ptr(), output.len());
        // SAFETY: each pointer is passed with its slice's own length; VRAM is only read, and the
        // output buffer is borrowed mutably and apart.
        unsafe { vb_pixel_bytes(vram.as_ptr(), vram.len(), drawing, eye, x, y, words, length) }
    }

    /// `vb_display`; `durations` are BRTA, BRTB and BRTC.
    #[inline]
    pub fn display(
        vram: &[u8],
        frame: u32,
        eye: u32,
        start: u32,
        durations: [u8; 3],
        output: &mut [u8],
    ) -> u32 {
        let (memory, length) = (vram.as_ptr(), vram.len());
        let ([a, b, c], at, output_length) = (durations, output.as_mut_ptr(), output.len());
        // SAFETY: each pointer is passed with its slice's own length; VRAM is only read, and the
        // output buffer is borrowed mutably and apart.
        unsafe { vb_display(memory, length, frame, eye, start, a, b, c, at, output_length) }
    }

    /// `vb_load_column_table`
    #[inline]
    pub fn load_column_table(vram: &mut [u8]) -> u32 {
        // SAFETY: the pointer is passed with its slice's own length.
        unsafe { vb_load_column_table(vram.as_mut_ptr(), vram.len()) }
    }
}

pub use drawing::*;
