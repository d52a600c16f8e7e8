//! The foreign functions, each as include/vb.h declares it. A slice passes as
//! pointer, then length.

use std::ffi::c_char;

use crate::*;

/// Declares calls of vb.h that take the four memories, ROM to be read and the
/// other three as said, and then take the arguments in parentheses.
macro_rules! on_memories {
    ([wram: $wram:tt, vram: $vram:tt, pak: $pak:tt]
     $($function:ident($($name:ident: $kind:ty),*) -> $answer:ty;)*) => {
        extern "C" {
            $(pub fn $function(
                rom: *const u8,
                rom_len: usize,
                wram: *$wram u8,
                wram_len: usize,
                vram: *$vram u8,
                vram_len: usize,
                pak: *$pak u8,
                pak_len: usize,
                $($name: $kind),*
            ) -> $answer;)*
        }
    };
}

on_memories! {
    [wram: const, vram: const, pak: const]
    vb_load_byte(drawing: Drawing, hardware: Hardware, address: u32) -> Loaded;
    vb_load_half(drawing: Drawing, hardware: Hardware, address: u32) -> Loaded;
    vb_load_word(drawing: Drawing, hardware: Hardware, address: u32) -> Loaded;
}

on_memories! {
    [wram: mut, vram: mut, pak: mut]
    vb_store_byte(drawing: Drawing, hardware: Hardware, address: u32, value: u32) -> Stored;
    vb_store_half(drawing: Drawing, hardware: Hardware, address: u32, value: u32) -> Stored;
    vb_store_word(drawing: Drawing, hardware: Hardware, address: u32, value: u32) -> Stored;
}

on_memories! {
    [wram: const, vram: mut, pak: const]
    vb_probe_byte(address: u32, value: u32) -> u32;
    vb_probe_half(address: u32, value: u32) -> u32;
    vb_probe_word(address: u32, value: u32) -> u32;
}

extern "C" {
    pub fn vb_tick(hardware: Hardware) -> Ticked;
    pub fn vb_version() -> u32;
    pub fn vb_version_text() -> *const c_char;
    pub fn vb_refusal_text(refusal: u32) -> *const c_char;
}

mod processor {
    use crate::*;

    on_memories! {
        [wram: mut, vram: mut, pak: mut]
        vb_step(processor: Processor, drawing: Drawing) -> Stepped;
        vb_run(processor: Processor, drawing: Drawing, budget: u64) -> Ran;
        vb_read_state(processor: Processor, drawing: Drawing, file: *const u8, file_len: usize) -> Restored;
        vb_access_list(drawing: Drawing, hardware: Hardware, list: *mut u8, list_len: usize) -> Stored;
        vb_replay(processor: Processor, drawing: Drawing, trace: *const u8, trace_len: usize) -> Replayed;
    }

    on_memories! {
        [wram: const, vram: const, pak: const]
        vb_write_state(processor: Processor, drawing: Drawing, room: *mut u8, room_len: usize) -> u32;
        vb_write_state_2(processor: Processor, drawing: Drawing, room: *mut u8, room_len: usize) -> u32;
    }

    extern "C" {
        pub fn vb_reset() -> Machine;
        pub fn vb_move_state(
            file: *const u8,
            file_len: usize,
            room: *mut u8,
            room_len: usize,
        ) -> u32;
        pub fn vb_salvage_state(
            file: *const u8,
            file_len: usize,
            room: *mut u8,
            room_len: usize,
        ) -> Salvaged;
        pub fn vb_encode(instruction: Instruction) -> Encoded;
        pub fn vb_decode(first: u16, second: u16) -> Decoded;
    }
}

pub use processor::*;

mod drawing {
    use crate::*;

    extern "C" {
        pub fn vb_draw_strip(
            vram: *mut u8,
            vram_len: usize,
            drawing: Drawing,
            frame: u32,
            strip: u32,
        ) -> u32;
        pub fn vb_draw_frame(vram: *mut u8, vram_len: usize, drawing: Drawing, frame: u32) -> u32;
        pub fn vb_character(vram: *const u8, vram_len: usize, character: u32) -> Part;
        pub fn vb_pixel_bytes(
            vram: *const u8,
            vram_len: usize,
            drawing: Drawing,
            eye: u32,
            x: u32,
            y: u32,
            room: *mut u32,
            room_len: usize,
        ) -> Listed;
        pub fn vb_display(
            vram: *const u8,
            vram_len: usize,
            frame: u32,
            eye: u32,
            start: u32,
            brta: u8,
            brtb: u8,
            brtc: u8,
            room: *mut u8,
            room_len: usize,
        ) -> u32;
        pub fn vb_load_column_table(vram: *mut u8, vram_len: usize) -> u32;
    }
}

pub use drawing::*;
