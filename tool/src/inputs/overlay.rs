//! Overlay files: writes of the probe, one a line, made in VRAM before a frame is drawn.
//!
//! A line is `byte`, `half` or `word`, a bus address and a value; `#` begins a comment.

use std::path::Path;

use serde::Serialize;
use vb::{Probe, ProbeMemories, Refusal, Width, WRAM_LENGTH};

use crate::failure::Failure;
use crate::files::Input;
use crate::inputs::number;

/// What the file must be.
const OVERLAY: &str = "an overlay, lines of byte, half or word, an address and a value";

/// A write, with its line in the file.
#[derive(Debug, PartialEq, Eq)]
struct Write {
    line: usize,
    width: Width,
    address: u32,
    value: u32,
}

/// What became of a file's writes.
#[derive(Debug, Default, Serialize)]
pub struct Overlay {
    written: usize,
    refused: Vec<Refused>,
}

/// A write whose target is not the probe's.
#[derive(Debug, Serialize)]
struct Refused {
    line: usize,
    refusal: u32,
    error: String,
}

impl Overlay {
    /// Whether every write was made.
    pub fn is_whole(&self) -> bool {
        self.refused.is_empty()
    }

    /// The lines that are printed.
    pub fn text(&self) -> String {
        let mut text =
            format!("overlay: {} written, {} refused\n", self.written, self.refused.len());
        for Refused { line, error, .. } in &self.refused {
            text += &format!("  line {line}: {error}\n");
        }
        text
    }
}

/// Makes the writes of a file in VRAM.
pub fn laid(path: &Path, vram: &mut Input) -> Result<Overlay, Failure> {
    let file = Input::read(path, OVERLAY)?;
    let writes = writes_of(file.text()?).map_err(|rule| Failure::bad(file.wrong(rule)))?;
    apply(&writes, &mut vram.bytes)
        .map_err(|refusal| Failure::refused(&refusal, vram.wrong(&refusal)))
}

fn writes_of(text: &str) -> Result<Vec<Write>, String> {
    let mut writes = Vec::new();
    for (i, line) in text.lines().enumerate() {
        let said = line.split('#').next().unwrap_or_default();
        if !said.trim().is_empty() {
            let write = write_of(i + 1, said).map_err(|rule| format!("line {}: {rule}", i + 1))?;
            writes.push(write);
        }
    }
    Ok(writes)
}

fn write_of(line: usize, text: &str) -> Result<Write, String> {
    let words: Vec<&str> = text.split_whitespace().collect();
    let [width, address, value] = words[..] else {
        return Err("a write is byte, half or word, an address and a value".into());
    };
    let width = match width {
        "byte" => Width::Byte,
        "half" => Width::Half,
        "word" => Width::Word,
        other => return Err(format!("`{other}` is not byte, half or word")),
    };
    Ok(Write { line, width, address: number::word(address)?, value: number::word(value)? })
}

/// Makes the writes in order; one outside the probe's ranges changes nothing and is reported.
fn apply(writes: &[Write], vram: &mut [u8]) -> Result<Overlay, Refusal> {
    // the probe tests the other memories' lengths and touches none of their bytes
    let (rom, wram) = (vec![0; 1024], vec![0; WRAM_LENGTH]);
    let mut memories = ProbeMemories { rom: &rom, wram: &wram, vram, pak: &[] };
    let mut overlay = Overlay::default();
    for write in writes {
        match memories.probe(write.width, write.address, write.value) {
            Ok(()) => overlay.written += 1,
            Err(refusal @ Refusal::ProbeTarget { .. }) => overlay.refused.push(Refused {
                line: write.line,
                refusal: refusal.number(),
                error: refusal.to_string(),
            }),
            Err(refusal) => return Err(refusal),
        }
    }
    Ok(overlay)
}

#[cfg(test)]
mod tests {
    use super::*;

    #[test]
    fn lines_are_writes_and_comments() {
        let text = "# a comment\n\nword 0x00038000 0x1234_5678\nbyte 122880 7 # a character\n";
        let writes = writes_of(text).unwrap();
        let word = Write { line: 3, width: Width::Word, address: 0x3_8000, value: 0x1234_5678 };
        let byte = Write { line: 4, width: Width::Byte, address: 0x1_E000, value: 7 };
        assert_eq!(writes, [word, byte]);
        assert_eq!(writes_of("").unwrap(), []);
    }

    #[test]
    fn bad_lines_are_named() {
        for (text, message) in [
            ("word 0", "line 1: a write is byte, half or word, an address and a value"),
            ("\nnibble 0 0", "line 2: `nibble` is not byte, half or word"),
            ("byte 0 0x100000000", "line 1: `0x100000000` is above 0xFFFFFFFF"),
        ] {
            assert_eq!(writes_of(text).unwrap_err(), message);
        }
    }
}
