//! The display unit (W11): the apparent brightness of each pixel of a frame and
//! an eye, and the column table that 000 "Column Table" recommends.

use crate::drawing::pixel;
use crate::number::half_at;
use crate::refusal::{check_vram, refuse_unless, Refusal};
use crate::world::{Eye, HEIGHT, WIDTH};

/// The bytes of an output buffer: 384 columns by 224 rows.
pub const DISPLAY_LENGTH: usize = 86_016;
/// "the lesser of 128 and shade time times repeats".
const BRIGHTEST: u32 = 128;

/// BRTA, BRTB and BRTC.
pub type Brightness = [u8; 3];

/// Where entry e of an eye lies: "0x3DC00 + 2e (left) or 0x3DE00 + 2e (right)".
pub fn entry_address(eye: Eye, entry: usize) -> usize {
    match eye {
        Eye::Left => 0x3DC00 + 2 * entry,
        Eye::Right => 0x3DE00 + 2 * entry,
    }
}

/// "Shade 0 is dark; 1 is BRTA, 2 is BRTB, 3 is their sum with BRTC": a whole
/// number up to 765.
fn shade_time(shade: u8, brightness: Brightness) -> u32 {
    let [a, b, c] = brightness.map(u32::from);
    match shade {
        0 => 0,
        1 => a,
        2 => b,
        _ => a + b + c,
    }
}

/// "repeats are its high byte plus 1"; "Columns 4g to 4g + 3 use entry start - g".
fn repeats(vram: &[u8], eye: Eye, start: usize, x: usize) -> u32 {
    let entry = half_at(vram, entry_address(eye, start - x / 4));
    u32::from(entry / 256) + 1
}

/// Refusals 3, 7 and 15, in this order; gives the eye.
fn check(vram: &[u8], frame: u32, eye: u32, start: u32, output: usize) -> Result<Eye, Refusal> {
    check_vram(vram.len())?;
    refuse_unless(frame <= 1, Refusal::Frame)?;
    let fits = eye <= 1 && (95..=255).contains(&start) && output == DISPLAY_LENGTH;
    refuse_unless(fits, Refusal::Display)?;
    Ok(Eye::BOTH[eye as usize])
}

/// Puts the brightness of pixel (x, y) into byte 384y + x of the output buffer.
pub fn display(
    vram: &[u8],
    frame: u32,
    eye: u32,
    start: u32,
    brightness: Brightness,
    output: &mut [u8],
) -> Result<(), Refusal> {
    let eye = check(vram, frame, eye, start, output.len())?;
    let (width, height) = (WIDTH as usize, HEIGHT as usize);
    for (x, y) in (0..height).flat_map(|y| (0..width).map(move |x| (x, y))) {
        let shade = pixel(vram, frame, eye, x as u32, y as u32);
        let time = shade_time(shade, brightness);
        let shown = (time * repeats(vram, eye, start as usize, x)).min(BRIGHTEST);
        output[width * y + x] = shown as u8;
    }
    Ok(())
}

/// The low bytes of the recommended table from its first entry to its middle,
/// each with how often it stands there. The second half mirrors the first.
const FIRST_HALF: [(u16, usize); 31] = [
    (0xFE, 62),
    (0xE0, 1),
    (0xBC, 1),
    (0xA6, 1),
    (0x96, 1),
    (0x8A, 1),
    (0x82, 1),
    (0x7A, 1),
    (0x74, 1),
    (0x6E, 1),
    (0x6A, 1),
    (0x66, 1),
    (0x62, 1),
    (0x60, 1),
    (0x5C, 1),
    (0x5A, 1),
    (0x58, 1),
    (0x56, 1),
    (0x54, 1),
    (0x52, 1),
    (0x50, 2),
    (0x4E, 1),
    (0x4C, 2),
    (0x4A, 2),
    (0x48, 2),
    (0x46, 3),
    (0x44, 3),
    (0x42, 3),
    (0x40, 5),
    (0x3E, 7),
    (0x3C, 17),
];

/// The recommended column table, 256 halfwords.
pub fn column_table() -> Vec<u16> {
    let half = FIRST_HALF.into_iter().flat_map(|(entry, times)| std::iter::repeat_n(entry, times));
    let first: Vec<u16> = half.collect();
    first.iter().chain(first.iter().rev()).copied().collect()
}

/// Loads the recommended table for both eyes; refusal 3.
pub fn load_column_table(vram: &mut [u8]) -> Result<(), Refusal> {
    check_vram(vram.len())?;
    for eye in Eye::BOTH {
        for (number, entry) in column_table().into_iter().enumerate() {
            let address = entry_address(eye, number);
            vram[address..address + 2].copy_from_slice(&entry.to_le_bytes());
        }
    }
    Ok(())
}
