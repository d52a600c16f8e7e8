//! Rows that the specification works out, each written once: the tests of the model, of
//! the library and of the crate over it all go through them.

pub mod floating;

/// The 32 rows of the recommended table as 000 prints them.
const COLUMN_TABLE: [&str; 32] = [
    "FE 00 FE 00 FE 00 FE 00 FE 00 FE 00 FE 00 FE 00",
    "FE 00 FE 00 FE 00 FE 00 FE 00 FE 00 FE 00 FE 00",
    "FE 00 FE 00 FE 00 FE 00 FE 00 FE 00 FE 00 FE 00",
    "FE 00 FE 00 FE 00 FE 00 FE 00 FE 00 FE 00 FE 00",
    "FE 00 FE 00 FE 00 FE 00 FE 00 FE 00 FE 00 FE 00",
    "FE 00 FE 00 FE 00 FE 00 FE 00 FE 00 FE 00 FE 00",
    "FE 00 FE 00 FE 00 FE 00 FE 00 FE 00 FE 00 FE 00",
    "FE 00 FE 00 FE 00 FE 00 FE 00 FE 00 E0 00 BC 00",
    "A6 00 96 00 8A 00 82 00 7A 00 74 00 6E 00 6A 00",
    "66 00 62 00 60 00 5C 00 5A 00 58 00 56 00 54 00",
    "52 00 50 00 50 00 4E 00 4C 00 4C 00 4A 00 4A 00",
    "48 00 48 00 46 00 46 00 46 00 44 00 44 00 44 00",
    "42 00 42 00 42 00 40 00 40 00 40 00 40 00 40 00",
    "3E 00 3E 00 3E 00 3E 00 3E 00 3E 00 3E 00 3C 00",
    "3C 00 3C 00 3C 00 3C 00 3C 00 3C 00 3C 00 3C 00",
    "3C 00 3C 00 3C 00 3C 00 3C 00 3C 00 3C 00 3C 00",
    "3C 00 3C 00 3C 00 3C 00 3C 00 3C 00 3C 00 3C 00",
    "3C 00 3C 00 3C 00 3C 00 3C 00 3C 00 3C 00 3C 00",
    "3C 00 3E 00 3E 00 3E 00 3E 00 3E 00 3E 00 3E 00",
    "40 00 40 00 40 00 40 00 40 00 42 00 42 00 42 00",
    "44 00 44 00 44 00 46 00 46 00 46 00 48 00 48 00",
    "4A 00 4A 00 4C 00 4C 00 4E 00 50 00 50 00 52 00",
    "54 00 56 00 58 00 5A 00 5C 00 60 00 62 00 66 00",
    "6A 00 6E 00 74 00 7A 00 82 00 8A 00 96 00 A6 00",
    "BC 00 E0 00 FE 00 FE 00 FE 00 FE 00 FE 00 FE 00",
    "FE 00 FE 00 FE 00 FE 00 FE 00 FE 00 FE 00 FE 00",
    "FE 00 FE 00 FE 00 FE 00 FE 00 FE 00 FE 00 FE 00",
    "FE 00 FE 00 FE 00 FE 00 FE 00 FE 00 FE 00 FE 00",
    "FE 00 FE 00 FE 00 FE 00 FE 00 FE 00 FE 00 FE 00",
    "FE 00 FE 00 FE 00 FE 00 FE 00 FE 00 FE 00 FE 00",
    "FE 00 FE 00 FE 00 FE 00 FE 00 FE 00 FE 00 FE 00",
    "FE 00 FE 00 FE 00 FE 00 FE 00 FE 00 FE 00 FE 00",
];

/// The recommended table's bytes.
pub fn column_table() -> Vec<u8> {
    let bytes = COLUMN_TABLE.iter().flat_map(|row| row.split(' '));
    bytes.map(|byte| u8::from_str_radix(byte, 16).expect("two digits")).collect()
}

/// W9: the bytes of a probe's write, its address, and the offset in VRAM; none is
/// refusal 13.
pub const PROBES: [(usize, u32, Option<usize>); 19] = [
    (1, 0x0001_DFFF, None),
    (1, 0x0001_E000, Some(0x1E000)),
    (4, 0x0001_FFFF, Some(0x1FFFC)),
    (1, 0x0002_0000, None),
    (1, 0x0003_7FFF, None),
    (1, 0x0003_8000, Some(0x38000)),
    (4, 0x0003_BFFF, Some(0x3BFFC)),
    (1, 0x0003_C000, None),
    (1, 0x0005_8000, None),
    (1, 0x0005_F848, None),
    (1, 0x0007_DFFF, None),
    (1, 0x0007_E000, Some(0x1E000)),
    (1, 0x0007_FFFF, Some(0x1FFFF)),
    (1, 0x0009_E000, Some(0x1E000)),
    (1, 0x00FF_E000, Some(0x1E000)),
    (1, 0xF803_8000, Some(0x38000)),
    (1, 0x0103_8000, None),
    (1, 0x0503_8000, None),
    (1, 0x0703_E000, None),
];

/// W3: GY, H, the rows of a normal or an H-bias world, and of an affine one, those
/// outside the image too.
pub const HEIGHTS: [(i32, i32, i32, i32); 25] = [
    (3, 1, 5, 2),
    (3, 2, 5, 3),
    (3, 4, 5, 5),
    (3, 5, 6, 6),
    (0, 0, 8, 1),
    (7, 0, 1, 1),
    (7, -5, 1, 0),
    (8, 6, 8, 7),
    (216, -32_768, 8, 0),
    (223, 0, 1, 1),
    (223, 32_767, 32_768, 32_768),
    (-1, 0, 1, 1),
    (-1, 1, 2, 2),
    (-1, -1, 0, 0),
    (-3, 1, 2, 2),
    (-3, 5, 6, 6),
    (-7, 6, 7, 7),
    (-7, 7, 8, 8),
    (-8, 7, 8, 8),
    (-8, 8, 9, 9),
    (-32_768, 32_767, 32_768, 32_768),
    (224, 0, 1, 1),
    (224, -1, 0, 0),
    (224, 32_767, 32_768, 32_768),
    (32_767, 0, 1, 1),
];

/// W6: lines, count, reload and control before a tick and after it.
pub const TICKS: [[[u16; 4]; 2]; 7] = [
    [[0x00, 2, 5, 0x09], [0x00, 1, 5, 0x09]],
    [[0x00, 1, 5, 0x09], [0x02, 0, 5, 0x0B]],
    [[0x02, 0, 5, 0x0B], [0x02, 4, 5, 0x0B]],
    [[0x00, 1, 5, 0x11], [0x00, 0, 5, 0x13]],
    [[0x00, 0, 0, 0x01], [0x00, 0, 0, 0x03]],
    [[0x00, 0, 1, 0x01], [0x00, 0, 1, 0x03]],
    [[0x1F, 1, 5, 0x08], [0x1F, 1, 5, 0x08]],
];

/// W6: lines, count, reload and control before a write of a byte to region 2, its
/// offset there, its value, and the same four after it.
pub const TIMER_WRITES: [([u16; 4], u32, u32, [u16; 4]); 12] = [
    ([0x1F, 0, 5, 0x0B], 0x20, 0x0D, [0x1D, 0, 5, 0x09]),
    ([0x02, 3, 5, 0x0B], 0x20, 0x01, [0x00, 3, 5, 0x03]),
    ([0x00, 3, 5, 0x03], 0x20, 0x09, [0x00, 3, 5, 0x0B]),
    ([0x02, 3, 5, 0x0B], 0x20, 0x0B, [0x02, 3, 5, 0x0B]),
    ([0x02, 3, 5, 0x02], 0x20, 0xFF, [0x00, 3, 5, 0x19]),
    ([0, 7, 0x1200, 0x01], 0x18, 0x34, [0, 0x1234, 0x1234, 0x01]),
    ([0, 7, 0x0034, 0x01], 0x1C, 0x12, [0, 0x1234, 0x1234, 0x01]),
    ([0, 7, 0x1200, 0x01], 0x1C, 0x34, [0, 0x3400, 0x3400, 0x01]),
    ([2, 7, 0x0001, 0x0B], 0x18, 0x00, [2, 0, 0, 0x0B]),
    ([0x1F, 7, 9, 0x1B], 0x21, 0x00, [0x1F, 7, 9, 0x1B]),
    ([0x1F, 7, 9, 0x1B], 0x24, 0x00, [0x1F, 7, 9, 0x1B]),
    ([0x1F, 7, 9, 0x1B], 0x120, 0x00, [0x1F, 7, 9, 0x1B]),
];
