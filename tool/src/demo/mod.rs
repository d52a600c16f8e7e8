//! The demo: a small program for the console and its art, assembled into a ROM image of 64 KiB.

mod art;
mod characters;
mod letters;
pub mod lot;

use crate::programs::assembler::{assemble, Source};
use characters::{Characters, Picture};

/// The ROM image of the demo. It is run from reset and halts for each frame.
pub fn rom() -> Result<Vec<u8>, String> {
    let (symbols, named) = art();
    let bytes: Vec<(&str, &[u8])> =
        named.iter().map(|(name, bytes)| (*name, bytes.as_slice())).collect();
    assemble(&Source {
        text: include_str!("demo.s"),
        origin: 0x0700_0000,
        symbols: &symbols,
        bytes: &bytes,
    })
}

/// The numbers of the first character of each object picture, and the bytes that the program copies.
#[allow(clippy::type_complexity)]
fn art() -> (Vec<(&'static str, i64)>, Vec<(&'static str, Vec<u8>)>) {
    let mut characters = Characters::default();
    characters.add(&Picture::of(8, 8, |_, _| 0));
    let mut first = |name: &'static str, pictures: &[Picture]| {
        let numbers: Vec<u16> = pictures.iter().map(|picture| characters.add(picture)).collect();
        (name, i64::from(numbers[0]))
    };
    let balls = [(-20.0, 0.0), (20.0, 0.0), (-20.0, 0.03), (20.0, 0.03)];
    let symbols = vec![
        first("first_star", &[art::stars()]),
        first("first_plank", &[art::planks()]),
        first("first_ball", &balls.map(|(eye, turn)| art::ball(eye, turn))),
        first("first_shadow", &[art::shadow()]),
        first("first_boat", &[art::boat()]),
        first("first_wing", &[art::wing()]),
        first("first_post", &[art::post(), art::lamp()]),
    ];
    let mut header = b"STUVELGRANA DEMO    ".to_vec();
    header.resize(32, 0);
    let mut bytes = vec![
        ("header", header),
        ("wave", art::wave()),
        ("moon", characters.cells(&art::moon())),
        ("sea", characters.cells(&art::sea(372.0))),
        ("range", characters.cells(&art::mountains())),
        ("title", characters.cells(&letters::text("STUVELGRANA"))),
        ("subtitle", characters.cells(&letters::text("REFERENCE MODEL"))),
    ];
    bytes.push(("characters", characters.bytes()));
    (symbols, bytes)
}

#[cfg(test)]
mod tests {
    use super::rom;
    use vb::Decoded;

    /// Each instruction of the demo's program, which ends at its last `JMP`: the proved encoder and the independent
    /// model give the halfwords that the assembler wrote.
    #[test]
    fn the_encoder_and_the_model_give_the_programs_halfwords() {
        let rom = rom().unwrap();
        let halves: Vec<u16> = rom.chunks(2).map(|b| u16::from_le_bytes([b[0], b[1]])).collect();
        let (mut at, mut count) = (0, 0);
        while let Decoded::Instruction { instruction, halfwords } =
            vb::decode(halves[at], halves[at + 1])
        {
            let there = &halves[at..at + halfwords as usize];
            let encoded: Vec<u16> = vb::encode(instruction).unwrap().iter().collect();
            let (_, fields) = model::encoding::decode(halves[at], halves[at + 1]).unwrap();
            let model = model::encoding::encode(&fields).unwrap();
            if encoded != there {
                break;
            }
            assert_eq!((model.count, model.first), (halfwords, there[0]), "{at}");
            assert!(halfwords == 1 || model.second == there[1], "{at}");
            at += halfwords as usize;
            count += 1;
        }
        // the program's instructions come first, its data after them
        assert!(count > 300, "{count}");
    }

    #[test]
    fn the_rom_is_64_kib_and_starts_at_the_reset_address() {
        let rom = rom().unwrap();
        assert_eq!(rom.len(), 0x10000);
        assert_eq!(rom[0xFFF0..0xFFF2], [0x20, 0xBC]);
        assert_eq!(&rom[0xFDE0..0xFDF0], b"STUVELGRANA DEMO");
    }
}
