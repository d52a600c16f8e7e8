//! Which bytes of a read are undefined (W2): every address of the VIP by each
//! width, at several mirrors, and steps whose halfwords or load fall on either
//! side of each border.

use difftests::access::{by_library, by_model, Call, LOADS};
use difftests::machine::{random_drawing, Buffers};
use difftests::random::Random;
use model::DrawingRegisters;

/// Where the bytes of the VIP turn defined or undefined, by the specification.
const BORDERS: [u32; 14] = [
    0x40000, 0x5F800, 0x5F806, 0x5F820, 0x5F82C, 0x5F82E, 0x5F832, 0x5F840, 0x5F846, 0x5F848,
    0x5F850, 0x5F860, 0x5F872, 0x78000,
];
/// The VIP's own addresses and four mirrors: of its memory map, of the 27-bit
/// map, and of both.
const MIRRORS: [u32; 5] = [0, 0x0008_0000, 0x00F8_0000, 0x0800_0000, 0xF868_0000];

/// Makes the load on both sides; gives the undefined bytes.
fn expect_same(call: Call, buffers: &mut Buffers, drawing: &DrawingRegisters, address: u32) -> u32 {
    let library = by_library(call, buffers, drawing, address, 0);
    let model = by_model(call, buffers, drawing, address, 0);
    assert_eq!(library, model, "{call:?} 0x{address:08X}, {drawing:X?}");
    library.undefined
}

/// Each of the 524,288 addresses by each width, at each mirror: the undefined
/// bytes are counted as the specification's ranges have them.
#[test]
fn every_address_of_the_vip() {
    let mut random = Random::new(0x2001_0000);
    let mut buffers = Buffers::random(&mut random, 1_024, 4);
    let drawing = random_drawing(&mut random);
    for mirror in MIRRORS {
        let mut undefined = [0u32; 3];
        for v in 0..0x80000 {
            for (call, count) in LOADS.into_iter().zip(&mut undefined) {
                let mask = expect_same(call, &mut buffers, &drawing, mirror | v);
                *count += mask.count_ones();
            }
        }
        // a halfword is loaded at two addresses, a word at four
        assert_eq!(undefined, [229_322, 2 * 229_322, 4 * 229_322], "at 0x{mirror:08X}");
    }
}

/// The first and the last word of every region and every copy of the map, and
/// pak RAM of 0, 1 and 2 bytes: outside the VIP every byte is defined.
#[test]
fn ends_of_every_region() {
    let mut random = Random::new(0x2002_0000);
    for pak in [0, 1, 2, 8_192] {
        let mut buffers = Buffers::random(&mut random, 1_024, pak);
        let drawing = random_drawing(&mut random);
        for region in 0..256u32 {
            for low in (0..8).chain(0xFF_FFF8..=0xFF_FFFF).chain(0x5F840..0x5F850) {
                for call in LOADS {
                    let address = region << 24 | low;
                    let mask = expect_same(call, &mut buffers, &drawing, address);
                    assert!(mask == 0 || region % 8 == 0, "{call:?} 0x{address:08X}");
                }
            }
        }
    }
}

/// The request's worked loads.
#[test]
fn worked_loads() {
    let mut buffers = Buffers::zeroed(1_024, 65_536, 262_144, 0);
    buffers.vram[0x3FFFF] = 0x77;
    let drawing = DrawingRegisters::default();
    for (call, address, value, undefined) in [
        (Call::LoadByte, 0x0003_FFFF, 0x77, 0),
        (Call::LoadByte, 0x0004_0000, 0, 1),
        (Call::LoadHalf, 0x0005_F801, 0, 0),
        (Call::LoadHalf, 0x0005_F847, 0, 3),
        (Call::LoadWord, 0x0005_F847, 2, 0xC),
        (Call::LoadWord, 0x0005_F82D, 0, 3),
        (Call::LoadWord, 0x000D_F82C, 0, 3),
        (Call::LoadWord, 0xF805_F82C, 0, 3),
        (Call::LoadWord, 0x0005_F804, 0, 0xC),
        (Call::LoadWord, 0x0005_F830, 0, 0xC),
        (Call::LoadWord, 0x0005_F870, 0, 0xC),
        (Call::LoadWord, 0x0300_0000, 0, 0),
        (Call::LoadWord, 0x0100_0000, 0, 0),
        (Call::LoadWord, 0x0400_0000, 0, 0),
        (Call::LoadWord, 0x0600_0000, 0, 0),
    ] {
        let answer = by_library(call, &mut buffers, &drawing, address, 0);
        let found = (answer.refusal, answer.value, answer.undefined);
        assert_eq!(found, (0, value, undefined), "{call:?} 0x{address:08X}");
    }
}

/// A refused load of an undefined byte reports none.
#[test]
fn refused_loads() {
    let wide = DrawingRegisters { bkcol: 4, ..DrawingRegisters::default() };
    let plain = DrawingRegisters::default();
    for (number, rom, wram, vram, pak, drawing) in [
        (1, 512, 65_536, 262_144, 0, plain),
        (2, 1_024, 0, 262_144, 0, plain),
        (3, 1_024, 65_536, 0, 0, plain),
        (4, 1_024, 65_536, 262_144, 3, plain),
        (5, 1_024, 65_536, 262_144, 0, wide),
    ] {
        let mut buffers = Buffers::zeroed(rom, wram, vram, pak);
        for (call, address) in LOADS.into_iter().flat_map(|c| [(c, 0x40000), (c, 0x5F846)]) {
            let answer = by_library(call, &mut buffers, &drawing, address, 0);
            let found = (answer.refusal, answer.value, answer.undefined);
            assert_eq!(found, (number, 0, 0), "{call:?} 0x{address:X}");
        }
    }
}

mod steps {
    use super::{BORDERS, MIRRORS};
    use difftests::machine::{random_drawing, to_library, Buffers};
    use difftests::program::{biased_register, half, random_processor};
    use difftests::random::Random;
    use difftests::twin::{processor_to_library, Twin};
    use model::{Mode, Refusal, Undefined};

    /// LD.B, LD.H, LD.W, IN.B, IN.H, IN.W.
    const LOADS: [u16; 6] = [0x30, 0x31, 0x33, 0x38, 0x39, 0x3B];
    /// ST and OUT at each width.
    const STORES: [u16; 6] = [0x34, 0x35, 0x37, 0x3C, 0x3D, 0x3F];

    fn random_twin(random: &mut Random) -> Twin {
        let buffers = Buffers::random(random, 1_024, 4);
        Twin::new(buffers, random_processor(random), random_drawing(random))
    }

    /// PC on each side of each border, over random memory and registers.
    #[test]
    fn fetches_at_each_border() {
        let mut random = Random::new(0x2003_0000);
        let mut twin = random_twin(&mut random);
        let mut seen = [0u32; 2];
        for _ in 0..40 {
            for (border, mirror) in BORDERS.into_iter().flat_map(|b| MIRRORS.map(|m| (b, m))) {
                for step in (0..16).step_by(2) {
                    twin.processor = random_processor(&mut random);
                    twin.drawing = random_drawing(&mut random);
                    twin.processor.pc = (mirror | border).wrapping_add(step).wrapping_sub(8);
                    let first = twin.processor.pc;
                    if let Ok(stepped) = twin.step_watched(&|| format!("PC 0x{first:08X}")) {
                        let Undefined { first, second, .. } = stepped.undefined;
                        assert!([0, 3].contains(&first) && [0, 3].contains(&second));
                        seen[0] += u32::from(first == 3);
                        seen[1] += u32::from(second == 3);
                    }
                }
            }
            twin.expect_equal(&|| "fetches at each border".into());
            random.fill(&mut twin.library.vram);
            twin.model.vram.copy_from_slice(&twin.library.vram);
        }
        assert!(seen[0] > 10_000 && seen[1] > 50, "{seen:?}");
    }

    /// Every opcode in the last halfword before the unmapped range: those that
    /// have a second halfword find it undefined, and CAXI is refused.
    #[test]
    fn second_halfwords_that_are_undefined() {
        let mut random = Random::new(0x2004_0000);
        let mut twin = random_twin(&mut random);
        for opcode in 0..64u16 {
            for mirror in MIRRORS {
                for _ in 0..20 {
                    let low = biased_register(&mut random) << 5 | biased_register(&mut random);
                    twin.put_half(0x3FFFE, opcode << 10 | low);
                    twin.processor = random_processor(&mut random);
                    twin.processor.pc = mirror | 0x3FFFE;
                    let stepped = twin.step_watched(&|| format!("opcode {opcode:06b}"));
                    let two = opcode >= 0b101000 && ![0b110010, 0b110110].contains(&opcode);
                    match stepped {
                        Ok(stepped) => {
                            let Undefined { first, second, .. } = stepped.undefined;
                            let expected = (0, if two { 3 } else { 0 });
                            assert_eq!((first, second), expected, "opcode {opcode:06b}");
                        }
                        Err(refusal) => assert_eq!(refusal, Refusal::NotModelled),
                    }
                }
            }
        }
        twin.expect_equal(&|| "undefined second halfwords".into());
    }

    /// LD and IN at each width, ST and OUT too, on each side of each border;
    /// into and out of r0 as well.
    #[test]
    fn loads_at_each_border() {
        let mut random = Random::new(0x2005_0000);
        let mut twin = random_twin(&mut random);
        let mut seen = std::collections::BTreeMap::new();
        for opcode in LOADS.into_iter().chain(STORES) {
            for (border, mirror) in BORDERS.into_iter().flat_map(|b| MIRRORS.map(|m| (b, m))) {
                for step in 0..24u32 {
                    for reg2 in [0, 5, 30] {
                        let address = (mirror | border).wrapping_add(step).wrapping_sub(12);
                        twin.processor = random_processor(&mut random);
                        twin.processor.pc = random.pick(&[0x0500_0100, 0x0700_0100]);
                        let displacement = random.half();
                        let pc = twin.processor.pc;
                        twin.put_code(pc, &[half(opcode, reg2, 7), displacement]);
                        twin.processor.registers[7] =
                            address.wrapping_sub(displacement as i16 as u32);
                        let what = || format!("opcode {opcode:06b} at 0x{address:08X}, r{reg2}");
                        let stepped = twin.step_watched(&what).unwrap();
                        let Undefined { first, second, load } = stepped.undefined;
                        assert_eq!((first, second), (0, 0), "{}", what());
                        assert!(load == 0 || LOADS.contains(&opcode), "{}", what());
                        *seen.entry((opcode, load)).or_insert(0u32) += 1;
                    }
                }
            }
            twin.expect_equal(&|| format!("opcode {opcode:06b}"));
        }
        for (opcode, masks) in [
            (0x30, vec![0, 1]),
            (0x31, vec![0, 3]),
            (0x33, vec![0, 3, 0xC, 15]),
            (0x38, vec![0, 1]),
            (0x39, vec![0, 3]),
            (0x3B, vec![0, 3, 0xC, 15]),
        ] {
            let met: Vec<u32> = seen.keys().filter(|key| key.0 == opcode).map(|k| k.1).collect();
            assert_eq!(met, masks, "masks of opcode {opcode:06b}");
        }
    }

    /// The request's worked steps.
    #[test]
    fn worked_steps() {
        let mut twin = random_twin(&mut Random::new(0x2006_0000));
        twin.processor.pc = 0x0004_0000;
        let before = twin.processor;
        let stepped = twin.step_watched(&|| "an unmapped PC".into()).unwrap();
        assert_eq!(stepped.undefined, Undefined { first: 3, second: 0, load: 0 });
        assert_eq!(twin.processor, model::Processor { pc: 0x0004_0002, ..before });

        twin.put_half(0x3FFFE, half(0b101000, 1, 0));
        twin.processor.pc = 0x0003_FFFE;
        let stepped = twin.step_watched(&|| "a Format V opcode".into()).unwrap();
        assert_eq!(stepped.undefined, Undefined { first: 0, second: 3, load: 0 });

        twin.put_code(0x0700_0000, &[half(0x33, 1, 2), 0, half(0x38, 0, 3), 0]);
        twin.processor.pc = 0x0700_0000;
        twin.processor.registers[2] = 0x0005_F870;
        twin.processor.registers[3] = 0x0005_F872;
        let stepped = twin.step_watched(&|| "LD.W from BKCOL".into()).unwrap();
        assert_eq!(stepped.undefined, Undefined { first: 0, second: 0, load: 0xC });
        let stepped = twin.step_watched(&|| "IN.B into r0".into()).unwrap();
        assert_eq!(stepped.undefined, Undefined { first: 0, second: 0, load: 1 });

        let last = u32::MAX - 1;
        twin.put_code(last, &[half(0b101000, 1, 0), 0x1234]);
        twin.processor.pc = last;
        let stepped = twin.step_watched(&|| "the end of the address space".into()).unwrap();
        assert_eq!(stepped.undefined, Undefined::default());
    }

    /// A machine that does not run reads nothing.
    #[test]
    fn machines_that_do_not_run() {
        let mut twin = random_twin(&mut Random::new(0x2007_0000));
        for mode in [Mode::Halted, Mode::Fatal] {
            twin.processor.pc = 0x0004_0000;
            twin.processor.mode = mode;
            let stepped = twin.step_watched(&|| format!("{mode:?}")).unwrap();
            assert_eq!(stepped.undefined, Undefined::default(), "{mode:?}");
        }
    }

    /// Refused by 1 to 6 or for its mode, a step reports no undefined byte,
    /// wherever PC is.
    #[test]
    fn refused_steps() {
        let mut random = Random::new(0x2008_0000);
        let twin = random_twin(&mut random);
        for number in [1, 2, 3, 4, 5, 6, vbsys::MISUSE] {
            let mut buffers = twin.library.clone();
            let mut processor = processor_to_library(&twin.processor);
            let mut drawing = to_library(&twin.drawing);
            processor.pc = 0x0004_0000;
            match number {
                1 => buffers.rom = vec![0; 512].into(),
                2 => buffers.wram = vec![0; 65_535].into(),
                3 => buffers.vram = vec![0; 262_143].into(),
                4 => buffers.pak = vec![0; 3].into(),
                5 => drawing.bkcol = 4,
                6 => {
                    processor.pc = 0x0003_FFFE;
                    buffers.vram[0x3FFFE..].copy_from_slice(&half(0b111010, 1, 2).to_le_bytes());
                }
                _ => processor.mode = 3,
            }
            let before = buffers.clone();
            let stepped = vbsys::step(&mut buffers.for_library(), processor, drawing);
            let expected =
                vbsys::Stepped { refusal: number, processor, drawing, ..vbsys::Stepped::default() };
            assert_eq!(stepped, expected, "refusal {number}");
            buffers.expect_equal(&before, &|| format!("refusal {number}"));
        }
    }
}
