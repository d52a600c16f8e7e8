//! The display unit (W11): brightness of whole images and the recommended
//! column table, the library against the model.

use difftests::machine::expect_same_bytes;
use difftests::random::Random;
use model::display::{display, load_column_table, DISPLAY_LENGTH};

const VRAM: usize = 262_144;

/// What a call takes besides VRAM and output buffer.
#[derive(Clone, Copy, Debug)]
struct Given {
    frame: u32,
    eye: u32,
    start: u32,
    brightness: [u8; 3],
}

const ACCEPTED: Given = Given { frame: 1, eye: 1, start: 200, brightness: [17, 40, 3] };

fn random_bytes(random: &mut Random, length: usize) -> Box<[u8]> {
    let mut bytes = vec![0; length].into_boxed_slice();
    random.fill(&mut bytes);
    bytes
}

/// Makes the call on both sides, the output buffers filled alike before, and compares
/// number, output buffer and VRAM. Gives the number and the output buffer.
fn expect_same(vram: &[u8], given: Given, output: usize, what: &str) -> (u32, Box<[u8]>) {
    let Given { frame, eye, start, brightness } = given;
    let before = random_bytes(&mut Random::new(0x0B1C), output);
    let (mut library, mut model) = (before.clone(), before.clone());
    let unchanged = vram.to_vec();
    let number = vbsys::display(vram, frame, eye, start, brightness, &mut library);
    let answer = display(vram, frame, eye, start, brightness, &mut model);
    let expected = answer.err().map_or(0, model::Refusal::number);
    assert_eq!(number, expected, "{given:?}, output {output}; {what}");
    expect_same_bytes("output", &library, &model, &|| format!("{given:?}; {what}"));
    assert!(vram == unchanged, "VRAM changes: {given:?}; {what}");
    if number != 0 {
        assert!(library == before, "a refusal stores: {given:?}; {what}");
    }
    (number, library)
}

fn brightness(random: &mut Random) -> [u8; 3] {
    let most = random.pick(&[2, 16, 128, 256]);
    [0; 3].map(|_: u8| match random.below(8) {
        0 => 0,
        1 => 255,
        _ => random.below(most) as u8,
    })
}

/// Random images, tables, starts and brightness bytes. The high bytes of the
/// tables are large, small or mixed, so that the limit is met on both sides.
#[test]
fn random_images() {
    let (mut limited, mut below) = (0, 0);
    for number in 0..150 {
        let seed = 0x1101_0000 + number;
        let mut random = Random::new(seed);
        let mut vram = random_bytes(&mut random, VRAM);
        let most = random.pick(&[1, 4, 32, 256]);
        for entry in 0..512 {
            vram[0x3DC01 + 2 * entry] = random.below(most) as u8;
        }
        let given = Given {
            frame: random.below(2),
            eye: random.below(2),
            start: 95 + random.below(161),
            brightness: brightness(&mut random),
        };
        let (number, output) = expect_same(&vram, given, DISPLAY_LENGTH, &format!("seed {seed:X}"));
        assert_eq!(number, 0);
        limited += output.iter().filter(|&&byte| byte == 128).count();
        below += output.iter().filter(|&&byte| (1..128).contains(&byte)).count();
        assert!(output.iter().all(|&byte| byte <= 128));
    }
    assert!(limited > 500_000 && below > 500_000, "{limited} limited, {below} below");
}

/// Time times repeats at 127, 128 and 129, by every way to make them; all bytes
/// 0 and 255.
#[test]
fn products_at_the_limit() {
    let mut random = Random::new(0x1102_0000);
    let mut vram = random_bytes(&mut random, VRAM);
    for (repeats, time) in
        [(1, 127), (127, 1), (1, 128), (2, 64), (128, 1), (1, 129), (3, 43), (129, 1)]
            .into_iter()
            .chain([(1, 255), (256, 255), (256, 0), (1, 0), (256, 1), (64, 2)])
    {
        for entry in 0..512 {
            vram[0x3DC01 + 2 * entry] = (repeats - 1) as u8;
        }
        for brightness in [[time, 0, 0], [0, time, 0], [0, 0, time], [time; 3]] {
            for (frame, eye) in [(0, 0), (0, 1), (1, 0), (1, 1)] {
                let given = Given { frame, eye, start: 255, brightness };
                let what = format!("{repeats} times {time}");
                let (_, output) = expect_same(&vram, given, DISPLAY_LENGTH, &what);
                let due = (u32::from(time) * repeats).min(128) as u8;
                let most = output.iter().copied().max().unwrap();
                let three = brightness == [time; 3];
                assert!(most == due || three, "the brightest is {most}, {given:?}");
            }
        }
    }
}

/// Every start from 95 to 255, with entries that say where they are: columns
/// 4g to 4g + 3 take entry start - g.
#[test]
fn every_start() {
    let mut vram = vec![0xFF; VRAM];
    for entry in 0..256 {
        vram[0x3DC00 + 2 * entry + 1] = (entry / 2) as u8;
        vram[0x3DE00 + 2 * entry + 1] = (entry / 2) as u8 ^ 1;
    }
    for start in 95..=255 {
        for eye in 0..2 {
            let given = Given { frame: 0, eye, start, brightness: [0, 0, 1] };
            let (_, output) = expect_same(&vram, given, DISPLAY_LENGTH, "every start");
            for x in 0..384 {
                let entry = start - x / 4;
                let due = ((entry / 2) ^ eye) + 1;
                assert_eq!(u32::from(output[384 * 100 + x as usize]), due, "column {x}, {given:?}");
            }
        }
    }
}

/// Nothing else of VRAM matters: the other images, the other eye's table, the
/// entries' low bytes, the entries outside start - 95 to start, rows 224 to 255.
#[test]
fn nothing_else_matters() {
    for number in 0..40u32 {
        let mut random = Random::new(0x1103_0000 + u64::from(number));
        let vram = random_bytes(&mut random, VRAM);
        let start = 95 + random.below(161);
        let (frame, eye) = (number % 2, number / 2 % 2);
        let given = Given { frame, eye, start, brightness: brightness(&mut random) };
        let mut other = random_bytes(&mut random, VRAM);
        let image = 0x8000 * frame as usize + 0x10000 * eye as usize;
        for column in 0..384 {
            let from = image + 64 * column;
            other[from..from + 56].copy_from_slice(&vram[from..from + 56]);
        }
        for entry in start - 95..=start {
            let high = 0x3DC01 + 0x200 * eye as usize + 2 * entry as usize;
            other[high] = vram[high];
        }
        let (_, first) = expect_same(&vram, given, DISPLAY_LENGTH, "first");
        let (_, second) = expect_same(&other, given, DISPLAY_LENGTH, "second");
        assert!(first == second, "other bytes matter: {given:?}");
    }
}

#[test]
fn both_sides_of_each_limit() {
    let vram = random_bytes(&mut Random::new(0x1104_0000), VRAM);
    for (start, number) in
        [(0, 15), (94, 15), (95, 0), (255, 0), (256, 15), (351, 15), (0xFFFF_FFFF, 15)]
    {
        let found = expect_same(&vram, Given { start, ..ACCEPTED }, DISPLAY_LENGTH, "start").0;
        assert_eq!(found, number, "start {start}");
    }
    for (eye, number) in [(0, 0), (1, 0), (2, 15), (256, 15), (0xFFFF_FFFF, 15)] {
        let found = expect_same(&vram, Given { eye, ..ACCEPTED }, DISPLAY_LENGTH, "eye").0;
        assert_eq!(found, number, "eye {eye}");
    }
    for (frame, number) in [(0, 0), (1, 0), (2, 7), (256, 7), (0xFFFF_FFFF, 7)] {
        let found = expect_same(&vram, Given { frame, ..ACCEPTED }, DISPLAY_LENGTH, "frame").0;
        assert_eq!(found, number, "frame {frame}");
    }
    for (output, number) in
        [(0, 15), (1, 15), (86_015, 15), (86_016, 0), (86_017, 15), (98_304, 15), (172_032, 15)]
    {
        assert_eq!(expect_same(&vram, ACCEPTED, output, "output").0, number, "output {output}");
    }
}

/// Every set of broken conditions among 3, 7 and the three of 15.
#[test]
fn the_lowest_number_wins() {
    let whole = random_bytes(&mut Random::new(0x1105_0000), VRAM + 1);
    for set in 0..32u32 {
        let broken = |bit: u32| set >> bit & 1 == 1;
        let length = if broken(0) { [VRAM - 1, VRAM + 1, 0] } else { [VRAM; 3] };
        let given = Given {
            frame: if broken(1) { 2 } else { 0 },
            eye: if broken(2) { 2 } else { 0 },
            start: if broken(3) { 94 } else { 95 },
            ..ACCEPTED
        };
        let output = if broken(4) { DISPLAY_LENGTH - 1 } else { DISPLAY_LENGTH };
        let number = match (broken(0), broken(1), set >> 2) {
            (true, _, _) => 3,
            (_, true, _) => 7,
            (_, _, 0) => 0,
            _ => 15,
        };
        for length in length {
            let found = expect_same(&whole[..length], given, output, "broken conditions").0;
            assert_eq!(found, number, "{given:?}, VRAM {length}, output {output}");
        }
    }
}

#[test]
fn the_table_as_printed() {
    let printed = worked::column_table();
    for number in 0..20 {
        let before = random_bytes(&mut Random::new(0x1106_0000 + number), VRAM);
        let (mut library, mut model) = (before.clone(), before.clone());
        assert_eq!(vbsys::load_column_table(&mut library), 0);
        load_column_table(&mut model).unwrap();
        expect_same_bytes("VRAM", &library, &model, &|| "the column table".into());
        assert!(library[0x3DC00..0x3DE00] == printed[..], "the left table");
        assert!(library[0x3DE00..0x3E000] == printed[..], "the right table");
        assert!(library[..0x3DC00] == before[..0x3DC00] && library[0x3E000..] == before[0x3E000..]);
    }
}

/// With the recommended table every entry has one repeat: the image's shades
/// show their own times.
#[test]
fn images_with_the_recommended_table() {
    let mut random = Random::new(0x1107_0000);
    let mut vram = random_bytes(&mut random, VRAM);
    assert_eq!(vbsys::load_column_table(&mut vram), 0);
    let given = Given { brightness: [10, 30, 50], ..ACCEPTED };
    let (_, output) = expect_same(&vram, given, DISPLAY_LENGTH, "the recommended table");
    assert!(output.iter().all(|byte| [0, 10, 30, 90].contains(byte)));
}

#[test]
fn loading_is_refused_by_3_alone() {
    for (length, number) in [(0, 3), (1, 3), (VRAM - 1, 3), (VRAM, 0), (VRAM + 1, 3), (2 * VRAM, 3)]
    {
        let before = random_bytes(&mut Random::new(0x1108_0000), length);
        let mut vram = before.clone();
        assert_eq!(vbsys::load_column_table(&mut vram), number, "VRAM {length}");
        assert_eq!(vram == before, number != 0, "VRAM {length}");
    }
}

/// Neither call touches a byte outside the caller's buffers, and VRAM of the display
/// is only read.
#[cfg(target_os = "linux")]
#[test]
fn between_fences() {
    use difftests::fence::{Fenced, Side};
    let bytes = random_bytes(&mut Random::new(0x1109_0000), VRAM);
    for side in [Side::Start, Side::End] {
        let mut vram = Fenced::new(&bytes, side);
        assert_eq!(vbsys::load_column_table(vram.bytes_mut()), 0);
        let loaded = vram.bytes().to_vec();
        vram.forbid_writing();
        let mut output = Fenced::new(&vec![9; DISPLAY_LENGTH], side);
        for start in [95, 255] {
            let Given { frame, eye, brightness, .. } = ACCEPTED;
            let number =
                vbsys::display(vram.bytes(), frame, eye, start, brightness, output.bytes_mut());
            assert_eq!(number, 0);
            let expected =
                expect_same(&loaded, Given { start, ..ACCEPTED }, DISPLAY_LENGTH, "fences").1;
            assert!(*output.bytes() == *expected, "start {start}");
        }
        for length in [0, 1, DISPLAY_LENGTH - 1] {
            let mut short = Fenced::new(&vec![9; length], side);
            let number = vbsys::display(vram.bytes(), 0, 0, 95, [1; 3], short.bytes_mut());
            assert_eq!(number, 15, "output {length}");
        }
        for length in [0, 1, VRAM - 1] {
            let mut short = Fenced::new(&bytes[..length], side);
            let mut output = vec![0; DISPLAY_LENGTH];
            assert_eq!(vbsys::display(short.bytes(), 0, 0, 95, [1; 3], &mut output), 3);
            assert_eq!(vbsys::load_column_table(short.bytes_mut()), 3);
        }
    }
}
