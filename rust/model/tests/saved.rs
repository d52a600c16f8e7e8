//! Files of saved states (W1), and their second form (W12).

use model::processor::reset;
use model::saved::{file_length, move_state, read_state, write_state, write_state_2, Form};
use model::{DrawingRegisters, Hardware, Memories, Mode, Processor, ReadMemories, Refusal};

const ROM: [u8; 1_024] = [0; 1_024];

fn written(processor: &Processor, pak: &[u8]) -> Vec<u8> {
    let (wram, vram) = (vec![3; 65_536], vec![4; 262_144]);
    let memories = ReadMemories { rom: &ROM, wram: &wram, vram: &vram, pak };
    let mut output = vec![0xEE; file_length(Form::One, pak.len())];
    write_state(&memories, processor, &DrawingRegisters::default(), &mut output).unwrap();
    output
}

fn written_2(processor: &Processor, pak: &[u8]) -> Vec<u8> {
    let (wram, vram) = (vec![3; 65_536], vec![4; 262_144]);
    let memories = ReadMemories { rom: &ROM, wram: &wram, vram: &vram, pak };
    let mut output = vec![0xEE; file_length(Form::Two, pak.len())];
    write_state_2(&memories, processor, &DrawingRegisters::default(), &mut output).unwrap();
    output
}

fn moved(file: &[u8], output: usize) -> Result<Vec<u8>, Refusal> {
    let mut output = vec![0xEE; output];
    let answer = move_state(file, &mut output);
    assert!(answer.is_ok() || output.iter().all(|&byte| byte == 0xEE));
    answer.map(|()| output)
}

fn read(file: &[u8], pak: usize) -> Result<(Processor, Vec<u8>), Refusal> {
    let (mut wram, mut vram, mut pak) = (vec![0; 65_536], vec![0; 262_144], vec![0; pak]);
    let mut memories = Memories { rom: &ROM, wram: &mut wram, vram: &mut vram, pak: &mut pak };
    let (mut processor, mut drawing) = reset();
    read_state(&mut memories, &mut processor, &mut drawing, file)?;
    assert!(wram.iter().all(|&byte| byte == 3) && vram.iter().all(|&byte| byte == 4));
    Ok((processor, pak))
}

fn bytes(text: &str) -> Vec<u8> {
    let bytes = text.split([' ', '|']).filter(|byte| !byte.is_empty());
    bytes.map(|byte| u8::from_str_radix(byte, 16).unwrap()).collect()
}

/// The contents as the request prints them, with and without pak RAM.
#[test]
fn worked_contents() {
    let none = bytes(
        "04 00 | 01 00 2A 00 00 00 AC 00 00 00 | 02 00 D6 00 00 00 1A 00 00 00 | \
         03 00 F0 00 00 00 00 00 01 00 | 04 00 F0 00 01 00 00 00 04 00",
    );
    let some = bytes(
        "05 00 | 01 00 34 00 00 00 AC 00 00 00 | 02 00 E0 00 00 00 1A 00 00 00 | \
         03 00 FA 00 00 00 00 00 01 00 | 04 00 FA 00 01 00 00 00 04 00 | \
         05 00 FA 00 05 00 00 20 00 00",
    );
    let (processor, _) = reset();
    assert_eq!(written(&processor, &[])[..42], none);
    assert_eq!(written(&processor, &[5; 8_192])[..52], some);
    let lengths = [0, 1, 8_192].map(|pak| file_length(Form::One, pak));
    assert_eq!(lengths, [327_920, 327_931, 336_122]);
}

#[test]
fn there_and_back() {
    let mut processor = Processor { mode: Mode::Halted, psw: 0xF_F3FF, ..Processor::default() };
    processor.registers[31] = 0x1234_5678;
    processor.adtre = 2;
    processor.system29 = 0xFFFF_FFFF;
    processor.system31 = 0x8000_0000;
    let file = written(&processor, &[9; 2]);
    let (found, pak) = read(&file, 2).unwrap();
    assert_eq!(found, processor);
    assert_eq!(pak, [9, 9]);
    assert_eq!(written(&found, &pak), file);
}

#[test]
fn refused_files() {
    let (processor, _) = reset();
    let file = written(&processor, &[]);
    assert_eq!(read(&file[1..], 0), Err(Refusal::FileLength));
    assert_eq!(read(&file, 1), Err(Refusal::FileLength));
    assert_eq!(read(&[], 0), Err(Refusal::FileLength));
    for at in 0..42 {
        let mut changed = file.clone();
        changed[at] ^= 0x10;
        assert_eq!(read(&changed, 0), Err(Refusal::FileBytes), "byte {at}");
    }
    let word = |n: usize| 42 + 4 * n;
    for (at, bit, legal) in [
        (word(0), 0, false),
        (word(1), 0, true),
        (word(32), 0, false),
        (word(37), 0, true),
        (word(38) + 1, 2, false),
        (word(38) + 2, 3, true),
        (word(38) + 2, 4, false),
        (word(39), 0, false),
        (word(40), 0, true),
        (word(41) + 3, 7, true),
        (word(42), 1, true),
        (word(42), 2, false),
        (214 + 1, 1, true),
        (214 + 1, 2, false),
        (214 + 9, 0, false),
        (214 + 24, 2, false),
    ] {
        let mut changed = file.clone();
        changed[at] |= 1 << bit;
        assert_eq!(read(&changed, 0).is_ok(), legal, "bit {bit} of byte {at}");
    }
}

/// W12: writing form 1 is refusal 16 unless lines and timer are at reset, after 9.
#[test]
fn form_1_holds_no_lines_and_no_timer() {
    let (processor, drawing) = reset();
    let (wram, vram) = (vec![3; 65_536], vec![4; 262_144]);
    let memories = ReadMemories { rom: &ROM, wram: &wram, vram: &vram, pak: &[] };
    for field in 0..4 {
        let mut halves = [0; 4];
        halves[field] = 1;
        let [lines, count, reload, control] = halves;
        let hardware = Hardware { lines, count, reload, control };
        let processor = Processor { hardware, ..processor };
        for (length, refusal) in [(327_920, Refusal::NotAtReset), (327_919, Refusal::FileLength)] {
            let mut output = vec![0xEE; length];
            let answer = write_state(&memories, &processor, &drawing, &mut output);
            assert_eq!(answer, Err(refusal));
            assert!(output.iter().all(|&byte| byte == 0xEE));
        }
        let file = written_2(&processor, &[]);
        assert_eq!(read(&file, 0), Ok((processor, vec![])));
        assert_eq!(moved(&file, 327_920), Err(Refusal::NotAtReset));
        assert_eq!(moved(&file, 327_921), Err(Refusal::FileLength));
        let mut damaged = file.clone();
        damaged[300] ^= 1;
        assert_eq!(moved(&damaged, 327_920), Err(Refusal::FileBytes));
    }
}

/// The contents as the request prints them, and the table's lengths.
#[test]
fn worked_contents_of_form_2() {
    let contents = bytes(
        "00 00 02 00 05 00 | 01 00 4C 00 00 00 AC 00 00 00 5C 06 00 00 | \
         02 00 F8 00 00 00 1A 00 00 00 00 00 00 00 | 03 00 12 01 00 00 00 00 01 00 00 00 00 00 | \
         04 00 12 01 01 00 00 00 04 00 00 00 00 00 | 06 00 12 01 05 00 08 00 00 00 00 00 00 00",
    );
    let (processor, drawing) = reset();
    let (wram, vram) = (vec![0; 65_536], vec![0; 262_144]);
    let memories = ReadMemories { rom: &ROM, wram: &wram, vram: &vram, pak: &[] };
    let mut output = vec![0xEE; 327_962];
    write_state_2(&memories, &processor, &drawing, &mut output).unwrap();
    assert_eq!(output[..76], contents);
    assert_eq!(output[327_954..], [0; 8]);
    let lengths = [0, 1, 32, 16_777_216].map(|pak| file_length(Form::Two, pak));
    assert_eq!(lengths, [327_962, 327_977, 328_008, 17_105_192]);
    assert_eq!(file_length(Form::One, 32), 327_962);
}

/// The table's places with pak RAM.
#[test]
fn places_of_form_2() {
    let (mut processor, _) = reset();
    processor.hardware = Hardware { lines: 0x1F, count: 0x1234, reload: 0x5678, control: 0x1B };
    let file = written_2(&processor, &[5; 64]);
    let sum = |at: usize| u32::from_le_bytes(file[at..at + 4].try_into().unwrap());
    assert_eq!((file[4], file[5]), (6, 0));
    assert_eq!([16, 30, 44, 58, 72].map(sum), [1_628, 0, 3 * 65_536, 4 * 262_144, 5 * 64]);
    assert_eq!(sum(86), 0x1F + 0x12 + 0x34 + 0x56 + 0x78 + 0x1B);
    assert_eq!((file[288], file[65_824], file[327_968]), (3, 4, 5));
    assert_eq!(file[327_968 + 64..], [0x1F, 0, 0x34, 0x12, 0x78, 0x56, 0x1B, 0]);
}

#[test]
fn moves() {
    let (processor, _) = reset();
    for pak in [0, 1, 32, 64] {
        let (one, two) = (written(&processor, &vec![9; pak]), written_2(&processor, &vec![9; pak]));
        let (short, long) = (one.len(), two.len());
        assert!(moved(&one, long).unwrap() == two, "pak RAM {pak}");
        assert!(moved(&two, short).unwrap() == one, "pak RAM {pak}");
        for output in [0, long - 1, long + 1, short] {
            assert_eq!(moved(&one, output), Err(Refusal::FileLength), "{output}");
        }
        assert_eq!(moved(&one[1..], long), Err(Refusal::FileLength));
        assert_eq!(moved(&[], long), Err(Refusal::FileLength));
    }
}

/// 327,962 bytes is form 1 with 32 bytes of pak RAM and form 2 without: the first
/// halfword decides.
#[test]
fn the_length_of_both_forms() {
    let (processor, _) = reset();
    let (one, two) = (written(&processor, &[9; 32]), written_2(&processor, &[]));
    assert_eq!((one.len(), two.len()), (327_962, 327_962));
    assert_eq!(read(&one, 32), Ok((processor, vec![9; 32])));
    assert_eq!(read(&one, 0), Err(Refusal::FileLength));
    assert_eq!(read(&two, 0), Ok((processor, vec![])));
    assert_eq!(read(&two, 32), Err(Refusal::FileLength));
    let mut zeroed = one.clone();
    zeroed[0] = 0;
    assert_eq!(read(&zeroed, 0), Err(Refusal::FileBytes));
    assert_eq!(read(&zeroed, 32), Err(Refusal::FileLength));
    assert_eq!(moved(&zeroed, 327_920), Err(Refusal::FileBytes));
}

/// A wrong sum is refusal 10, also where its body is legal; so is any bit of kind 6
/// outside its widths.
#[test]
fn damage_of_form_2() {
    let (mut processor, _) = reset();
    processor.hardware.count = 7;
    let file = written_2(&processor, &[9; 4]);
    for at in (0..90).chain([100, 270, 300, 70_000, 327_970, 327_975]) {
        let mut changed = file.clone();
        changed[at] ^= 0x40;
        let refusal = if at < 2 { Refusal::FileLength } else { Refusal::FileBytes };
        assert_eq!(read(&changed, 4), Err(refusal), "byte {at}");
    }
    for (half, bit, legal) in
        [(0, 4, true), (0, 5, false), (3, 4, true), (3, 2, false), (3, 5, false)]
    {
        let mut changed = file.clone();
        let at = 327_972 + 2 * half;
        changed[at] |= 1 << bit;
        let sum: u32 = changed[327_972..].iter().map(|&byte| u32::from(byte)).sum();
        changed[86..90].copy_from_slice(&sum.to_le_bytes());
        assert_eq!(read(&changed, 4).is_ok(), legal, "bit {bit} of halfword {half}");
    }
}
