//! Saved states through the library: the contents as the specification lays them out, read back, and every refusal.

mod common;

use common::Bench;
use vb::{
    move_state, salvage_state, state_2_bytes, state_bytes, Hardware, Machine, Mode, Refusal,
    Salvaged,
};

const WITHOUT_PAK: &str = "04 00 01 00 2A 00 00 00 AC 00 00 00 02 00 D6 00 00 00 1A 00 00 00 \
                           03 00 F0 00 00 00 00 00 01 00 04 00 F0 00 01 00 00 00 04 00";
const WITH_PAK: &str = "05 00 01 00 34 00 00 00 AC 00 00 00 02 00 E0 00 00 00 1A 00 00 00 03 00 FA 00 00 00 00 00 01 00 \
                        04 00 FA 00 01 00 00 00 04 00 05 00 FA 00 05 00 00 20 00 00";

fn machine() -> Machine {
    let mut machine = Machine::reset();
    (1..32).for_each(|n| machine.processor.regs[n] = 0x0101_0101 * n as u32);
    machine.processor.sr25 = 0x2468;
    machine.processor.sr29 = 0x1357_9BDF;
    machine.processor.mode = Mode::Halted;
    machine.drawing.spt = [1, 2, 3, 1023];
    machine.drawing.bkcol = 3;
    machine
}

#[test]
fn a_state_is_read_as_it_was_written() {
    for (pak, contents) in
        [(0, WITHOUT_PAK), (8_192, WITH_PAK), (1, "05 00"), (16_777_216, "05 00")]
    {
        let bench = Bench::of(pak, 7);
        let mut file = vec![0xEE; state_bytes(pak)];
        machine().write_state(&bench.read(), &mut file).unwrap();
        let printed: Vec<u8> =
            contents.split_whitespace().map(|byte| u8::from_str_radix(byte, 16).unwrap()).collect();
        assert_eq!(file[..printed.len()], printed);
        let mut other = Bench::of(pak, 100);
        let mut read = Machine::reset();
        read.read_state(&mut other.memories(), &file).unwrap();
        assert_eq!(read, machine());
        assert_eq!((&other.wram, &other.vram, &other.pak), (&bench.wram, &bench.vram, &bench.pak));
        assert_ne!(other.rom, bench.rom);
        let mut again = vec![0; file.len()];
        read.write_state(&other.read(), &mut again).unwrap();
        assert!(again == file);
    }
}

#[test]
fn a_refused_read_stores_nothing() {
    let bench = Bench::of(4, 7);
    let mut file = vec![0; state_bytes(4)];
    machine().write_state(&bench.read(), &mut file).unwrap();
    // each byte before the first body, then register 0, PC's bit 0, PSW's bit 10, the mode, SPT0 and BKCOL
    let bodies = [52, 52 + 128, 52 + 153, 52 + 168, 52 + 172 + 1, 52 + 172 + 24];
    for (at, change) in
        (0..52).map(|at| (at, 0x80)).chain(bodies.into_iter().zip([1, 1, 4, 4, 4, 4]))
    {
        let mut broken = file.clone();
        broken[at] ^= change;
        let mut other = Bench::of(4, 100);
        let mut read = Machine::reset();
        let refusal = read.read_state(&mut other.memories(), &broken).unwrap_err();
        assert_eq!(refusal, Refusal::FileBytes, "byte {at}");
        assert_eq!(read, Machine::reset());
        let kept = Bench::of(4, 100);
        assert_eq!((&other.wram, &other.vram, &other.pak), (&kept.wram, &kept.vram, &kept.pak));
    }
}

#[test]
fn wrong_lengths_are_reported() {
    let mut bench = Bench::of(0, 7);
    for given in [0, 1, 327_919, 327_921, 327_931] {
        let mut output = vec![0xEE; given];
        let refusal = machine().write_state(&bench.read(), &mut output).unwrap_err();
        assert_eq!(refusal, Refusal::FileLength { given, due: 327_920 });
        assert!(output.iter().all(|&byte| byte == 0xEE));
        let mut read = Machine::reset();
        assert_eq!(read.read_state(&mut bench.memories(), &output), Err(refusal));
    }
    let text = machine().write_state(&bench.read(), &mut []).unwrap_err().to_string();
    assert_eq!(
        text,
        "refusal 9: the file or output buffer has 0 bytes; with pak RAM of this length a saved state has 327,920"
    );
    let mut odd = machine();
    odd.processor.pc = 1;
    assert_eq!(odd.write_state(&bench.read(), &mut []).unwrap_err().number(), 5);
    bench.pak = vec![0; 3];
    assert_eq!(odd.write_state(&bench.read(), &mut []).unwrap_err().number(), 4);
}

/// Form 2 holds lines and timer; it moves to form 1 and back where they are at reset.
#[test]
fn form_2_is_written_read_and_moved() {
    for pak in [0, 32, 8_192] {
        let bench = Bench::of(pak, 7);
        let mut state = machine();
        let (mut one, mut two) = (vec![0; state_bytes(pak)], vec![0; state_2_bytes(pak)]);
        state.write_state(&bench.read(), &mut one).unwrap();
        state.write_state_2(&bench.read(), &mut two).unwrap();
        assert_eq!(two[..4], [0, 0, 2, 0]);
        let (mut there, mut back) = (vec![0; two.len()], vec![0; one.len()]);
        move_state(&one, &mut there).unwrap();
        move_state(&there, &mut back).unwrap();
        assert!(there == two && back == one, "pak RAM {pak}");
        let wrong = move_state(&one, &mut back).unwrap_err();
        assert_eq!(wrong, Refusal::MoveLength { file: one.len(), output: one.len() });
        state.processor.hardware = Hardware { lines: 9, count: 1, reload: 2, control: 0x1B };
        state.write_state_2(&bench.read(), &mut two).unwrap();
        let mut other = Bench::of(pak, 100);
        let mut read = Machine::reset();
        read.read_state(&mut other.memories(), &two).unwrap();
        assert_eq!(read, state);
        assert_eq!(move_state(&two, &mut back), Err(Refusal::NotAtReset));
        two[300] ^= 1;
        assert_eq!(move_state(&two, &mut back), Err(Refusal::FileBytes));
        assert_eq!(read.read_state(&mut other.memories(), &two), Err(Refusal::FileBytes));
        let refusal = read.read_state(&mut other.memories(), &two[1..]).unwrap_err();
        assert_eq!(refusal.number(), 9);
    }
}

#[test]
fn a_damaged_file_is_salvaged() {
    let bench = Bench::of(4, 7);
    let mut file = vec![0; state_2_bytes(4)];
    machine().write_state_2(&bench.read(), &mut file).unwrap();
    let mut output = vec![0; file.len()];
    let sound = Salvaged { replaced: vec![], contents_differ: false };
    assert_eq!(salvage_state(&file, &mut output), Ok(sound.clone()));
    assert!(output == file);
    let mut damaged = file.clone();
    damaged[300] ^= 1;
    damaged[8] ^= 1;
    damaged[100] ^= 1;
    let found = Salvaged { replaced: vec![1, 3], contents_differ: true };
    assert_eq!(salvage_state(&damaged, &mut output), Ok(found));
    let mut again = vec![0; file.len()];
    assert_eq!(salvage_state(&output, &mut again), Ok(sound));
    assert!(again == output);
    let mut other = Bench::of(4, 100);
    let mut read = Machine::reset();
    read.read_state(&mut other.memories(), &output).unwrap();
    assert_eq!(read.processor, Machine::reset().processor);
    assert_eq!(read.drawing, machine().drawing);
    assert!(other.wram.iter().all(|&byte| byte == 0) && other.vram == bench.vram);
    let refusal = salvage_state(&file, &mut output[1..]).unwrap_err();
    assert_eq!(refusal, Refusal::FileLength { given: file.len() - 1, due: file.len() });
    assert_eq!(salvage_state(&[], &mut []), Err(Refusal::NoLayout { given: 0 }));
}
