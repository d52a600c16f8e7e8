//! A program followed: `vbmodel step`, where a run stops, and a machine changed before it runs.

mod common;

use common::Folder;
use serde_json::Value;

/// MOVHI 0x0500, r0, r2; MOV 7, r3; ST.H r3, 0x12[r2]; LD.W 0x10[r2], r4; LD.H from 0x5F900; then HALT in WRAM's mirror
const PROGRAM: [u16; 12] = [
    0xBC40, 0x0500, // MOVHI 0x0500, r0, r2
    0x4067, // MOV 7, r3
    0xD462, 0x0012, // ST.H r3, 18[r2]
    0xCC82, 0x0010, // LD.W 16[r2], r4
    0xBCC0, 0x0006, // MOVHI 0x0006, r0, r6
    0xC4A6, 0xF900, // LD.H -1792[r6], r5
    0x6800, // HALT
];

/// A folder with the program at 0x07000000 of a ROM.
fn with_program(name: &str) -> Folder {
    let folder = Folder::new(name);
    let mut rom: Vec<u8> = PROGRAM.iter().flat_map(|half| half.to_le_bytes()).collect();
    folder.write("short.rom", &rom);
    rom.resize(1024, 0);
    folder.write("a.rom", &rom);
    folder
}

#[test]
fn step_prints_pc_instruction_registers_memory_and_undefined_reads() {
    let folder = with_program("follow-step");
    let ran = folder.vbmodel("step --rom a.rom --pc 0x0700_0000");
    assert_eq!((ran.status, ran.error.as_str()), (0, ""));
    let lines: Vec<&str> = ran.text.lines().collect();
    assert_eq!(
        lines[..7],
        [
            "0x07000000  BC40 0500  MOVHI 0x0500, r0, r2      r2 0x05000000",
            "0x07000004  4067       MOV 7, r3                 r3 0x00000007",
            "0x07000006  D462 0012  ST.H r3, 18[r2]           [0x05000012] 0x0000 -> 0x0007 (WRAM 0x00012)",
            "0x0700000A  CC82 0010  LD.W 16[r2], r4           r4 0x00070000",
            "0x0700000E  BCC0 0006  MOVHI 0x0006, r0, r6      r6 0x00060000",
            "0x07000012  C4A6 F900  LD.H -1792[r6], r5        undefined read of 0x0005F900 to 0x0005F901",
            "0x07000016  6800       HALT",
        ]
    );
    assert_eq!(lines[7], "answer:       halted: the processor is halted");
    let json = folder.vbmodel("step --rom a.rom --pc 0x0700_0000 --json");
    let values: Vec<Value> =
        json.text.lines().map(|line| serde_json::from_str(line).unwrap()).collect();
    assert_eq!(values.len(), 8);
    assert_eq!(values[2]["written"]["to"], 7);
    assert_eq!(values[5]["undefined"], serde_json::json!([0x5F900, 0x5F901]));
    assert_eq!(values[7]["answer"], "halted");
}

#[test]
fn step_reports_exceptions_and_jumps() {
    let folder = with_program("follow-traps");
    // at reset NP is set: an illegal instruction is fatal
    let mut rom = vec![0; 1024];
    rom[0x3F0..0x3F2].copy_from_slice(&0x6C00u16.to_le_bytes());
    folder.write("illegal.rom", &rom);
    let ran = folder.vbmodel("step --rom illegal.rom");
    let lines: Vec<&str> = ran.text.lines().collect();
    let line = "0xFFFFFFF0  6C00       .half 0x6C00 (illegal)    illegal instruction (exception 0xFF90), fatal";
    assert_eq!(lines[0], line);
    assert!(lines[1]
        .starts_with("answer:       fatal: illegal instruction (exception 0xFF90) at 0xFFFFFFF0"));
    assert!(lines[2].starts_with("instructions: 0 of"), "{}", lines[2]);
    let ran = folder.vbmodel("step --rom illegal.rom --set psw=0");
    let line = ran.text.lines().next().unwrap();
    assert!(
        line.contains("-> 0xFFFFFF90; illegal instruction (exception 0xFF90); eipc 0xFFFFFFF0"),
        "{line}"
    );
}

#[test]
fn a_run_stops_where_it_was_asked_to() {
    let folder = with_program("follow-stops");
    for (stop, answer, count) in [
        ("--until 0x0700000A", "reached: the next instruction is at 0x0700000A, as asked", 3),
        ("--break 0x07000004", "reached: the next instruction is at 0x07000004, as asked", 1),
        ("--break 0x07000000", "reached: the next instruction is at 0x07000000, as asked", 0),
        // the second byte of the halfword, by a mirror of WRAM
        ("--watch 0x0501_0013", "watched: 0x05000013 was written, as asked", 3),
        ("--watch 0x05000000..0x05000012", "watched: 0x05000012 was written, as asked", 3),
        ("--watch 0x05000014..0x0500001F", "halted: the processor is halted", 7),
        (
            "--until 0x07000000 --budget 2",
            "budget: the budget is used up; the machine could go on",
            2,
        ),
    ] {
        let ran = folder.vbmodel(&format!("run --rom a.rom --pc 0x0700_0000 {stop}"));
        assert_eq!(ran.status, 0, "{stop}: {}", ran.error);
        assert!(
            ran.text.starts_with(&format!("answer:       {answer}\ninstructions: {count} of")),
            "{}",
            ran.text
        );
    }
    let json = folder.vbmodel("run --rom a.rom --pc 0x0700_0000 --watch 0x05000012 --json");
    assert!(json.text.starts_with("{\"answer\": \"watched\", \"count\": 3, "), "{}", json.text);
    folder.refused(
        "run --rom a.rom --watch 0x0500FFFF..0x05010000",
        "vbmodel: 0x0500FFFF..0x05010000 does not lie in one memory: it goes from WRAM 0x0FFFF to WRAM 0x00000",
    );
}

#[test]
fn followed_and_run_machines_end_alike() {
    let folder = Folder::with_demo("follow-alike");
    let run = "run --rom out/rom.bin --budget 100_000";
    let fast = folder.vbmodel(&format!("{run} --save-vram a.vram --save-processor a.processor"));
    let slow = folder.vbmodel(&format!(
        "{run} --until 0x0000_0002 --save-vram b.vram --save-processor b.processor"
    ));
    assert_eq!((fast.status, slow.status), (0, 0));
    assert!(folder.read("a.vram") == folder.read("b.vram"));
    assert!(folder.read("a.processor") == folder.read("b.processor"));
}

#[test]
fn registers_memory_and_rom_are_changed_before_the_run() {
    let folder = with_program("follow-changes");
    folder.write("words", &[1, 2, 3, 4]);
    let ran = folder.vbmodel(
        "run --rom a.rom --pc 0x0700000A --set r2=0x0500_0000 --set R7=-2 --set bkcol=3 --load 0x05000010=words --budget 1",
    );
    assert_eq!(ran.status, 0, "{}", ran.error);
    assert!(
        ran.text.starts_with("note:         words, 4 bytes, was loaded at 0x05000010\nanswer: "),
        "{}",
        ran.text
    );
    for part in ["r4    0x04030201", "r7    0xFFFFFFFE"] {
        assert!(ran.text.contains(part), "{part}: {}", ran.text);
    }
    // a program loaded into ROM
    folder.write("halt", &0x6800u16.to_le_bytes());
    let ran = folder.vbmodel("run --rom a.rom --load 0xFFFFFFF0=halt");
    assert!(ran.text.contains("answer:       halted"), "{}", ran.text);
    for (arguments, message) in [
        ("--set r32=1", "`r32` is not a register; the registers are r0 to r31, pc, eipc, eipsw, fepc, fepsw, ecr, psw, sr25, sr29, sr31, spt0 to 3, gplt0 to 3, jplt0 to 3, bkcol, lines, count, reload and control"),
        ("--set spt0=0x10000", "spt0=0x10000: it must be at most 0xFFFF"),
        ("--set spt0=0x400", "refusal 5: SPT0 is 0x00000400; it must be at most 0x3FF (10 bits)"),
        ("--pc 1", "refusal 5: PC is 0x00000001; it must be even"),
        ("--load 0x01000000=words", "words (4 bytes): byte 0 would lie at 0x01000000, which is not memory; it must be VRAM, WRAM, pak RAM or ROM"),
        ("--load 0x05000000=none", "none: No such file or directory; it must be bytes to load"),
    ] {
        folder.refused(&format!("run --rom a.rom {arguments}"), &format!("vbmodel: {message}"));
    }
    for wrong in ["--set r1", "--set r1=x", "--load 5", "--watch 2..1"] {
        assert_eq!(folder.vbmodel(&format!("run --rom a.rom {wrong}")).status, 2, "{wrong}");
    }
}

#[test]
fn a_rom_is_padded_where_that_is_asked_for_and_said() {
    let folder = with_program("follow-pad");
    folder.refused(
        "run --rom short.rom",
        "vbmodel: short.rom (24 bytes): refusal 1: ROM has 24 bytes; its length must be a power of two from 1,024 to 16,777,216",
    );
    let ran = folder.vbmodel("run --rom short.rom --pad --pc 0x0700_0000");
    let note = "note:         the ROM of 24 bytes was padded to 1,024, with 1,000 zeros after it\nanswer:       halted";
    assert_eq!(ran.status, 0, "{}", ran.error);
    assert!(ran.text.starts_with(note), "{}", ran.text);
    let ran = folder.vbmodel("run --rom short.rom --pad=front --pc 0xFFFF_FFE8 --json");
    let value: Value = serde_json::from_str(&ran.text).unwrap();
    assert_eq!(
        value["notes"][0],
        "the ROM of 24 bytes was padded to 1,024, with 1,000 zeros before it"
    );
    assert_eq!(value["answer"], "halted");
    assert!(!folder.vbmodel("run --rom a.rom --pad --budget 1").text.contains("note:"));
}

#[test]
fn a_long_trace_ends_with_its_reader() {
    let folder = Folder::with_demo("follow-pipe");
    let ran = folder.shell("\"$VB\" step --rom out/rom.bin --count 0xFFFF_FFFF_FFFF | head -n 3");
    assert_eq!((ran.status, ran.text.lines().count(), ran.error.as_str()), (0, 3, ""));
    let full = folder.shell("\"$VB\" step --rom out/rom.bin >/dev/full");
    assert_eq!(full.status, 2);
    assert_eq!(full.error, "vbmodel: standard output: No space left on device (os error 28)\n");
}
