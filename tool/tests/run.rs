//! `vbmodel run` as a new user tries it.

mod common;

use common::Folder;
use vb::grouped;

const ADD_1_R1: u16 = 0x4421;
const HALT: u16 = 0x6800;
const BRANCH_TO_ITSELF: u16 = 0x8A00;
const ILLEGAL: u16 = 0x6C00;
const BIT_STRING: u16 = 0x7C00;

fn with_rom(name: &str, code: &[u16]) -> Folder {
    Folder::with_rom(name, code, &[])
}

/// The processor record at reset, changed at words; then lines and timer.
fn record(changes: &[(usize, u32)]) -> Vec<u8> {
    let mut words = [0u32; 43];
    (words[32], words[37], words[38]) = (0xFFFF_FFF0, 0xFFF0, 0x8000);
    changes.iter().for_each(|&(word, value)| words[word] = value);
    let bytes = words.iter().flat_map(|word| word.to_le_bytes());
    bytes.chain([0; 8]).collect()
}

#[test]
fn it_prints_answer_count_pc_and_registers() {
    let folder = with_rom("run-prints", &[ADD_1_R1, ADD_1_R1, HALT]);
    let ran = folder.vbmodel("run --rom a.rom");
    assert_eq!((ran.status, ran.error.as_str()), (0, ""));
    for line in [
        "answer:       halted: the processor is halted",
        "instructions: 3 of at most 20,000,000",
        "mode:         halted",
        "pc    0xFFFFFFF6  eipc  0x00000000  eipsw 0x00000000  fepc  0x00000000",
        "r0    0x00000000  r1    0x00000002  r2    0x00000000  r3    0x00000000",
        "r28   0x00000000  r29   0x00000000  r30   0x00000000  r31   0x00000000",
    ] {
        assert!(ran.text.lines().any(|l| l == line), "{line}\nnot in\n{}", ran.text);
    }
    assert_eq!(folder.names(), ["a.rom"]);
}

#[test]
fn json_has_the_same() {
    let folder = with_rom("run-json", &[ADD_1_R1, BRANCH_TO_ITSELF]);
    let ran = folder.vbmodel("run --rom a.rom --budget 1_000_000 --json");
    assert_eq!(ran.status, 0);
    let start = r#"{"answer": "budget", "count": 1000000, "budget": 1000000, "mode": "running", "pc": 4294967282, "regs": [0, 1, 0, "#;
    assert!(ran.text.starts_with(start), "{}", ran.text);
    assert!(ran.text.contains(r#""system": {"eipc": 0, "#), "{}", ran.text);
    assert!(ran.text.ends_with("\"bkcol\": 0}, \"written\": []}\n"), "{}", ran.text);
}

#[test]
fn a_run_in_two_parts_is_one_run() {
    let folder = Folder::with_demo("run-parts");
    let save = |n: &str| {
        ["wram", "vram", "processor", "drawing"].map(|s| format!("--save-{s} {n}.{s}")).join(" ")
    };
    let load = ["wram", "vram", "processor", "drawing"].map(|s| format!("--{s} a.{s}")).join(" ");
    let one = folder.vbmodel(&format!("run --rom out/rom.bin --budget 1000 {}", save("a")));
    let two = folder.vbmodel(&format!("run --rom out/rom.bin --budget 2345 {load} {}", save("b")));
    let all = folder.vbmodel(&format!("run --rom out/rom.bin --budget 3345 {}", save("c")));
    assert_eq!((one.status, two.status, all.status), (0, 0, 0));
    assert!(one.text.contains("written:      a.wram\nwritten:      a.vram\n"), "{}", one.text);
    for kind in ["wram", "vram", "processor", "drawing"] {
        let (parts, whole) = (folder.read(&format!("b.{kind}")), folder.read(&format!("c.{kind}")));
        assert!(parts == whole, "{kind}");
        assert_eq!(
            whole.len(),
            [65_536, 262_144, 180, 26]
                [["wram", "vram", "processor", "drawing"].iter().position(|k| *k == kind).unwrap()]
        );
    }
}

#[test]
fn pak_ram_is_read_and_written() {
    // MOVHI 0x0600, r0, r2; LD.B 1[r2], r3; ADD 1, r3; ST.B r3, 2[r2]; HALT (over the address space's end)
    let code = [0xBC40, 0x0600, 0xC062, 1, 0x4461, 0xD062, 2, HALT];
    let folder = with_rom("run-pak", &code);
    folder.write("a.pak", &[7, 41, 0, 9]);
    let ran = folder.vbmodel("run --rom a.rom --pak a.pak --save-pak b.pak");
    assert_eq!(ran.status, 0, "{}", ran.error);
    assert_eq!(folder.read("b.pak"), [7, 41, 42, 9]);
}

#[test]
fn a_fatal_exception_says_which_it_was() {
    let folder = with_rom("run-fatal", &[ADD_1_R1, ILLEGAL]);
    let ran = folder.vbmodel("run --rom a.rom");
    assert_eq!(ran.status, 0);
    assert!(
        ran.text.starts_with(
            "answer:       fatal: illegal instruction (exception 0xFF90) at 0xFFFFFFF2 while NP was set\n\
             instructions: 1 of"
        ),
        "{}",
        ran.text
    );
}

#[test]
fn refusal_6_has_an_answer_and_status_2() {
    let folder = with_rom("run-six", &[ADD_1_R1, BIT_STRING]);
    let ran = folder.vbmodel("run --rom a.rom --save-processor b.processor");
    assert_eq!(ran.status, 2);
    let start =
        "answer:       refused: refusal 6: the instruction 0x7C00 (SCH0BSU) at 0xFFFFFFF2 is not modelled;";
    assert!(ran.text.starts_with(start), "{}", ran.text);
    assert!(ran.text.contains("\ninstructions: 1 of"), "{}", ran.text);
    assert_eq!(folder.read("b.processor"), record(&[(1, 1), (32, 0xFFFF_FFF2)]));
    let json = folder.vbmodel("run --rom a.rom --json");
    assert_eq!(json.status, 2);
    assert!(
        json.text.starts_with(
            r#"{"answer": "refused", "count": 1, "budget": 20000000, "refusal": 6, "error": "#
        ),
        "{}",
        json.text
    );
}

#[test]
fn each_refusal_names_the_file_its_length_and_the_rule() {
    let folder = with_rom("run-refused", &[HALT]);
    folder.write("512.rom", &[0; 512]);
    folder.write("short.wram", &[0; 65_535]);
    folder.write("long.vram", &[0; 262_145]);
    folder.write("three.pak", &[0; 3]);
    folder.write("odd.processor", &record(&[(32, 1)]));
    let mut drawing = [0; 26];
    drawing[9] = 1;
    folder.write("wide.drawing", &drawing);
    for (arguments, message) in [
        ("--rom 512.rom --wram short.wram", "512.rom (512 bytes): refusal 1: ROM has 512 bytes; its length must be a power of two from 1,024 to 16,777,216"),
        ("--rom a.rom --wram short.wram --vram long.vram", "short.wram (65,535 bytes): refusal 2: WRAM has 65,535 bytes; it must have 65,536"),
        ("--rom a.rom --vram long.vram --pak three.pak", "long.vram (262,145 bytes): refusal 3: VRAM has 262,145 bytes; it must have 262,144"),
        ("--rom a.rom --pak three.pak --processor odd.processor", "three.pak (3 bytes): refusal 4: pak RAM has 3 bytes; its length must be 0 or a power of two up to 16,777,216"),
        ("--rom a.rom --processor odd.processor", "odd.processor (180 bytes): refusal 5: PC is 0x00000001; it must be even"),
        ("--rom a.rom --drawing wide.drawing", "wide.drawing (26 bytes): refusal 5: GPLT0 is 0x00000100; it must be at most 0xFF (8 bits)"),
    ] {
        let all = format!("run {arguments} --save-wram b.wram --save-processor b.processor");
        folder.refused(&all, &format!("vbmodel: {message}"));
    }
    let json = folder.vbmodel("run --rom 512.rom --json");
    assert_eq!(json.status, 2);
    assert!(
        json.text.starts_with(r#"{"refusal": 1, "error": "512.rom (512 bytes): "#),
        "{}",
        json.text
    );
}

#[test]
fn bad_files_are_reported() {
    let folder = with_rom("run-bad", &[HALT]);
    folder.write("short.processor", &[0; 171]);
    folder.write("mode.processor", &record(&[(42, 3)]));
    folder.write("long.drawing", &[0; 27]);
    std::fs::create_dir(folder.path("folder")).unwrap();
    for (arguments, message) in [
        ("--rom none.rom", "none.rom: No such file or directory; it must be a ROM of a power of two from 1,024 to 16,777,216 bytes"),
        ("--rom folder", "folder: is a folder; it must be a ROM of a power of two from 1,024 to 16,777,216 bytes"),
        ("--rom /dev/zero", "/dev/zero: has over 67,108,864 bytes; it must be a ROM of a power of two from 1,024 to 16,777,216 bytes"),
        ("--rom a.rom --processor short.processor", "short.processor (171 bytes): the record has 171 bytes; it must have 180"),
        ("--rom a.rom --processor mode.processor", "mode.processor (180 bytes): the mode is 3; it must be 0 (running), 1 (halted) or 2 (fatal)"),
        ("--rom a.rom --drawing long.drawing", "long.drawing (27 bytes): the record has 27 bytes; it must have 26"),
        ("--rom a.rom --save-wram x --save-vram x", "x: named for two outputs"),
        ("--rom a.rom --save-wram x --save-vram folder", "folder: is a folder; nothing was written"),
        ("--rom a.rom --save-wram x --save-vram a.rom/y", "a.rom/y: a.rom is a file, not a folder; nothing was written"),
    ] {
        folder.refused(&format!("run {arguments}"), &format!("vbmodel: {message}"));
    }
}

/// A long run shows how far it is.
#[test]
fn a_long_run_on_a_terminal_shows_progress() {
    let folder = with_rom("run-progress", &[BRANCH_TO_ITSELF]);
    let line = |budget| format!("\"$VB\" run --rom a.rom --budget {budget}");
    let shown = folder.terminal_until(" million a second", line);
    let Some((budget, text)) = shown else { return };
    let all = grouped(budget);
    assert!(text.contains(&format!(" of at most {all} instructions, ")), "{text}");
    assert!(text.contains(&format!("instructions: {all} of at most {all}")), "{text}");
}

#[test]
fn usage_mistakes_have_status_2() {
    let folder = Folder::new("run-usage");
    for arguments in ["run", "run --rom a.rom --budget many", "fly", "draw --scale 0"] {
        let ran = folder.vbmodel(arguments);
        assert_eq!((ran.status, ran.error.lines().count()), (2, 1), "vbmodel {arguments}");
    }
    let alone = folder.vbmodel("");
    assert!(alone.status == 2 && alone.error.contains("Usage:"), "{}", alone.error);
}

#[test]
fn help_has_an_example_for_each_command() {
    let folder = Folder::new("help");
    let inner = ["state show", "state move", "state salvage"].map(str::to_string);
    let commands = folder.commands().into_iter().filter(|command| command != "state");
    for command in commands.chain(inner) {
        let help = folder.vbmodel(&format!("{command} --help"));
        assert_eq!(help.status, 0);
        let example = format!("\n  vbmodel {command} ");
        assert!(help.text.contains("Example: ") && help.text.contains(&example), "{}", help.text);
        assert!(help.text.contains("Exit status: 0"), "{}", help.text);
    }
}
