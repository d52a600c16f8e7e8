//! `asm` and `disasm`: a program to a ROM and back.

mod common;

use common::Folder;

const COUNT: &str = "\
    MOV 10, r1 ; ten times
again: ADD -1, r1
    BNZ again
    HALT
    .org 0x070003F0
    JR 0x07000000
    .org 0x07000400
";

#[test]
fn a_program_is_assembled_and_run() {
    let folder = Folder::new("assembler-run");
    folder.write("count.s", COUNT.as_bytes());
    let made = folder.vbmodel("asm count.s -o count.rom");
    assert_eq!(
        (made.status, made.text.as_str(), made.error.as_str()),
        (0, "count.rom: 1,024 bytes\n", "")
    );
    let rom = folder.read("count.rom");
    assert_eq!(rom[..8], [0x2A, 0x40, 0x3F, 0x44, 0xFE, 0x95, 0x00, 0x68]);
    let ran = folder.vbmodel("run --rom count.rom");
    assert_eq!(ran.status, 0, "{}", ran.error);
    assert!(ran.text.contains("answer:       halted"), "{}", ran.text);
    assert!(ran.text.contains("instructions: 23 of"), "{}", ran.text);
}

#[test]
fn the_help_has_an_example_that_runs() {
    let folder = Folder::with_demo("assembler-examples");
    for command in ["asm", "disasm", "trace", "replay"] {
        let help = folder.vbmodel(&format!("{command} --help")).text;
        let (_, after) = help.split_once("Example: ").unwrap();
        let (example, _) = after.split_once("\n\n").unwrap();
        for line in example.lines().skip(1) {
            let line = line.trim().replace("vbmodel ", "\"$VB\" ");
            let ran = folder.shell(&line);
            assert_eq!((ran.status, ran.error.as_str()), (0, ""), "{line}");
        }
    }
}

#[test]
fn what_is_disassembled_assembles_to_the_same_bytes() {
    let folder = Folder::with_demo("assembler-back");
    let rom = folder.read("out/rom.bin");
    // random bytes: data, unused bits, illegal and not modelled halfwords, and an instruction cut off at the end
    let mut seed = 0x2545_F491_4F6C_DD1Du64;
    let mut noise: Vec<u8> = (0..65_536)
        .map(|_| {
            seed ^= seed << 13;
            seed ^= seed >> 7;
            seed ^= seed << 17;
            (seed >> 24) as u8
        })
        .collect();
    noise[65_534..].copy_from_slice(&0xBC20u16.to_le_bytes());
    folder.write("noise.rom", &noise);
    for (name, bytes) in [("out/rom.bin", &rom), ("noise.rom", &noise)] {
        for (from, start) in [("0x07000000", 0), ("0xFFFFFFF0", 0xFFF0), ("0x07000802", 0x802)] {
            let text = folder.vbmodel(&format!("disasm {name} --from {from}"));
            assert_eq!((text.status, text.error.as_str()), (0, ""));
            folder.write("back.s", text.text.as_bytes());
            let made = folder.vbmodel("asm back.s -o back.rom");
            assert_eq!(made.status, 0, "{name} {from}: {}", made.error);
            assert!(folder.read("back.rom") == bytes[start..], "{name} {from}");
        }
    }
}

#[test]
fn a_disassembly_has_labels_and_marks_what_is_not_an_instruction() {
    let folder = Folder::new("assembler-text");
    let halves: [u16; 12] = [
        0x9A00, 0x95FE, 0x1BFF, 0x6C00, 0x7C0B, 0x7038, 0xE841, 0x0004, 0x9A02, 0xABFF, 0xFFEE,
        0xBC20,
    ];
    let bytes: Vec<u8> = halves.iter().flat_map(|half| half.to_le_bytes()).collect();
    folder.write("some.rom", &bytes);
    let said = folder.vbmodel("disasm some.rom");
    assert_eq!((said.status, said.error.as_str()), (0, ""));
    let lines: Vec<String> =
        said.text.lines().map(|l| l.split_whitespace().collect::<Vec<_>>().join(" ")).collect();
    assert_eq!(
        lines,
        [
            ".origin 0x07000000",
            "at_07000000:",
            "NOP ; 0x07000000 9A00",
            "BNE at_07000000 ; 0x07000002 95FE",
            ".half 0x1BFF ; 0x07000004 1BFF JMP [r31], unused bits set",
            ".half 0x6C00 ; 0x07000006 6C00 illegal",
            ".half 0x7C0B ; 0x07000008 7C0B MOVBSU, not modelled",
            ".half 0x7038 ; 0x0700000A 7038 LDSR r1, 24, not modelled",
            ".half 0xE841, 0x0004 ; 0x0700000C E841 0004 CAXI 4[r1], r2, not modelled",
            ".half 0x9A02 ; 0x07000010 9A02 NOP with an offset",
            "JR at_07000000 ; 0x07000012 ABFF FFEE",
            ".half 0xBC20 ; 0x07000016 BC20 cut off",
        ]
    );
    let json = folder.vbmodel("disasm some.rom --from 0x07000012 --count 1 --json");
    let rows: serde_json::Value = serde_json::from_str(&json.text).unwrap();
    assert_eq!(rows[0]["text"], "JR 0x07000000");
    assert_eq!(rows[0]["target"], 0x0700_0000);
    assert_eq!(rows[0]["halfwords"][1], 0xFFEE);
}

#[test]
fn bad_input_names_the_line_and_writes_nothing() {
    let folder = Folder::new("assembler-bad");
    for (text, message) in [
        ("NOP\nADD 16, r1\n", "bad.s: line 2: 16 is not within -16 to 15: ADD 16, r1"),
        ("LDSR r1, 24\n", "bad.s: line 1: system register 24 is not modelled: LDSR r1, 24"),
        ("BR 0x07000001\n", "bad.s: line 1: `0x07000001` is odd: BR 0x07000001"),
        ("NOP\n\nFLY r1\n", "bad.s: line 3: `FLY` with these operands is not known: FLY r1"),
        (".space 0x1000000\nNOP\n", "bad.s: line 2: the program has over 16,777,216 bytes: NOP"),
        ("; nothing\n", "bad.s: has no instruction and no data; nothing was written"),
    ] {
        folder.write("bad.s", text.as_bytes());
        let ran = folder.vbmodel("asm bad.s -o bad.rom");
        assert_eq!((ran.status, ran.text.as_str()), (2, ""), "{text}");
        assert_eq!(ran.error, format!("vbmodel: {message}\n"));
        assert_eq!(folder.names(), ["bad.s"], "{text}");
    }
    folder.write("bad.s", &[0x41, 0xFF]);
    assert_eq!(
        folder.vbmodel("asm bad.s -o bad.rom").error,
        "vbmodel: bad.s: is not a text file; it must be text in UTF-8\n"
    );
    folder.write("bad.s", b"NOP");
    let over = folder.vbmodel("asm bad.s -o bad.s");
    assert!(over.error.contains("is read by this command"), "{}", over.error);
    let short = folder.vbmodel("asm bad.s -o short.rom --json");
    let written: serde_json::Value = serde_json::from_str(&short.text).unwrap();
    assert_eq!((written["bytes"].as_u64(), written["accepted"].as_bool()), (Some(2), Some(false)));
    folder.write("odd.rom", &[0]);
    for (arguments, message) in [
        ("disasm odd.rom", "an image has whole halfwords"),
        ("disasm short.rom --from 0x05000000", "0x05000000 is not an even address of ROM"),
        ("disasm short.rom --from 0x07000001", "0x07000001 is not an even address of ROM"),
        ("disasm none.rom", "No such file or directory"),
    ] {
        let ran = folder.vbmodel(arguments);
        assert_eq!((ran.status, ran.text.as_str()), (2, ""), "{arguments}");
        assert!(ran.error.contains(message), "{}", ran.error);
    }
}

#[test]
fn a_constant_that_is_defined_by_itself_is_refused() {
    let folder = Folder::new("assembler-circle");
    folder.write("a.s", b".equ a, b\n.equ b, a\n.half 1\n");
    let ran = folder.vbmodel("asm a.s -o a.rom");
    assert_eq!((ran.status, ran.text.as_str()), (2, ""));
    let lines = "vbmodel: a.s: line 1: `a` is defined by itself: a, b, a: .equ a, b\n\
                 vbmodel: a.s: line 2: `b` is defined by itself: b, a, b: .equ b, a\n";
    assert_eq!(ran.error, lines);
    assert_eq!(folder.names(), ["a.s"]);
}

#[test]
fn every_mistake_of_a_file_is_reported_with_its_line() {
    let folder = Folder::new("assembler-mistakes");
    folder.write("a.s", b"FLY r1\nNOP\nADD 16, r1\n.byte 256\nBR nowhere\n");
    let ran = folder.vbmodel("asm a.s -o a.rom");
    let numbers: Vec<&str> =
        ran.error.lines().map(|line| line.split(": ").nth(2).unwrap()).collect();
    assert_eq!((ran.status, numbers), (2, vec!["line 1", "line 3", "line 4", "line 5"]));
    folder.write("a.s", "FLY\n".repeat(1_000).as_bytes());
    let ran = folder.vbmodel("asm a.s -o a.rom");
    assert_eq!(ran.error.lines().count(), 101);
    assert!(ran.error.ends_with("a.s: 900 more mistakes are left out\n"), "{}", ran.error);
}

#[test]
fn bytes_and_expressions_are_assembled() {
    let folder = Folder::new("assembler-expressions");
    let text = "rows: .byte 1, 2 * 3, (1 << 7) | 1, end - rows\n.equ size, 4 * 2 / 3\n.space size\nend: .half * - rows\n";
    folder.write("a.s", text.as_bytes());
    let ran = folder.vbmodel("asm a.s -o a.rom");
    assert_eq!((ran.status, ran.error.as_str()), (0, ""));
    assert_eq!(folder.read("a.rom"), [1, 6, 129, 6, 0, 0, 6, 0]);
}

#[test]
fn refusal_6_names_the_halfwords_and_the_mnemonic() {
    let folder = Folder::new("assembler-six");
    for (half, said) in [
        ("0xE841, 0x0004", "0xE841 0x0004 (CAXI)"),
        ("0x7C0B", "0x7C0B (MOVBSU)"),
        ("0x7038", "0x7038 (LDSR)"),
    ] {
        let text = format!("    .space 0x3F0\n    .half {half}\n    .org 0x07000400\n");
        folder.write("six.s", text.as_bytes());
        assert_eq!(folder.vbmodel("asm six.s -o six.rom").status, 0);
        let ran = folder.vbmodel("run --rom six.rom");
        assert_eq!(ran.status, 2);
        let expected = format!("refusal 6: the instruction {said} at 0xFFFFFFF0 is not modelled");
        assert!(ran.text.contains(&expected), "{}", ran.text);
    }
}
