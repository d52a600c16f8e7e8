//! Saved states from the command line: `run --state` and `--state-form 1 --save-state`, `state show`, and a state in place of VRAM and
//! drawing record.

mod common;

use std::fs;

use common::Folder;
use serde_json::Value;
use vb::{state_bytes, Drawing, Machine, Processor, ReadMemories};

const NOT_STORED: &str = "request lines and timer are not stored: they come back at reset";

/// The state of the files that a run saved apart, written by the library.
fn by_library(folder: &Folder, name: &str, pak: &[u8]) -> Vec<u8> {
    let file = |kind: &str| folder.read(&format!("{name}.{kind}"));
    let processor = Processor::from_bytes(&file("processor")).unwrap();
    let drawing = Drawing::from_bytes(&file("drawing")).unwrap();
    let (rom, wram, vram) = (vec![0; 1024], file("wram"), file("vram"));
    let memories = ReadMemories { rom: &rom, wram: &wram, vram: &vram, pak };
    let mut output = vec![0; state_bytes(pak.len())];
    Machine { processor, drawing }.write_state(&memories, &mut output).unwrap();
    output
}

/// Options that save a machine apart.
fn apart(name: &str) -> String {
    ["wram", "vram", "processor", "drawing"].map(|k| format!("--save-{k} {name}.{k}")).join(" ")
}

/// A folder with the demo and `a.state`, the demo's machine after 300,000 instructions and with drawing registers.
fn with_state(name: &str) -> Folder {
    let folder = Folder::with_demo(name);
    let ran = folder.vbmodel(
        "run --rom out/rom.bin --budget 300_000 --set gplt0=0xE4 --set bkcol=3 --state-form 1 --save-state a.state",
    );
    assert_eq!((ran.status, ran.error.as_str()), (0, ""));
    folder
}

#[test]
fn state_run_goes_on_from_a_saved_state() {
    let folder = Folder::with_demo("state-run");
    folder.write("a.pak", &[7; 64]);
    for (pak, first, second) in
        [("", 1_000, 2_345), ("--pak a.pak", 5_000, 1), ("", 0, 777), ("", 321_778, 5)]
    {
        let rom = "run --rom out/rom.bin";
        let one = format!("{rom} {pak} --budget {first} --state-form 1 --save-state one.state");
        let two = format!(
            "{rom} --state one.state --budget {second} --state-form 1 --save-state two.state"
        );
        let all = format!(
            "{rom} {pak} --budget {} --state-form 1 --save-state all.state",
            first + second
        );
        let [one, two, all] = [one, two, all].map(|command| folder.vbmodel(&command));
        assert_eq!((one.status, two.status, all.status), (0, 0, 0), "{}", two.error);
        assert!(folder.read("two.state") == folder.read("all.state"), "{first} and {second}");
        let still = folder.read("one.state") == folder.read("all.state");
        assert_eq!(still, first == 321_778, "the demo halts after 321,778");
        let note = format!("note:         one.state is a saved state of form 1; {NOT_STORED}\n");
        assert!(two.text.starts_with(&note), "{}", two.text);
    }
    // the state may be standard input, and be changed first
    let ran = folder
        .vbmodel("run --rom out/rom.bin --state one.state --state-form 1 --save-state end.state");
    assert_eq!(ran.status, 0, "{}", ran.error);
    assert!(folder.read("end.state") == folder.read("all.state"));
    let fed = "step --rom out/rom.bin --state - --count 0 --set r1=0x1234 --save-processor p";
    let ran = folder.vbmodel_fed(fed, &folder.read("one.state"));
    assert_eq!(ran.status, 0, "{}", ran.error);
    assert_eq!(folder.read("p")[4..8], [0x34, 0x12, 0, 0]);
}

#[test]
fn state_files_are_what_the_library_writes() {
    let folder = Folder::with_demo("state-files");
    for (pak, length) in [(0, 327_920), (1, 327_931), (8_192, 336_122)] {
        let bytes: Vec<u8> = (0..pak).map(|n| n as u8).collect();
        folder.write("a.pak", &bytes);
        let run = format!(
            "run --rom out/rom.bin --pak a.pak --budget 9_999 --state-form 1 --save-state a.state {}",
            apart("a")
        );
        let ran = folder.vbmodel(&run);
        assert_eq!(ran.status, 0, "{}", ran.error);
        let last = format!("written:      a.drawing\nwritten:      a.state ({NOT_STORED})\n");
        assert!(ran.text.ends_with(&last), "{}", ran.text);
        let file = folder.read("a.state");
        assert_eq!(file.len(), length);
        assert!(file == by_library(&folder, "a", &bytes), "pak RAM of {pak}");
        // the five files of a state that is taken apart are the same again
        let again = format!("run --rom out/rom.bin --state a.state --budget 0 {}", apart("b"));
        let ran = folder.vbmodel(&format!("{again} --save-pak b.pak --json"));
        assert_eq!(ran.status, 0, "{}", ran.error);
        for kind in ["wram", "vram", "pak", "processor", "drawing"] {
            let [a, b] = ["a", "b"].map(|name| folder.read(&format!("{name}.{kind}")));
            assert!(a == b, "{kind}");
        }
    }
    let ran = folder
        .vbmodel("run --rom out/rom.bin --budget 1 --state-form 1 --save-state a.state --json");
    let value: Value = serde_json::from_str(&ran.text).unwrap();
    assert_eq!(value["written"], serde_json::json!(["a.state"]));
    assert_eq!(value["not_stored"], NOT_STORED);
    let help = folder.vbmodel("help run").text;
    assert!(help.contains("Form 2 holds request lines and timer and a sum of each body"), "{help}");
}

#[test]
fn state_show_says_what_it_holds() {
    let folder = with_state("state-show");
    let shown = folder.vbmodel("state show a.state");
    assert_eq!((shown.status, shown.error.as_str()), (0, ""));
    let value: Value =
        serde_json::from_str(&folder.vbmodel("state show a.state --json").text).unwrap();
    let file = folder.read("a.state");
    let word = |at: usize| u32::from_le_bytes(file[at..at + 4].try_into().unwrap());
    let (pc, psw) = (word(42 + 128), word(42 + 152));
    let text = format!(
        "a.state: a saved state of form 1, 327,920 bytes
bodies:       4
  kind 1  offset         42  length        172  processor record
  kind 2  offset        214  length         26  drawing record
  kind 3  offset        240  length     65,536  WRAM
  kind 4  offset     65,776  length    262,144  VRAM
mode:         running
pc    0x{pc:08X}  psw   0x{psw:08X}
"
    );
    assert!(shown.text.starts_with(&text), "{}", shown.text);
    assert!(shown.text.contains("\ngplt0 0x00E4  gplt1 0x"), "{}", shown.text);
    let end = format!("\nbkcol 0x0003\nnote:         {NOT_STORED}\n");
    assert!(shown.text.ends_with(&end), "{}", shown.text);
    assert_eq!(
        (&value["sound"], &value["form"], &value["count"]),
        (&true.into(), &1.into(), &4.into())
    );
    assert_eq!(
        value["bodies"][3],
        serde_json::json!({"kind": 4, "name": "VRAM", "offset": 65_776, "length": 262_144})
    );
    assert_eq!((&value["pc"], &value["psw"]), (&pc.into(), &psw.into()));
    assert_eq!((&value["mode"], &value["drawing"]["bkcol"]), (&"running".into(), &3.into()));
    shows_pak_ram(&folder);
}

fn shows_pak_ram(folder: &Folder) {
    folder.write("a.pak", &[1; 8_192]);
    let ran =
        folder.vbmodel("run --rom out/rom.bin --pak a.pak --state-form 1 --save-state b.state");
    assert_eq!(ran.status, 0, "{}", ran.error);
    let shown = folder.vbmodel_fed("state show -", &folder.read("b.state")).text;
    assert!(shown
        .starts_with("standard input: a saved state of form 1, 336,122 bytes\nbodies:       5\n"));
    assert!(shown.contains(
        "  kind 5  offset    327,930  length      8,192  pak RAM\nmode:         halted\n"
    ));
}

/// Changes of a state's bytes, the byte that is said, and the rest of the line.
type Broken = (&'static [(usize, u8)], usize, &'static str);

/// Where the records of a state without pak RAM are.
const P: usize = 42;
const D: usize = 214;

const BROKEN: [Broken; 19] = [
    (&[(0, 5)], 0, "byte 0 (the count of bodies) is 0x05; it must be 0x04"),
    (&[(2, 2)], 2, "byte 2 (the kind in entry 0, processor record) is 0x02; it must be 0x01"),
    (&[(15, 1)], 15, "byte 15 (the offset in entry 1, drawing record) is 0x01; it must be 0x00"),
    (&[(41, 1)], 41, "byte 41 (the length in entry 3, VRAM) is 0x01; it must be 0x00"),
    (
        &[(P, 1), (41, 1), (30, 9)],
        30,
        "byte 30 (the length in entry 2, WRAM) is 0x09; it must be 0x01",
    ),
    (&[(P + 3, 1)], P, "general register 0, at byte 42, is 0x1000000; it must be 0"),
    (
        &[(P + 128, 1), (P + 129, 0), (P + 130, 0), (P + 131, 7)],
        P + 128,
        "PC, at byte 170, is 0x7000001; it must be even",
    ),
    (&[(P + 132, 1)], P + 132, "EIPC, at byte 174, is 0x1; it must be even"),
    (&[(P + 137, 4)], P + 136, "EIPSW, at byte 178, is 0x400; it may have bits of 0x000FF3FF only"),
    (&[(P + 140, 3)], P + 140, "FEPC, at byte 182, is 0x3; it must be even"),
    (
        &[(P + 146, 16)],
        P + 144,
        "FEPSW, at byte 186, is 0x100000; it may have bits of 0x000FF3FF only",
    ),
    (
        &[(P + 152, 0), (P + 153, 8), (P + 154, 0)],
        P + 152,
        "PSW, at byte 194, is 0x800; it may have bits of 0x000FF3FF only",
    ),
    (&[(P + 156, 1)], P + 156, "system register 25, at byte 198, is 0x1; it must be even"),
    (
        &[(P + 164, 1), (P + 167, 0x80)],
        P + 164,
        "system register 31, at byte 206, is 0x80000001; it must be at most 0x80000000",
    ),
    (
        &[(P + 168, 3)],
        P + 168,
        "the mode, at byte 210, is 0x3; it must be 0 (running), 1 (halted) or 2 (fatal)",
    ),
    (&[(D + 4, 0), (D + 5, 4)], D + 4, "SPT2, at byte 218, is 0x400; it must be at most 0x3FF"),
    (&[(D + 14, 0), (D + 15, 1)], D + 14, "GPLT3, at byte 228, is 0x100; it must be at most 0xFF"),
    (&[(D + 16, 0), (D + 17, 1)], D + 16, "JPLT0, at byte 230, is 0x100; it must be at most 0xFF"),
    (&[(D + 24, 4)], D + 24, "BKCOL, at byte 238, is 0x4; it must be at most 0x3"),
];

#[test]
fn state_show_says_the_rule_and_the_byte() {
    let folder = with_state("state-rules");
    let sound = folder.read("a.state");
    for (changes, byte, said) in BROKEN {
        let mut file = sound.clone();
        changes.iter().for_each(|&(at, value)| file[at] = value);
        folder.write("b.state", &file);
        let message = format!("b.state (327,920 bytes): refusal 10: {said}");
        folder.refused("state show b.state", &format!("vbmodel: {message}"));
        // every command says the same
        for command in [
            "run --rom out/rom.bin --state-form 1 --save-state c.state",
            "step --rom out/rom.bin",
            "draw --out drawn",
            "why left 0 0",
            "compare --eyes left --left out/frame0-left.png --out compared",
        ] {
            folder.refused(&format!("{command} --state b.state"), &format!("vbmodel: {message}"));
        }
        let json = folder.vbmodel("state show b.state --json");
        let value: Value = serde_json::from_str(&json.text).unwrap();
        assert_eq!((json.status, &value["sound"]), (2, &false.into()));
        assert_eq!((&value["refusal"], &value["error"]), (&10.into(), &message.into()));
        assert_eq!(value["byte"], byte, "{said}");
        let contents = byte < 42;
        assert_eq!(value["rule"], if contents { "contents" } else { "register" });
        assert_eq!(
            (value["expected"].is_u64(), value["register"].is_string()),
            (contents, !contents)
        );
    }
    the_other_side_is_sound(&folder, &sound);
}

/// The largest values that the registers may hold.
fn the_other_side_is_sound(folder: &Folder, sound: &[u8]) {
    for (at, value) in
        [(42 + 167, 0x80), (42 + 168, 2), (214 + 1, 3), (214 + 24, 3), (42 + 148, 0xFF)]
    {
        let mut file = sound.to_vec();
        file[at] = value;
        folder.write("b.state", &file);
        assert_eq!(folder.vbmodel("state show b.state").status, 0, "byte {at}");
    }
}

#[test]
fn state_takes_the_place_of_vram_and_drawing() {
    let folder = Folder::with_demo("state-scene");
    let files = ["wram", "vram", "processor", "drawing"].map(|k| format!("--{k} out/{k}.bin"));
    let run = format!(
        "run --rom out/rom.bin --budget 0 {} --state-form 1 --save-state a.state",
        files.join(" ")
    );
    assert_eq!(folder.vbmodel(&run).status, 0);
    let scene = "--vram out/vram.bin --drawing out/drawing.bin";
    for (command, status) in [
        ("why left 192 120 SCENE", 0),
        ("compare SCENE --frame 1 --left out/frame1-left.png --right out/frame1-right.png", 0),
        ("compare SCENE --frame 1 --eyes left --left out/frame0-left.png --why", 1),
        ("draw SCENE --frame 1 --out drawn --save-vram drawn/vram", 0),
    ] {
        let by_files = folder.vbmodel(&command.replace("SCENE", scene));
        let left = folder.path("drawn").exists().then(|| folder.read("drawn/vram"));
        let by_state = folder.vbmodel(&command.replace("SCENE", "--state a.state"));
        assert_eq!((by_files.status, by_files.error.as_str()), (status, ""), "{command}");
        assert_eq!((by_state.status, by_state.text), (status, by_files.text), "{command}");
        let right = folder.path("drawn").exists().then(|| folder.read("drawn/vram"));
        assert!(left == right, "{command}");
    }
    let as_is = folder.vbmodel("draw --state a.state --as-is --frame 1 --out shown");
    assert_eq!(as_is.status, 0, "{}", as_is.error);
    for other in ["--vram out/vram.bin", "--drawing out/drawing.bin"] {
        for command in
            ["draw", "why left 0 0", "compare --left out/frame0-left.png", "run --rom out/rom.bin"]
        {
            let both = folder.vbmodel(&format!("{command} --state a.state {other}"));
            assert!(both.status == 2 && both.error.contains("cannot be used with"), "{command}");
        }
    }
}

/// The whole line about a file that a command does not take.
fn refusal_of(bad: &str, given: &str) -> String {
    let lengths = "327,920 or 327,962 bytes without pak RAM, 327,930 or 327,976 and its length with it, which is a power \
                   of two up to 16,777,216";
    let form = "a saved state, form 1 or 2";
    match bad {
        "missing" => format!("vbmodel: missing: No such file or directory; it must be {form}"),
        "folder" => format!("vbmodel: folder: is a folder; it must be {form}"),
        _ => format!(
            "vbmodel: {bad} ({given} bytes): refusal 9: no saved state has this length; it must be {form}: {lengths}"
        ),
    }
}

#[test]
fn state_bad_files_are_refused() {
    let folder = with_state("state-bad");
    let sound = folder.read("a.state");
    fs::create_dir(folder.path("folder")).unwrap();
    folder.write("empty", b"");
    folder.write("short", &sound[..327_919]);
    folder.write("long", &[sound.as_slice(), &[0]].concat());
    folder.write("odd", &[sound.as_slice(), &[0; 13]].concat());
    folder.write("other", &folder.read("out/vram.bin"));
    for (bad, given) in [
        ("missing", ""),
        ("folder", ""),
        ("empty", "0"),
        ("short", "327,919"),
        ("long", "327,921"),
        ("odd", "327,933"),
        ("other", "262,144"),
    ] {
        for command in [
            "state show",
            "run --rom out/rom.bin --state-form 1 --save-state saved --save-vram also --state",
            "step --rom out/rom.bin --state-form 1 --save-state saved --state",
            "draw --out saved --state",
            "why left 0 0 --state",
            "compare --eyes left --left out/frame0-left.png --out saved --state",
        ] {
            folder.refused(&format!("{command} {bad}"), &refusal_of(bad, given));
        }
    }
}

#[test]
fn state_outputs_are_tested_first_and_written_all_or_none() {
    let folder = with_state("state-outputs");
    fs::create_dir(folder.path("folder")).unwrap();
    folder.refused(
        "run --rom out/rom.bin --budget 0xFFFF_FFFF_FFFF --save-vram saved --state-form 1 --save-state folder",
        "vbmodel: folder: is a folder; nothing was written",
    );
    folder.refused(
        "run --rom out/rom.bin --save-vram saved --state-form 1 --save-state ./saved",
        "vbmodel: ./saved: named for two outputs",
    );
    let full = folder
        .vbmodel("run --rom out/rom.bin --state-form 1 --save-state saved --save-vram /dev/full");
    assert_eq!((full.status, folder.path("saved").exists()), (2, false));
    assert!(!full.text.contains("not stored"), "{}", full.text);
    for one in ["wram", "vram", "pak", "processor", "drawing"] {
        let both = folder.vbmodel(&format!("run --rom out/rom.bin --state a.state --{one} short"));
        assert!(both.status == 2 && both.error.contains("cannot be used with"), "{}", both.error);
    }
}
