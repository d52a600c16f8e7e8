//! Memories as evidence: what a part holds when a test has ended must be what the model holds.

mod common;

use std::fs;

use common::Folder;
use serde_json::Value;
use vbmodel::judge::case::{judge, Held};
use vbmodel::judge::Verdict;
use vbmodel::plan::{expected, Plan};

/// MOV 5, r2; MOVHI 0x0500, r0, r1; ST.B r2, 16[r1]; HALT
const CODE: [u16; 6] = [0x4045, 0xBC20, 0x0500, 0xD041, 0x0010, 0x6800];
const PLAN: &str = "name = 'm'\n[[test]]\nname = 'a'\nrom = 'a.rom'\npak = 'a.pak'\nframes = []\ntrace = 'whole'\n\
                    memory = ['wram', 'vram', 'pak', '0x05000010+0x4']\nbin = 7\n";
const JUDGE: &str = "judge --plan plan.toml parts";

/// A folder with a plan that asks for every kind of memory, and a part that passes.
fn with_part(name: &str) -> Folder {
    let folder = Folder::with_rom(name, &CODE, &[]);
    folder.write("a.pak", &[9; 1024]);
    folder.write("plan.toml", PLAN.as_bytes());
    let ran = folder.vbmodel("expect --plan plan.toml --out parts/die");
    assert_eq!(ran.status, 0, "{}", ran.error);
    let line = "a: 4 instructions, 0 frames, 4 records, wram, vram, pak, 0x05000010+0x4\nwritten: ";
    assert!(ran.text.starts_with(line), "{}", ran.text);
    folder
}

/// The first line of a judged lot, which gives this status.
fn first_line(folder: &Folder, status: i32) -> String {
    let ran = folder.vbmodel(JUDGE);
    assert_eq!(ran.status, status, "{}{}", ran.text, ran.error);
    ran.text.lines().next().unwrap_or_default().to_string()
}

/// A memory of the part with this byte at an offset.
fn change(folder: &Folder, file: &str, offset: usize, byte: u8) {
    let mut bytes = folder.read(&format!("parts/die/{file}"));
    bytes[offset] = byte;
    folder.write(&format!("parts/die/{file}"), &bytes);
}

#[test]
fn memories_that_expect_writes_pass_and_are_the_models() {
    let folder = with_part("memories-expect");
    first_line(&folder, 0);
    let run = "run --rom a.rom --pak a.pak --save-wram w --save-vram v --save-pak p";
    assert_eq!(folder.vbmodel(run).status, 0);
    for (saved, file) in [("w", "a.wram"), ("v", "a.vram"), ("p", "a.pak")] {
        assert!(folder.read(saved) == folder.read(&format!("parts/die/{file}")), "{file}");
    }
    assert_eq!(folder.read("parts/die/a.05000010+4.bin"), [5, 0, 0, 0]);
}

#[test]
fn a_memory_that_differs_names_the_byte_and_the_last_instruction_that_wrote_it() {
    let folder = with_part("memories-differ");
    change(&folder, "a.wram", 16, 4);
    change(&folder, "a.wram", 0xFFFF, 1);
    let line = "fail     die: a: memory wram: from 0x05000010 on 2 bytes differ, to 0x0500FFFF; expected 0x05, seen 0x04 \
                there; last written by 0xFFFFFFF6 ST.B r2, 16[r1]";
    assert_eq!(first_line(&folder, 1), line);
    let forms = "--report r.json --html r.html --junit r.xml --csv r.csv --stdf r.stdf";
    assert_eq!(folder.vbmodel(&format!("{JUDGE} {forms}")).status, 1);
    let report = String::from_utf8(folder.read("r.json")).unwrap();
    let part: Value = serde_json::from_str(report.lines().nth(1).unwrap()).unwrap();
    let found = &part["tests"][0]["memories"][0];
    assert_eq!((&found["address"], &found["different"]), (&0x0500_0010.into(), &2.into()));
    assert_eq!(found["written_by"]["instruction"]["text"], "ST.B r2, 16[r1]");
    for form in ["r.html", "r.xml", "r.csv", "r.stdf"] {
        let text = String::from_utf8_lossy(&folder.read(form)).into_owned();
        assert!(text.contains("memory wram: from 0x05000010 on 2 bytes differ"), "{form}: {text}");
    }
    assert_eq!(folder.vbmodel("verify r.json").status, 0);
}

#[test]
fn a_byte_that_the_model_never_writes_is_said_to_be_one() {
    let folder = with_part("memories-unwritten");
    change(&folder, "a.pak", 3, 0);
    let line = "fail     die: a: memory pak: from 0x06000003 on 1 byte differs; expected 0x09, seen 0x00 there; the \
                model's run never writes it";
    assert_eq!(first_line(&folder, 1), line);
}

#[test]
fn a_byte_of_a_frame_buffer_is_written_by_the_drawing() {
    let folder = with_part("memories-drawn");
    let plan = PLAN
        .replace("frames = []", "frames = ['halt']")
        .replace("'wram', 'vram', 'pak', '0x05000010+0x4'", "'vram'");
    folder.write("plan.toml", plan.as_bytes());
    fs::remove_dir_all(folder.path("parts")).unwrap();
    assert_eq!(folder.vbmodel("expect --plan plan.toml --out parts/die").status, 0);
    for scene in ["vram", "drawing"] {
        fs::remove_file(folder.path(&format!("parts/die/a.frame0.{scene}"))).unwrap();
    }
    change(&folder, "a.vram", 64, 1);
    let line = first_line(&folder, 1);
    assert!(line.ends_with("; last written by the drawing of frame 0"), "{line}");
    // rows 224 to 255 are not drawn
    change(&folder, "a.vram", 64, 0);
    change(&folder, "a.vram", 63, 1);
    let line = first_line(&folder, 1);
    assert!(line.ends_with("; the model's run never writes it"), "{line}");
}

#[test]
fn a_memory_that_is_missing_short_or_long_is_invalid() {
    let folder = with_part("memories-length");
    let good = folder.read("parts/die/a.wram");
    for (bytes, length) in [(&good[..65_535], "65,535"), (&[&good[..], &[0]].concat(), "65,537")] {
        folder.write("parts/die/a.wram", bytes);
        let line =
            format!("invalid  die: a: parts/die/a.wram ({length} bytes): wram has 65,536 bytes");
        assert_eq!(first_line(&folder, 2), line);
    }
    folder.write("parts/die/a.wram", &good);
    fs::remove_file(folder.path("parts/die/a.05000010+4.bin")).unwrap();
    assert_eq!(first_line(&folder, 2), "invalid  die: a: no memory 0x05000010+0x4");
    folder.write("parts/die/a.05000010+4.BIN", &[5, 0, 0, 0]);
    assert!(first_line(&folder, 2).contains("the name differs only in case"), "");
}

/// The sum of the registers is the same where a die writes r3 in place of r2; what it stores is not.
#[test]
fn a_die_that_writes_another_register_passes_by_its_trace_and_fails_by_its_memory() {
    let folder = with_part("memories-register");
    change(&folder, "a.wram", 16, 0);
    let trace = PLAN.replace("memory = ['wram', 'vram', 'pak', '0x05000010+0x4']\n", "");
    folder.write("trace.toml", trace.as_bytes());
    let by_trace = folder.vbmodel("judge --plan trace.toml parts --allow-extra");
    assert_eq!(by_trace.status, 0, "{}", by_trace.text);
    first_line(&folder, 1);
}

#[test]
fn a_test_of_memory_alone_ends_with_its_program() {
    let folder = with_part("memories-alone");
    folder.write("plan.toml", PLAN.replace("trace = 'whole'\n", "").as_bytes());
    fs::remove_file(folder.path("parts/die/a.trace")).unwrap();
    first_line(&folder, 0);
    change(&folder, "a.05000010+4.bin", 0, 1);
    assert!(first_line(&folder, 1).contains("memory 0x05000010+0x4: from 0x05000010 on"), "");
}

/// A simulated die is judged by the rules of a part's files.
#[test]
fn what_a_simulated_part_holds_in_memory_is_judged_as_files_are() {
    let folder = with_part("memories-held");
    let plan = Plan::read(&folder.path("plan.toml")).unwrap();
    let test = &plan.tests[0];
    let model = expected(test).unwrap();
    let mut held = Held {
        frames: Vec::new(),
        trace: folder.read("parts/die/a.trace"),
        memories: model.memories.iter().map(|memory| memory.bytes.clone()).collect(),
    };
    assert_eq!(judge(test, &model, &mut held).verdict, Verdict::Pass);
    held.memories[0][16] = 4;
    held.trace[16 * 2 + 8] ^= 1;
    let judged = judge(test, &model, &mut held);
    assert_eq!(judged.verdict, Verdict::Fail);
    let trace = judged.trace.unwrap();
    assert_eq!((trace.record, trace.word, trace.later), (2, 2, 0));
    let memory = &judged.memories[0];
    assert_eq!((memory.address, memory.expected, memory.seen), (0x0500_0010, 5, 4));
    held.trace.truncate(16);
    held.memories.pop();
    let judged = judge(test, &model, &mut held);
    let problems =
        ["the trace: agrees for 1 records; 4 were asked for", "no memory 0x05000010+0x4"];
    assert_eq!(
        (judged.verdict, judged.problems),
        (Verdict::Invalid, problems.map(String::from).to_vec())
    );
}
