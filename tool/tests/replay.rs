//! `vbmodel trace` and `vbmodel replay`: a trace recorded, and compared with the model.

mod common;

use common::Folder;
use serde_json::Value;

const HALT: u16 = 0x6800;
const RETI: u16 = 0x6400;
const ADD_1_R1: u16 = 0x4421;
const BIT_STRING: u16 = 0x7C00;
const ILLEGAL: u16 = 0x6C00;
/// LDSR r0, PSW: leaves the reset's NP state.
const LET_IN: u16 = 0x7005;
/// BR to the instruction before.
const BACK: u16 = 0x8BFE;

fn with_rom(name: &str, code: &[u16]) -> Folder {
    Folder::with_rom(name, code, &[RETI])
}

fn words(bytes: &[u8]) -> Vec<u32> {
    bytes.chunks_exact(4).map(|word| u32::from_le_bytes(word.try_into().unwrap())).collect()
}

/// The status and the JSON of a replay over a.rom.
fn replay(folder: &Folder, arguments: &str) -> (i32, Value) {
    let ran = folder.vbmodel(&format!("replay --rom a.rom {arguments} --json"));
    let value = serde_json::from_str(&ran.text);
    (ran.status, value.unwrap_or_else(|_| panic!("{arguments}: {} {}", ran.text, ran.error)))
}

#[test]
fn a_trace_has_four_words_per_step() {
    let folder = with_rom("trace-words", &[LET_IN, ADD_1_R1, ADD_1_R1, HALT]);
    let ran = folder.vbmodel("trace --rom a.rom -o a.trace");
    assert_eq!((ran.status, ran.error.as_str()), (0, ""));
    assert!(ran.text.contains("answer:       halted: the processor is halted\n"), "{}", ran.text);
    assert!(ran.text.ends_with("written:      a.trace (4 records, 64 bytes)\n"), "{}", ran.text);
    let expected = [
        [0xFFFF_FFF0, 0xFFFF_FFF2, 0, 0],
        [0xFFFF_FFF2, 0xFFFF_FFF4, 0, 1],
        [0xFFFF_FFF4, 0xFFFF_FFF6, 0, 2],
        [0xFFFF_FFF6, 0xFFFF_FFF8, 0, 2],
    ];
    assert_eq!(words(&folder.read("a.trace")), expected.concat());
    let json: Value = serde_json::from_str(
        &folder.vbmodel("trace --rom a.rom -o b.trace --budget 2 --json").text,
    )
    .unwrap();
    assert_eq!(json["trace"], serde_json::json!({"file": "b.trace", "records": 2, "bytes": 32}));
    assert_eq!(folder.read("b.trace").len(), 32);
    // one that meets an instruction that is not modelled has an answer too
    let folder = with_rom("trace-six", &[LET_IN, BIT_STRING]);
    let ran = folder.vbmodel("trace --rom a.rom -o a.trace");
    assert_eq!(ran.status, 2);
    assert!(ran.text.starts_with("answer:       refused: refusal 6: "), "{}", ran.text);
    assert_eq!(folder.read("a.trace").len(), 16);
    let out =
        folder.shell("\"$VB\" trace --rom a.rom -o /dev/stdout --budget 1 | head -c 16 | wc -c");
    assert_eq!(out.text.trim(), "16");
}

#[test]
fn the_first_record_that_differs_is_reported() {
    let folder = with_rom("replay-differs", &[LET_IN, ADD_1_R1, BACK]);
    assert_eq!(folder.vbmodel("trace --rom a.rom --budget 1_000 -o a.trace").status, 0);
    let ran = folder.vbmodel("replay --rom a.rom --partial a.trace");
    assert_eq!(ran.status, 0, "{}", ran.error);
    assert!(ran.text.starts_with("verdict:      pass: all 1,000 records agree; the program goes on\nagreed:       1,000 records\nmode:         running\n"), "{}", ran.text);
    let whole = folder.read("a.trace");
    for (record, word) in [(0, 0), (1, 3), (500, 2), (999, 1)] {
        let mut trace = whole.clone();
        trace[16 * record + 4 * word] ^= 0x10;
        folder.write("b.trace", &trace);
        let (status, found) = replay(&folder, "b.trace --last 2");
        assert_eq!(status, 1);
        assert_eq!(
            (&found["verdict"], &found["reason"], &found["agreed"], &found["word"]),
            (&"fail".into(), &"different".into(), &record.into(), &word.into())
        );
        let expected = words(&whole)[4 * record + word];
        assert_eq!(
            (&found["expected"], &found["seen"]),
            (&expected.into(), &(expected ^ 0x10).into())
        );
        let name = ["LDSR r0, 5", "ADD 1, r1", "BR 0xFFFFFFF2"]
            [if record == 0 { 0 } else { 2 - record % 2 }];
        assert_eq!(found["instruction"]["instruction"], name, "record {record}");
        let before = found["before"].as_array().map_or(0, Vec::len);
        assert_eq!(before, record.min(2));
        // the differing step stays made
        assert_eq!(found["regs"][1], record.div_ceil(2), "record {record}");
    }
    let text = folder.vbmodel("replay --rom a.rom b.trace --last 1").text;
    for part in [
        "verdict:      fail: record 999 differs first in word 1, PC after\nagreed:       999 records\n",
        "word 1:       PC after: expected 0xFFFFFFF4, seen 0xFFFFFFE4\ninstruction:  0xFFFFFFF2  4421       ADD 1, r1 ",
        "\nbefore it:    r1 0x000001F3, psw 0x00000000 (none)\n",
        "\n  998         0xFFFFFFF4 0xFFFFFFF2 0x00000000 0x000001F3  BR 0xFFFFFFF2\n  expected    0xFFFFFFF2 0xFFFFFFF4 ",
        "\n  seen        0xFFFFFFF2 0xFFFFFFE4 ",
        "\nr0    0x00000000  r1    0x000001F4  ",
    ] {
        assert!(text.contains(part), "{part}\nnot in\n{text}");
    }
}

#[test]
fn what_the_model_does_is_reported_first() {
    for (name, code, psw, verdict, status) in [
        ("replay-halted", HALT, "0", "halted", 1),
        ("replay-fatal", ILLEGAL, "0x8000", "turned fatal", 1),
        ("replay-six", BIT_STRING, "0", "refused", 2),
    ] {
        let folder = with_rom(name, &[ADD_1_R1, code]);
        let set = format!("--set psw={psw}");
        folder.vbmodel(&format!("trace --rom a.rom {set} -o a.trace"));
        let agreed = folder.read("a.trace").len() / 16;
        for more in [[0; 16], [0xFF; 16]] {
            folder
                .write("b.trace", &[folder.read("a.trace"), more.to_vec(), more.to_vec()].concat());
            let (found, said) = replay(&folder, &format!("{set} b.trace"));
            assert_eq!(
                (found, &said["reason"], &said["agreed"]),
                (status, &verdict.into(), &agreed.into())
            );
            assert_eq!(said["regs"][1], 1);
            assert_eq!(said.get("word"), None);
        }
        let text = folder.vbmodel(&format!("replay --rom a.rom {set} b.trace")).text;
        assert!(text.contains("\ninstruction:  0xFFFFFFF"), "{text}");
    }
    let folder = with_rom("replay-was-fatal", &[ILLEGAL]);
    assert_eq!(folder.vbmodel("run --rom a.rom --save-processor p").status, 0);
    folder.write("a.trace", &[0; 16]);
    let (status, said) = replay(&folder, "--processor p a.trace");
    assert_eq!((status, &said["reason"], &said["agreed"]), (1, &"fatal".into(), &0.into()));
    // a fatal machine has no record
    folder.write("empty", &[]);
    let (status, said) = replay(&folder, "--processor p empty");
    assert_eq!((status, &said["verdict"], &said["agreed"]), (0, &"pass".into(), &0.into()));
}

#[test]
fn several_traces_with_a_schedule_are_one() {
    let folder = with_rom("replay-schedule", &[LET_IN, ADD_1_R1, HALT, BACK]);
    // the machine halts; each line wakes it, and its handler returns
    folder.write(
        "s",
        b"every 7 tick\nat 50 raise vip\nat 51 lower vip\nat 90 raise pad\nat 91 lower pad\n",
    );
    let timer = "--set control=1 --set count=3 --set reload=3";
    let ran = folder
        .vbmodel(&format!("trace --rom a.rom {timer} --schedule s -o a.trace --save-processor p"));
    assert_eq!(ran.status, 0, "{}", ran.error);
    let trace = folder.read("a.trace");
    assert!(words(&trace).chunks(4).any(|record| record[1] == 0xFFFF_FE40));
    let (status, said) =
        replay(&folder, &format!("{timer} --schedule s a.trace --save-processor q"));
    assert_eq!((status, &said["agreed"]), (0, &(trace.len() / 16).into()));
    assert!(folder.read("p") == folder.read("q"), "the machine that the trace leaves");
    // the same in three files, and without the schedule: the first acceptance is missed
    folder.write("1", &trace[..48]);
    folder.write("2", &[]);
    folder.write("3", &trace[48..]);
    assert_eq!(replay(&folder, &format!("{timer} --schedule s 1 2 3")).0, 0);
    let (status, said) = replay(&folder, &format!("{timer} 1 2 3"));
    assert_eq!((status, &said["reason"], &said["agreed"]), (1, &"halted".into(), &3.into()));
    // a piece alone is partial
    let alone = format!("{timer} --schedule s 1");
    let (status, said) = replay(&folder, &alone);
    assert_eq!(
        (status, &said["verdict"], &said["reason"]),
        (2, &"invalid".into(), &"short".into())
    );
    assert_eq!(replay(&folder, &format!("{alone} --partial")).0, 0);
    // an interrupt that the trace does not have
    folder.write("t", b"at 1 raise vip\n");
    let (status, said) = replay(&folder, "--schedule t a.trace");
    assert_eq!(
        (status, &said["agreed"], &said["instruction"]["interrupt"]),
        (1, &1.into(), &4.into())
    );
}

#[test]
fn a_number_of_records_is_at_least_one() {
    let folder = Folder::with_demo("replay-no-record");
    folder.write("empty", b"");
    let message = "vbmodel: --records: `0` asks for nothing; write 1 or more";
    folder.refused("replay --rom out/rom.bin empty --records 0", message);
}

#[test]
fn a_trace_that_ends_before_its_program_is_invalid() {
    let folder = with_rom("replay-short", &[LET_IN, ADD_1_R1, ADD_1_R1, HALT]);
    assert_eq!(folder.vbmodel("trace --rom a.rom -o a.trace").status, 0);
    let whole = folder.read("a.trace");
    assert_eq!(whole.len(), 4 * 16);
    for records in 0..=4 {
        folder.write("b.trace", &whole[..16 * records]);
        let (status, found) = replay(&folder, "b.trace");
        let expected = if records == 4 { (0, "pass", "whole") } else { (2, "invalid", "short") };
        let (verdict, reason) = (&found["verdict"], &found["reason"]);
        assert_eq!((status, verdict, reason), (expected.0, &expected.1.into(), &expected.2.into()));
        assert_eq!(found["agreed"], records);
        // so many are enough where so many were asked for, and an empty file is never enough
        let enough = |options: &str| replay(&folder, &format!("{options} b.trace")).0;
        assert_eq!(enough("--partial"), if records == 0 { 2 } else { 0 }, "{records}");
        if records > 0 {
            assert_eq!(enough(&format!("--records {records}")), 0, "{records}");
        }
        assert_eq!(enough(&format!("--records {}", records + 1)), 2, "{records}");
    }
    let text = folder.vbmodel("replay --rom a.rom --records 9 b.trace").text;
    let line =
        "verdict:      invalid: agrees for 4 records, to the program's end; 9 were asked for\n";
    assert!(text.starts_with(line), "{text}");
    folder.write("b.trace", &whole[..32]);
    let text = folder.vbmodel("replay --rom a.rom --records 9 b.trace").text;
    assert!(text.starts_with("verdict:      invalid: agrees for 2 records; 9 were asked for\n"));
    let text = folder.vbmodel("replay --rom a.rom b.trace").text;
    let line = "verdict:      invalid: agrees for 2 records, and ends before the program does; the whole program";
    assert!(text.starts_with(line), "{text}");
    // a program also ends where it turns fatal, and where an instruction is not modelled
    for (name, code) in [("replay-end-fatal", ILLEGAL), ("replay-end-six", BIT_STRING)] {
        let folder = with_rom(name, &[ADD_1_R1, code]);
        folder.vbmodel("trace --rom a.rom -o a.trace");
        assert_eq!(replay(&folder, "a.trace").0, 0, "{name}");
        folder.write("a.trace", &[]);
        assert_eq!(replay(&folder, "a.trace").0, 2, "{name}");
    }
    // a trace that ends at a HALT which an event ends is short
    let folder = with_rom("replay-end-woken", &[LET_IN, HALT, ADD_1_R1, HALT]);
    folder.write("s", b"at 2 raise vip\nat 3 lower vip\n");
    folder.vbmodel("trace --rom a.rom --schedule s -o a.trace");
    let whole = folder.read("a.trace");
    assert_eq!(replay(&folder, "--schedule s a.trace").0, 0);
    folder.write("a.trace", &whole[..32]);
    assert_eq!(replay(&folder, "--schedule s a.trace").0, 2);
    assert_eq!(replay(&folder, "a.trace").0, 0, "without events it ends there");
}

/// XOR r1, r1; MOV 5, r1; CMP r1, r1; BE +4; ADD 1, r2; HALT
const EXPLAINED: [u16; 7] = [LET_IN, 0x4025, 0x0C21, 0x8404, HALT, 0x4441, HALT];

#[test]
fn a_difference_is_explained_by_flags_operands_and_registers() {
    let folder = with_rom("replay-explains", &EXPLAINED);
    assert_eq!(folder.vbmodel("trace --rom a.rom -o a.trace").status, 0);
    let whole = folder.read("a.trace");
    let wrong = |record: usize, word: usize, change: u32, options: &str| {
        let mut trace = whole.clone();
        let at = 16 * record + 4 * word;
        let value = u32::from_le_bytes(trace[at..at + 4].try_into().unwrap()).wrapping_add(change);
        trace[at..at + 4].copy_from_slice(&value.to_le_bytes());
        folder.write("b.trace", &trace);
        let ran = folder.vbmodel(&format!("replay --rom a.rom b.trace {options}"));
        assert_eq!(ran.status, 1, "{}", ran.text);
        ran.text
    };
    // CMP r1, r1 sets Z; the die has CY for it
    let text = wrong(2, 2, 7, "");
    for line in [
        "\ninstruction:  0xFFFFFFF4  0C21       CMP r1, r1",
        "\nbefore it:    r1 0x00000005, psw 0x00000000 (none)\n",
        "\nflags:        expected Z; seen CY\n  Z           expected 1, seen 0\n  CY          expected 0, seen 1\n",
        "\n  0           0xFFFFFFF0 0xFFFFFFF2 0x00000000 0x00000000  LDSR r0, 5\n",
        "  MOV 5, r1\n  expected ",
    ] {
        assert!(text.contains(line), "{line}\nnot in\n{text}");
    }
    // MOV 5, r1: the sum is 0 where nothing was written, and 4 where bit 0 is lost
    let text = wrong(1, 3, 5u32.wrapping_neg(), "");
    let hint = "hint:         the sum is 0x5 less than expected\n\
                hint:         r1 alone would explain it: not written, it is still 0x00000000\n\
                hint:         or 0x00000005 was written to r2 in place of r1\n";
    assert!(!text.contains("written to r2"), "{text}");
    assert!(text.contains(hint.split("hint:         or").next().unwrap()), "{text}");
    let text = wrong(1, 3, 1u32.wrapping_neg(), "");
    let hint = "hint:         the sum is 0x1 less than expected, bit 0\n\
                hint:         r1 alone would explain it: 0x00000004 in place of 0x00000005\n";
    assert!(text.contains(hint), "{text}");
    let text = wrong(2, 3, 16, "");
    let hint = "hint:         no register is written here: one of r1 to r31 changed by that much\n";
    assert!(text.contains(hint), "{text}");
    // a branch that is not taken
    let text = wrong(3, 1, 2u32.wrapping_neg(), "");
    assert!(text.contains("hint:         PC is as if the branch was not taken\n"), "{text}");
}

#[test]
fn go_on_counts_the_later_differences_from_the_models_own_state() {
    let folder = with_rom("replay-go-on", &[LET_IN, ADD_1_R1, BACK]);
    folder.vbmodel("trace --rom a.rom --budget 1_000 -o a.trace");
    let mut trace = folder.read("a.trace");
    for (record, word) in [(10, 2), (20, 3), (21, 3), (500, 1)] {
        trace[16 * record + 4 * word] ^= 1;
    }
    folder.write("b.trace", &trace);
    let (status, found) = replay(&folder, "--partial --go-on b.trace");
    assert_eq!((status, &found["verdict"], &found["agreed"]), (1, &"fail".into(), &10.into()));
    let later =
        serde_json::json!({"compared": 989, "differ": 3, "by_word": [0, 1, 0, 2], "first": 20});
    assert_eq!(found["later"], later);
    assert_eq!(found["regs"][1], 500, "the model went on to the trace's end");
    let text = folder.vbmodel("replay --rom a.rom --partial --go-on b.trace").text;
    let line = "later:        3 of the 989 records after it differ (PC after 1, the registers' sum after 2)\n";
    assert!(text.contains(line), "{text}");
    // the last record alone differs: nothing comes after it
    let mut trace = folder.read("a.trace");
    trace[16 * 999 + 8] ^= 1;
    folder.write("b.trace", &trace);
    let (_, found) = replay(&folder, "--go-on b.trace");
    assert_eq!((&found["agreed"], &found["later"]["compared"]), (&999.into(), &0.into()));
    // without --go-on nothing is counted
    assert_eq!(replay(&folder, "b.trace").1.get("later"), None);
}

#[test]
fn a_long_trace_is_read_in_pieces() {
    let folder = with_rom("replay-long", &[LET_IN, ADD_1_R1, BACK]);
    assert_eq!(folder.vbmodel("trace --rom a.rom --budget 300_000 -o a.trace").status, 0);
    assert_eq!(replay(&folder, "--records 300_000 a.trace").1["agreed"], 300_000);
    let mut trace = folder.read("a.trace");
    let fed = folder.vbmodel_fed("replay --rom a.rom --partial - --json", &trace);
    assert_eq!(fed.status, 0, "{}", fed.error);
    for record in [65_535, 65_536, 131_072, 262_144, 299_999] {
        trace[16 * record + 12] ^= 1;
        let fed = folder.vbmodel_fed("replay --rom a.rom - --json --last 3", &trace);
        let found: Value = serde_json::from_str(&fed.text).unwrap();
        assert_eq!((fed.status, &found["agreed"], &found["word"]), (1, &record.into(), &3.into()));
        assert_eq!(found["before"].as_array().unwrap().len(), 3);
        assert_eq!(found["regs"][1], record.div_ceil(2));
        trace[16 * record + 12] ^= 1;
    }
    // from a saved state on
    assert_eq!(
        folder.vbmodel("run --rom a.rom --budget 100_000 --save-state half.state").status,
        0
    );
    folder.write("rest.trace", &trace[1_600_000..]);
    let (status, said) = replay(&folder, "--partial --state half.state rest.trace");
    assert_eq!((status, &said["agreed"]), (0, &200_000.into()));
    let again =
        folder.vbmodel("trace --rom a.rom --state half.state --budget 200_000 -o again.trace");
    assert_eq!(again.status, 0, "{}", again.error);
    assert!(folder.read("again.trace") == folder.read("rest.trace"));
}

#[test]
fn a_long_replay_on_a_terminal_shows_progress() {
    let folder = with_rom("replay-progress", &[LET_IN, ADD_1_R1, BACK]);
    assert_eq!(folder.vbmodel("trace --rom a.rom --budget 2_000_000 -o a.trace").status, 0);
    let many = ["a.trace"; 12].join(" ");
    // the trace again and again differs at once, so the machine starts again from reset: one file after the other is one trace
    let replay = "\"$VB\" replay --rom a.rom";
    let shown = folder.terminal(&format!("{replay} --partial a.trace; {replay} {many}"));
    let Some(text) = shown else { return };
    assert!(text.contains("all 2,000,000 records agree"), "{text}");
    assert!(text.contains("record 2,000,000 differs first in word 0, PC before"), "{text}");
}

#[test]
fn bad_traces_are_reported_and_nothing_is_written() {
    let folder = with_rom("replay-bad", &[LET_IN, ADD_1_R1, BACK]);
    assert_eq!(folder.vbmodel("trace --rom a.rom --budget 3 -o a.trace").status, 0);
    folder.write("odd.trace", &[0; 31]);
    std::fs::create_dir(folder.path("folder")).unwrap();
    for (arguments, message) in [
        ("replay --rom a.rom a.trace odd.trace", "odd.trace (31 bytes): refusal 14: the trace has 31 bytes; its length must be a multiple of 16, a record's"),
        ("replay --rom a.rom none", "none: No such file or directory; it must be a trace, 16 bytes per record"),
        ("replay --rom a.rom folder", "folder: is a folder; it must be a trace, 16 bytes per record"),
        ("replay --rom a.rom --set pc=1 odd.trace a.trace", "refusal 5: PC is 0x00000001; it must be even"),
        ("replay --rom a.rom --set pc=1 a.trace", "refusal 5: PC is 0x00000001; it must be even"),
        ("trace --rom a.rom --set pc=1 -o x", "refusal 5: PC is 0x00000001; it must be even"),
        ("trace --rom none -o x", "none: No such file or directory; it must be a ROM of a power of two from 1,024 to 16,777,216 bytes"),
        ("trace --rom a.rom -o folder", "folder: is a folder; nothing was written"),
        ("trace --rom a.rom -o a.rom/x", "a.rom/x: a.rom is a file, not a folder; nothing was written"),
        ("trace --rom a.rom -o new/x --save-processor folder", "folder: is a folder; nothing was written"),
    ] {
        folder.refused(&format!("{arguments} --save-processor p").replace("--save-processor folder --save-processor p", "--save-processor folder"), &format!("vbmodel: {message}"));
    }
    let fed = folder.vbmodel_fed("replay --rom a.rom - --save-processor p", &[0; 17]);
    assert_eq!(fed.status, 2);
    assert!(fed.error.contains("refusal 14"), "{}", fed.error);
    assert_eq!(folder.names(), ["a.rom", "a.trace", "folder/", "odd.trace"]);
    for command in ["trace", "replay"] {
        let help = folder.vbmodel(&format!("help {command}")).text;
        assert!(help.contains("Example: ") && help.contains("Exit status: 0"), "{help}");
    }
}
