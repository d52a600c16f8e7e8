//! Request lines and the timer from the command line: lines raised and lowered, and ticks, by hand or by a schedule.

mod common;

use std::fs;

use common::Folder;
use serde_json::Value;

const HALT: u16 = 0x6800;
const RETI: u16 = 0x6400;
const CLI: u16 = 0x5800;
const NOP: u16 = 0x9A00;
const ADD_1_R1: u16 = 0x4421;
const BIT_STRING: u16 = 0x7C00;
/// LDSR r0, PSW: interrupts are let in after reset.
const LET_IN: u16 = 0x7005;

fn json(folder: &Folder, arguments: &str) -> Value {
    let ran = folder.vbmodel(&format!("run --rom a.rom {arguments} --json"));
    assert_eq!(ran.status, 0, "{arguments}: {}", ran.error);
    serde_json::from_str(&ran.text).unwrap()
}

#[test]
fn a_raised_line_wakes_a_halted_machine() {
    let folder = Folder::with_rom("lines-wake", &[LET_IN, HALT, ADD_1_R1, HALT], &[ADD_1_R1, RETI]);
    let waits = folder.vbmodel("run --rom a.rom --save-processor p");
    assert!(waits.text.contains("\nlines   0x0000   count   0x0000   "), "{}", waits.text);
    assert_eq!(folder.read("p").len(), 180);
    for (level, name) in [("4", "vip"), ("vip", "vip"), ("0", "pad"), ("Timer", "timer")] {
        let ran =
            folder.vbmodel(&format!("run --rom a.rom --processor p --raise {level} --budget 2"));
        assert_eq!(ran.status, 0, "{}", ran.error);
        let note = format!("({name}) was raised\nanswer:       budget");
        assert!(ran.text.contains(&note), "{}", ran.text);
        assert!(ran.text.contains("r1    0x00000001"), "{}", ran.text);
        assert!(ran.text.contains("eipc  0xFFFFFFF4"), "the one after HALT: {}", ran.text);
    }
    // a line is kept in the record until it is lowered
    assert_eq!(
        folder
            .vbmodel("run --rom a.rom --processor p --raise 2 --budget 1 --save-processor q")
            .status,
        0
    );
    assert_eq!(folder.read("q")[172..], [4, 0, 0, 0, 0, 0, 0, 0]);
    let on = json(&folder, "--processor q --lower pak");
    assert_eq!(
        (&on["answer"], &on["count"], &on["regs"][1]),
        (&"halted".into(), &4.into(), &2.into())
    );
    assert_eq!(on["hardware"]["lines"], 0);
    // the first 172 bytes alone are a record with lines and timer at reset
    folder.write("short", &folder.read("q")[..172]);
    assert_eq!(json(&folder, "--processor short --budget 0")["hardware"]["lines"], 0);
}

#[test]
fn an_interrupt_comes_before_the_next_instruction_is_looked_at() {
    let folder = Folder::with_rom("lines-before", &[LET_IN, BIT_STRING], &[HALT]);
    assert_eq!(folder.vbmodel("run --rom a.rom").status, 2);
    let ran = json(&folder, "--raise 3");
    assert_eq!((&ran["answer"], &ran["count"]), (&"halted".into(), &3.into()));
    assert_eq!(ran["system"]["ecr"], 0xFE30);
    let stepped = folder.vbmodel("step --rom a.rom --raise link --count 2");
    assert_eq!(stepped.status, 0, "{}", stepped.error);
    let line = stepped.text.lines().nth(1).unwrap();
    let start = "0xFFFFFFF2             interrupt                 -> 0xFFFFFE30; communication interrupt (exception 0xFE30); ";
    assert!(line.starts_with(start), "{line}");
    let stepped = folder.vbmodel("step --rom a.rom --raise link --count 2 --json");
    let line: Value = serde_json::from_str(stepped.text.lines().nth(1).unwrap()).unwrap();
    assert_eq!((&line["interrupt"], &line["exception"]), (&3.into(), &0xFE30.into()));
    assert_eq!(line["halfwords"], serde_json::json!([]));
    // a masked line leaves the machine halted
    let folder = Folder::with_rom("lines-masked", &[HALT], &[NOP]);
    let ran = json(&folder, "--raise 4");
    assert_eq!(
        (&ran["answer"], &ran["count"], &ran["hardware"]["lines"]),
        (&"halted".into(), &1.into(), &16.into())
    );
    let stepped = folder.vbmodel("step --rom a.rom --raise 4");
    assert!(stepped.text.contains("answer:       halted"), "{}", stepped.text);
}

#[test]
fn ticks_count_the_timer_down() {
    let folder = Folder::with_rom("lines-ticks", &[LET_IN, HALT], &[HALT]);
    let timer = "--set count=3 --set reload=5 --set control=0x09";
    for (ticks, lines, count, control) in [(0, 0, 3, 9), (2, 0, 1, 9), (3, 2, 0, 11), (4, 2, 4, 11)]
    {
        let ran = json(&folder, &format!("{timer} --tick {ticks} --budget 0"));
        let found =
            ["lines", "count", "reload", "control"].map(|name| ran["hardware"][name].as_u64());
        assert_eq!(found, [lines, count, 5, control].map(Some), "{ticks} ticks");
    }
    let ran = folder.vbmodel(&format!("run --rom a.rom {timer} --tick 1_000"));
    assert!(ran.text.starts_with("note:         1,000 ticks reached the timer\n"), "{}", ran.text);
    assert!(ran.text.contains("ecr   0x0000FE10"), "{}", ran.text);
    // what a program reads of it
    let code = [0xBC40, 0x0200, 0xE062, 0x20, HALT];
    let folder = Folder::with_rom("lines-tcr", &code, &[HALT]);
    assert_eq!(json(&folder, "--set control=0x11")["regs"][3], 0xF5);
}

#[test]
fn a_schedule_raises_lowers_and_ticks() {
    let folder = Folder::with_rom("lines-schedule", &[LET_IN, ADD_1_R1, 0x8BFE], &[RETI]);
    let run = |schedule: &str, budget: u32| {
        folder.write("a.schedule", schedule.as_bytes());
        json(&folder, &format!("--schedule a.schedule --budget {budget}"))
    };
    // after 11 instructions the line comes, after 12 it is gone: one acceptance and one RETI among 100
    let ran = run("at 11 raise vip\nat 12 lower vip\n", 100);
    assert_eq!((&ran["count"], &ran["regs"][1]), (&100.into(), &49.into()));
    assert_eq!((&ran["system"]["ecr"], &ran["hardware"]["lines"]), (&0xFE40.into(), &0.into()));
    assert_eq!(run("", 100)["regs"][1], 50);
    assert_eq!(run("at 100 raise 4 # too late\n", 100)["system"]["ecr"], 0xFFF0);
    assert_eq!(run("at 0 raise 4\n", 2)["system"]["ecr"], 0xFE40);
    // ticks: a timer of 5 that is not let in
    folder.write("a.schedule", b"every 10 tick\n");
    let timer = "--set count=5 --set reload=5 --set control=0x01 --schedule a.schedule";
    let ran = json(&folder, &format!("{timer} --budget 35"));
    assert_eq!((&ran["hardware"]["count"], &ran["hardware"]["control"]), (&2.into(), &1.into()));
    // the same by stops, instruction by instruction
    let ran = json(&folder, &format!("{timer} --budget 35 --until 0"));
    assert_eq!(ran["hardware"]["count"], 2);
}

#[test]
fn a_halted_machine_waits_for_its_schedule() {
    // each interrupt adds 1 and halts again
    let folder = Folder::with_rom("lines-halted", &[LET_IN, HALT, ADD_1_R1, 0x8BFC], &[RETI]);
    folder.write("two", b"at 1_000_000 raise vip\nat 1_000_001 lower vip\nat 2_000_000 raise pad\nat 2_000_001 lower pad\n");
    let ran = json(&folder, "--schedule two");
    assert_eq!((&ran["answer"], &ran["regs"][1]), (&"halted".into(), &2.into()));
    // the timer wakes it every 5 ticks; its handler is a RETI, so the program takes the line back
    let code = [LET_IN, HALT, ADD_1_R1, 0x8BFC];
    let folder = Folder::with_rom("lines-timer", &code, &[0xD062, 0x20, RETI]);
    folder.write("ticks", b"every 100 tick\n");
    let timer =
        "--set count=5 --set reload=5 --set control=0x09 --set r2=0x0200_0000 --set r3=0x0D";
    let ran = json(&folder, &format!("{timer} --schedule ticks --budget 1_000"));
    assert_eq!((&ran["answer"], &ran["count"]), (&"budget".into(), &1_000.into()));
    assert!(ran["regs"][1].as_u64().unwrap() > 150, "{ran}");
    // one that nothing wakes ends
    let ran = json(&folder, "--schedule ticks");
    assert_eq!((&ran["answer"], &ran["count"]), (&"halted".into(), &2.into()));
}

/// A program that waits for the timer with its line let in; the handler adds 1 to r1 and halts.
fn that_waits(name: &str) -> Folder {
    Folder::with_rom(name, &[LET_IN, HALT], &[ADD_1_R1, HALT])
}

#[test]
fn an_event_that_does_nothing_does_not_hide_the_timers_interrupt() {
    let folder = that_waits("lines-idle");
    let timer = "--set count=60_000 --set reload=9 --set control=0x09";
    for others in ["", "every 100 lower pad\n", "every 1 lower timer\nevery 3 lower vip\n"] {
        folder.write("a.schedule", format!("{others}every 20_000 tick\n").as_bytes());
        let ran = json(&folder, &format!("{timer} --schedule a.schedule"));
        let found = (&ran["count"], &ran["regs"][1], &ran["system"]["ecr"]);
        assert_eq!(found, (&5.into(), &1.into(), &0xFE10.into()), "{others}");
    }
    // a line that is taken back when it comes wakes nothing
    folder.write("a.schedule", b"every 20_000 tick\nevery 100 lower timer\n");
    let ran = json(&folder, &format!("{timer} --schedule a.schedule"));
    assert_eq!((&ran["answer"], &ran["count"]), (&"halted".into(), &2.into()));
}

#[test]
fn a_die_that_never_wakes_fails_where_the_timer_wakes_the_model() {
    let folder = that_waits("lines-die");
    folder.write("a.schedule", b"every 100 lower pad\nevery 20_000 tick\n");
    let plan = "name = 'wake'\n[[test]]\nname = 'a'\nrom = 'a.rom'\nschedule = 'a.schedule'\nframes = []\n\
                trace = 'whole'\nset = ['count=60_000', 'control=9']\n";
    folder.write("plan.toml", plan.as_bytes());
    assert_eq!(folder.vbmodel("expect --plan plan.toml --out made").status, 0);
    let whole = folder.read("made/a.trace");
    assert_eq!(whole.len(), 16 * 5);
    fs::create_dir_all(folder.path("lot/good")).unwrap();
    fs::create_dir_all(folder.path("lot/asleep")).unwrap();
    folder.write("lot/good/a.trace", &whole);
    folder.write("lot/asleep/a.trace", &whole[..32]);
    let ran = folder.vbmodel("judge --plan plan.toml lot");
    assert_eq!(ran.status, 2, "{}", ran.text);
    let line = "invalid  asleep: a: lot/asleep/a.trace: agrees for 2 records; 5 were asked for\n";
    assert!(ran.text.contains(line) && ran.text.contains("2 parts: 1 pass"), "{}", ran.text);
}

#[test]
fn time_that_passes_while_halted_costs_nothing() {
    let folder = that_waits("lines-far");
    folder.write("a.schedule", b"every 1 tick\nat 9_999_999_999_999 raise vip\n");
    let timer = "--set count=7 --set reload=65_535 --set control=0x01";
    let ran = json(&folder, &format!("{timer} --schedule a.schedule"));
    assert_eq!((&ran["answer"], &ran["system"]["ecr"]), (&"halted".into(), &0xFE40.into()));
    // 9,999,999,999,999 ticks, and those of the handler's two instructions: the count was 0 after 7
    let ticks = 9_999_999_999_999u64 + 2 - 7;
    assert_eq!(ran["hardware"]["count"], 65_535 - ticks % 65_535);
    let ran =
        folder.vbmodel(&format!("trace --rom a.rom {timer} --schedule a.schedule -o a.trace"));
    assert_eq!((ran.status, folder.read("a.trace").len()), (0, 16 * 5));
    // one that nothing wakes any more ends, with lines and timer as they were at its HALT
    folder.write("b.schedule", b"every 1 tick\nevery 7 lower vip\nat 99 lower pad\n");
    let ran = json(&folder, &format!("{timer} --schedule b.schedule"));
    assert_eq!((&ran["answer"], &ran["count"]), (&"halted".into(), &2.into()));
    assert_eq!(ran["hardware"]["count"], 6);
}

#[test]
fn a_plan_that_is_stopped_by_a_signal_ends_with_130() {
    let folder = Folder::with_rom("lines-stopped", &[0x8A00], &[]);
    let plan = "name = 'long'\n[[test]]\nname = 'a'\nrom = 'a.rom'\nbudget = 0x7FFF_FFFF_FFFF\nframes = []\ntrace = 0x7FFF_FFFF_FFFF\n";
    folder.write("plan.toml", plan.as_bytes());
    folder.write("a.schedule", b"every 1 tick\n");
    fs::create_dir_all(folder.path("lot/a")).unwrap();
    for arguments in [
        "expect --plan plan.toml --out made",
        "judge --plan plan.toml lot",
        "run --rom a.rom --schedule a.schedule --budget 0x7FFF_FFFF_FFFF",
    ] {
        let child = std::process::Command::new("env")
            .args(["--default-signal", env!("CARGO_BIN_EXE_vbmodel")])
            .args(arguments.split_whitespace())
            .current_dir(folder.path("."))
            .stdout(std::process::Stdio::piped())
            .stderr(std::process::Stdio::piped())
            .spawn()
            .unwrap();
        common::interrupt(child.id());
        let output = child.wait_with_output().unwrap();
        assert_eq!(output.status.code(), Some(130), "{arguments}: {output:?}");
    }
}

#[test]
fn wrong_levels_and_schedules_are_reported_and_nothing_is_written() {
    let folder = Folder::with_rom("lines-wrong", &[CLI, HALT], &[RETI]);
    for option in ["--raise 5", "--lower all", "--raise 0x"] {
        let ran = folder.vbmodel(&format!("run --rom a.rom {option} --save-processor p"));
        assert_eq!(ran.status, 2, "{option}");
        assert!(
            ran.error.contains("is not a level; write 0 or pad, 1 or timer"),
            "{option}: {}",
            ran.error
        );
    }
    folder.write("bad.schedule", b"at 5 tick\nevery 0 tick\n");
    folder.write("binary.schedule", &[0xFF, 0x41]);
    for (arguments, message) in [
        ("--schedule bad.schedule", "bad.schedule (23 bytes): line 2: `every 0` is never; it must be `every 1` or more"),
        ("--schedule binary.schedule", "binary.schedule: is not a text file; it must be text in UTF-8"),
        ("--schedule none", "none: No such file or directory; it must be a schedule: lines of `at N EVENT` or `every K EVENT`"),
        ("--set lines=0x20", "refusal 5: lines is 0x00000020; it must be at most 0x1F (5 lines)"),
        ("--set control=4 --tick 1", "refusal 5: control is 0x00000004; it may have bits of 0x1B only"),
    ] {
        folder.refused(&format!("run --rom a.rom {arguments} --save-processor p"), &format!("vbmodel: {message}"));
    }
    let mut record = vec![0; 180];
    record[172] = 0x20;
    folder.write("lines.processor", &record);
    folder.refused(
        "run --rom a.rom --processor lines.processor",
        "vbmodel: lines.processor (180 bytes): refusal 5: lines is 0x00000020; it must be at most 0x1F (5 lines)",
    );
    let help = folder.vbmodel("help run").text;
    for part in [
        "--raise <LEVEL>",
        "--lower <LEVEL>",
        "--tick <N>",
        "--schedule <FILE>",
        "at 10_000 raise vip",
    ] {
        assert!(help.contains(part), "{part}");
    }
}
