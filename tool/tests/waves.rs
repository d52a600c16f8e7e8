//! `--vcd`: a program's steps as a Value Change Dump.

mod common;

use std::collections::HashMap;
use std::process::Command;

use common::Folder;

const LET_IN: u16 = 0x7005;
const ADD_1_R1: u16 = 0x4421;
const CMP_R1_R1: u16 = 0x0C21;
const HALT: u16 = 0x6800;

/// The values of every signal by name, at each time.
fn read(text: &str) -> Vec<HashMap<String, u32>> {
    let (head, body) = text.split_once("$enddefinitions $end\n").unwrap();
    let mut scope: Vec<&str> = Vec::new();
    let mut names: HashMap<&str, (String, u32)> = HashMap::new();
    for line in head.lines() {
        let words: Vec<&str> = line.split_whitespace().collect();
        match words[..] {
            ["$scope", "module", name, "$end"] => scope.push(name),
            ["$upscope", "$end"] => drop(scope.pop()),
            ["$var", "wire", width, id, name, "$end"] => {
                let name = [&scope[..], &[name]].concat().join(".");
                let width = width.parse().unwrap();
                assert!(names.insert(id, (name, width)).is_none(), "two signals are {id}");
            }
            _ => assert!(["$version", "$comment", "$timescale"].contains(&words[0]), "{line}"),
        }
    }
    assert!(scope.is_empty());
    let mut now: HashMap<String, u32> = HashMap::new();
    let mut all = Vec::new();
    for line in body.lines() {
        if let Some(time) = line.strip_prefix('#') {
            assert_eq!(time.parse::<usize>().unwrap(), all.len() + usize::from(!now.is_empty()));
            if !now.is_empty() {
                all.push(now.clone());
            }
        } else if let Some((value, id)) = line.strip_prefix('b').and_then(|l| l.split_once(' ')) {
            let (name, width) = &names[id];
            assert!(*width > 1 && value.len() <= *width as usize, "{line}");
            now.insert(name.clone(), u32::from_str_radix(value, 2).unwrap());
        } else if !["$dumpvars", "$end"].contains(&line) {
            let (name, width) = &names[&line[1..]];
            assert_eq!(*width, 1, "{line}");
            now.insert(name.clone(), line[..1].parse().unwrap());
        }
    }
    all.push(now);
    all
}

fn recorded(name: &str) -> Folder {
    let folder = Folder::with_rom(name, &[LET_IN, ADD_1_R1, CMP_R1_R1, ADD_1_R1, HALT], &[]);
    let ran = folder.vbmodel("trace --rom a.rom -o a.trace --vcd a.vcd");
    assert_eq!((ran.status, ran.error.as_str()), (0, ""));
    assert!(ran.text.ends_with("written:      a.vcd\n"), "{}", ran.text);
    folder
}

fn text(folder: &Folder, name: &str) -> String {
    String::from_utf8(folder.read(name)).unwrap()
}

#[test]
fn a_trace_as_waves_has_the_machine_after_each_step() {
    let folder = recorded("waves-trace");
    let waves = read(&text(&folder, "a.vcd"));
    let records: Vec<u32> = folder
        .read("a.trace")
        .chunks(4)
        .map(|word| u32::from_le_bytes(word.try_into().unwrap()))
        .collect();
    assert_eq!(
        waves.len(),
        1 + records.len() / 4,
        "the machine before the first step, and after each"
    );
    for (n, record) in records.chunks(4).enumerate() {
        assert_eq!(waves[n]["processor.pc"], record[0], "record {n}");
        let after = &waves[n + 1];
        assert_eq!(after["processor.pc"], record[1], "record {n}");
        assert_eq!(after["processor.psw.z"], record[2] & 1, "record {n}");
        assert_eq!(after["processor.psw.np"], record[2] >> 15 & 1, "record {n}");
        let sum: u32 = (1..32).map(|n| after[&format!("processor.r{n}")]).sum();
        assert_eq!(sum, record[3], "record {n}");
    }
    let modes: Vec<u32> = waves.iter().map(|wave| wave["processor.mode"]).collect();
    assert_eq!(modes, [0, 0, 0, 0, 0, 1]);
    assert_eq!(waves[0]["processor.psw.np"], 1, "a reset's");
    assert_eq!(
        waves.iter().map(|wave| wave["processor.psw.z"]).collect::<Vec<_>>(),
        [0, 0, 0, 1, 0, 0]
    );
}

#[test]
fn a_replay_as_waves_has_the_die_next_to_the_model() {
    let folder = recorded("waves-replay");
    let mut trace = folder.read("a.trace");
    trace[16 * 2 + 8] ^= 8;
    folder.write("b.trace", &trace);
    let ran = folder.vbmodel("replay --rom a.rom b.trace --go-on --vcd b.vcd");
    assert_eq!(ran.status, 1, "{}", ran.error);
    let waves = read(&text(&folder, "b.vcd"));
    let differs: Vec<u32> = waves[1..].iter().map(|wave| wave["die.differs"]).collect();
    assert_eq!(differs, [0, 0, 1, 0, 0]);
    assert_eq!(waves[3]["die.psw_after"], 9);
    assert_eq!(waves[3]["processor.psw.cy"], 0);
    // without --go-on the dump ends at the difference; the verdict is the same
    let json = |arguments: &str| -> serde_json::Value {
        serde_json::from_str(&folder.vbmodel(arguments).text).unwrap()
    };
    let with = json("replay --rom a.rom b.trace --vcd c.vcd --json");
    let without = json("replay --rom a.rom b.trace --json");
    assert_eq!(read(&text(&folder, "c.vcd")).len(), 4);
    for member in ["verdict", "agreed", "word", "expected", "seen", "regs", "before"] {
        assert_eq!(with[member], without[member], "{member}");
    }
    assert_eq!(folder.vbmodel("replay --rom a.rom a.trace --vcd d.vcd").status, 0);
    assert_eq!(read(&text(&folder, "d.vcd")).len(), 6);
}

#[test]
fn waves_are_not_written_over_an_input_nor_to_standard_output() {
    let folder = recorded("waves-outputs");
    let rule = "is read by this command, and would be written over; nothing was written";
    folder
        .refused("replay --rom a.rom a.trace --vcd a.trace", &format!("vbmodel: a.trace: {rule}"));
    folder.refused("trace --rom a.rom -o x --vcd a.rom", &format!("vbmodel: a.rom: {rule}"));
    folder.refused("trace --rom a.rom -o x --vcd ./x", "vbmodel: ./x: named for two outputs");
    let line =
        "vbmodel: -: cannot be standard output here; it must be a file (`./-` is one of that name)";
    folder.refused("trace --rom a.rom -o x --vcd -", line);
}

#[test]
#[ignore = "needs gtkwave"]
fn gtkwaves_own_reader_takes_the_waves() {
    let folder = recorded("waves-gtkwave");
    let run = |program: &str, arguments: [&str; 2]| {
        let ran =
            Command::new(program).args(arguments).current_dir(folder.path(".")).output().unwrap();
        assert!(ran.status.success(), "{program}: {}", String::from_utf8_lossy(&ran.stderr));
        String::from_utf8_lossy(&ran.stdout).into_owned()
    };
    run("vcd2fst", ["a.vcd", "a.fst"]);
    let back = run("fst2vcd", ["-f", "a.fst"]);
    let pcs = |text: &str, id: &str| -> Vec<u32> {
        let values =
            text.lines().filter_map(|line| line.strip_prefix('b')?.strip_suffix(&format!(" {id}")));
        values.map(|value| u32::from_str_radix(value, 2).unwrap()).collect()
    };
    let id = back.lines().find_map(|line| {
        let words: Vec<&str> = line.split_whitespace().collect();
        (words.first() == Some(&"$var") && words.contains(&"pc")).then(|| words[3].to_string())
    });
    let first = &text(&folder, "a.vcd");
    assert_eq!(pcs(&back, &id.unwrap()), pcs(first, "!"));
}
