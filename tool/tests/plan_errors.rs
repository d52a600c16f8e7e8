//! A plan that is wrong is refused whole, with its file, its line and what is allowed, before any part is read.

mod common;

use std::fs;

use common::Folder;

/// A folder with a program that halts, `a.rom`, and a lot of one empty part.
fn folder(name: &str) -> Folder {
    // MOV 1, r1; HALT
    let folder = Folder::with_rom(name, &[0x4021, 0x6800], &[]);
    fs::create_dir_all(folder.path("parts/die")).unwrap();
    folder
}

const JUDGE: &str = "judge --plan p.toml parts --html report.html";

#[test]
fn a_wrong_key_or_value_is_named_with_its_line_and_what_is_allowed() {
    let folder = folder("plan-keys");
    let head = "name = 'p'\n[[test]]\nname = 'a'\nrom = 'a.rom'\n";
    for (text, message) in [
        ("", "line 1: the plan has no `name`"),
        ("name = 'p'\n", "line 1: test is not given; it must be tables `[[test]]`, at least one"),
        ("name = 'p'\ntest = 3\n", "line 2: test is 3; it must be tables `[[test]]`, at least one"),
        ("name = ''\n", "line 1: name is \"\"; it must be a text that is not empty, in quotes"),
        ("name = 'p'\nbins = 3\n", "line 2: unknown key `bins`; the keys are name, pass_bin, invalid_bin, test"),
        ("name = 'p'\npas_bin = 3\n", "line 2: unknown key `pas_bin`; did you mean `pass_bin`?"),
        ("name = 'p'\npass_bin = 40_000\n", "line 2: pass_bin is 40000; it must be a whole number from 0 to 32,767"),
        ("name = 'p'\npass_bin = 0\n", "line 1: invalid_bin is 0, as is pass_bin; it must be another"),
        ("name = 'p'\npass_bin = 2\n[[test]]\nname = 'a'\nrom = 'a.rom'\n", "line 3: bin is 2, as is pass_bin; it must be another"),
        ("HEAD bin = 1\n", "line 5: bin is 1, as is pass_bin; it must be another"),
        ("name = 'p'\n[[test]]\nrom = 'a.rom'\n", "line 2: the test has no `name`"),
        ("name = 'p'\n[[test]]\nname = 'a.b'\n", "line 3: name is \"a.b\"; it must be letters, digits, `-` and `_`, as in a file's name"),
        ("name = 'p'\n[[test]]\nname = 'a'\n", "line 3: the test needs `rom`, or `state`, or `vram` and `drawing`"),
        ("name = 'p'\n[[test]]\nname = 'a'\nstate = 's'\nbudget = 5\n", "line 5: `budget` needs a program; the test has no `rom`"),
        ("name = 'p'\n[[test]]\nname = 'a'\nstate = 's'\nvram = 'v'\n", "line 5: `vram` and `state` are both given; a state holds it, give one of them"),
        ("name = 'p'\n[[test]]\nname = 'a'\nstate = 's'\ntrace = 'whole'\n", "line 5: trace needs a program; the test has no `rom`"),
        ("HEAD budgt = 5\n", "line 5: unknown key `budgt`; did you mean `budget`?"),
        ("HEAD budget = 'many'\n", "line 5: budget is \"many\"; it must be a whole number from 1 to 9,223,372,036,854,775,807"),
        ("HEAD budget = 0\n", "line 5: budget is 0; it must be a whole number from 1 to 9,223,372,036,854,775,807"),
        ("HEAD frames = ['halts']\n", "line 5: frames is [\"halts\"]; it must be a list of \"halt\" and of counts of instructions, each larger than the one before"),
        ("HEAD frames = [5, 5]\n", "line 5: frames is [5, 5]; it must be a list of \"halt\" and of counts of instructions, each larger than the one before"),
        ("HEAD frames = []\n", "line 5: the test asks for nothing: no frame and no trace"),
        ("HEAD memory = 'wram'\n", "line 5: memory is \"wram\"; it must be a list of \"wram\", \"vram\", \"pak\" and ranges such as \"0x05000000+0x400\", each once"),
        ("HEAD memory = ['wram', 'wram']\n", "line 5: memory is [\"wram\", \"wram\"]; it must be a list of \"wram\", \"vram\", \"pak\" and ranges such as \"0x05000000+0x400\", each once"),
        ("HEAD memory = ['rom']\n", "line 5: memory: `rom` is not a memory; it must be wram, vram, pak or ADDRESS+LENGTH"),
        ("HEAD memory = ['0x05000000+0']\n", "line 5: memory: `0x05000000+0` has no byte, or goes beyond 0xFFFFFFFF"),
        ("name = 'p'\n[[test]]\nname = 'a'\nstate = 's'\nmemory = ['vram']\n", "line 5: memory needs a program; the test has no `rom`"),
        ("HEAD memory = ['pak']\n", "line 3: test a: memory asks for `pak`; the test has no pak RAM"),
        ("HEAD memory = ['0x07000000+4']\n", "line 3: test a: memory asks for 0x07000000+0x4, which is ROM; it must lie in WRAM, VRAM or pak RAM"),
        ("HEAD memory = ['0x0500FFFF+2']\n", "line 3: test a: memory asks for 0x0500FFFF+0x2: 0x0500FFFF..0x05010000 does not lie in one memory: it goes from WRAM 0x0FFFF to WRAM 0x00000"),
        ("HEAD frames = [9]\nbudget = 8\n", "line 5: a frame is drawn after the budget of 8 instructions"),
        ("HEAD eyes = 'three'\n", "line 5: eyes is \"three\"; it must be \"both\", \"left\" or \"right\""),
        ("HEAD trace = 'all'\n", "line 5: trace is \"all\"; it must be \"none\", \"whole\" or a number of records, at least 1"),
        ("HEAD trace = 0\n", "line 5: trace is 0; it must be \"none\", \"whole\" or a number of records, at least 1"),
        ("HEAD threshold = 43\n", "line 5: threshold is 43; it must be a whole number from 0 to 42"),
        ("HEAD bin = -1\n", "line 5: bin is -1; it must be a whole number from 0 to 32,767"),
        ("HEAD pad = 'left'\n", "line 5: pad is \"left\"; it must be \"end\" or \"front\""),
        ("HEAD set = 'r1=5'\n", "line 5: set is \"r1=5\"; it must be a list of texts such as \"r1=0x10\""),
        ("HEAD set = ['r1']\n", "line 5: set: `r1` is not NAME=VALUE"),
        ("HEAD load = ['5']\n", "line 5: load: `5` is not ADDR=FILE"),
        ("HEAD \n[[test]]\nname = 'A'\nrom = 'a.rom'\n", "line 7: the name `A` is given to an earlier test"),
        ("name = \n", "line 1: not TOML: expected a value, found a newline"),
    ] {
        folder.write("p.toml", text.replace("HEAD ", head).as_bytes());
        folder.refused(JUDGE, &format!("vbmodel: p.toml: {message}"));
    }
}

#[test]
fn every_file_of_a_plan_may_be_missing_or_of_another_kind() {
    let folder = folder("plan-files");
    folder.write("empty", b"");
    folder.write("text", b"some text\n");
    fs::create_dir(folder.path("dir")).unwrap();
    for key in ["rom", "state", "wram", "vram", "pak", "processor", "drawing", "schedule"] {
        for bad in ["none", "empty", "text", "dir"] {
            // pak RAM and a schedule may be empty
            if bad == "empty" && ["pak", "schedule"].contains(&key) {
                continue;
            }
            let rom = if key == "rom" { "" } else { "rom = 'a.rom'\n" };
            let text = format!("name = 'p'\n[[test]]\nname = 'a'\n{rom}{key} = '{bad}'\n");
            folder.write("p.toml", text.as_bytes());
            let ran = folder.vbmodel(JUDGE);
            assert_eq!((ran.status, ran.text.as_str()), (2, ""), "{key} {bad}: {}", ran.error);
            assert_eq!(ran.error.lines().count(), 1, "{key} {bad}: {}", ran.error);
            let start = format!("vbmodel: p.toml: line 3: test a: {bad}");
            assert!(ran.error.starts_with(&start), "{key} {bad}: {}", ran.error);
        }
    }
    assert!(!folder.path("report.html").exists());
    for (plan, message) in [
        ("none", "none: No such file or directory; it must be a test plan, TOML with a table `[[test]]` for each test"),
        ("dir", "dir: is a folder; it must be a test plan, TOML with a table `[[test]]` for each test"),
        ("a.rom", "a.rom: line 1: not TOML: unexpected character found: `\\u{0}`"),
    ] {
        folder.refused(&format!("judge --plan {plan} parts"), &format!("vbmodel: {message}"));
    }
}

#[test]
fn a_program_that_does_not_come_to_its_frames_is_refused() {
    let folder = folder("plan-programs");
    let rom = |name: &str, code: &[u16]| {
        let other = Folder::with_rom(&format!("plan-programs-{name}"), code, &[]);
        fs::copy(other.path("a.rom"), folder.path(&format!("{name}.rom"))).unwrap();
    };
    // BR to itself; TRAP 0 at NP; the first instruction is not modelled (CAXI)
    rom("loop", &[0x8A00]);
    rom("caxi", &[0xE800, 0x0000]);
    rom("fatal", &[0x6000]);
    for (rom, more, part) in [
        ("loop", "budget = 1_000\n", "after 1,000 instructions its budget is used up; frame 0 of 1 would be drawn at a HALT"),
        ("a", "frames = ['halt', 'halt']\n", "after 2 instructions it halts, and nothing in the schedule wakes it; frame 1 of 2 would be drawn at a HALT"),
        ("a", "frames = [3]\n", "after 2 instructions it halts, and nothing in the schedule wakes it; frame 0 of 1 would be drawn after 3 instructions"),
        ("a", "trace = 3\n", "it halts, and nothing in the schedule wakes it after 2 records; the plan asks for 3"),
        ("caxi", "", "after 0 instructions: refusal 6: "),
        ("fatal", "", "it turns fatal; frame 0 of 1 would be drawn at a HALT"),
    ] {
        folder.write("p.toml", format!("name = 'p'\n[[test]]\nname = 'a'\nrom = '{rom}.rom'\n{more}").as_bytes());
        let ran = folder.vbmodel(JUDGE);
        assert_eq!((ran.status, ran.text.as_str()), (2, ""), "{rom}");
        let start = "vbmodel: p.toml: line 3: test a: ";
        assert!(ran.error.starts_with(start) && ran.error.contains(part), "{rom}: {}", ran.error);
        assert_eq!(ran.error.lines().count(), 1, "{}", ran.error);
    }
}

#[test]
fn registers_and_bytes_are_set_as_run_sets_them() {
    let folder = folder("plan-set");
    folder.write("code", &[0x25, 0x40, 0x00, 0x68]);
    let plan = "name = 'p'\n[[test]]\nname = 'a'\nrom = 'a.rom'\nset = ['pc=0x05000000', 'r2=-1']\nload = ['0x05000000=code']\nframes = []\ntrace = 'whole'\n";
    folder.write("p.toml", plan.as_bytes());
    assert_eq!(folder.vbmodel("expect --plan p.toml --out e").status, 0);
    let run = "trace --rom a.rom --pc 0x05000000 --set r2=-1 --load 0x05000000=code -o t";
    assert_eq!(folder.vbmodel(run).status, 0);
    assert_eq!(folder.read("e/a.trace").len(), 32);
    assert!(folder.read("e/a.trace") == folder.read("t"));
}
