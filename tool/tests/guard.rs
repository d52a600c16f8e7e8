//! Nothing wrong passes: files that are read are not written over, nothing is lost, nothing is left behind.

mod common;

use std::fs;
use std::os::unix::fs::symlink;
use std::process::{Child, Command, Stdio};
use std::time::{Duration, Instant};

use common::Folder;

const HALT: u16 = 0x6800;
const BRANCH_TO_ITSELF: u16 = 0x8A00;

fn with_rom(name: &str) -> Folder {
    Folder::with_rom(name, &[HALT], &[])
}

/// Starts the tool with these arguments; no signal is ignored, even where the tests were started by nohup.
fn started(folder: &Folder, arguments: &str) -> Child {
    Command::new("env")
        .args(["--default-signal", env!("CARGO_BIN_EXE_vbmodel")])
        .args(arguments.split_whitespace())
        .current_dir(folder.path("."))
        .stdout(Stdio::piped())
        .stderr(Stdio::piped())
        .spawn()
        .unwrap()
}

/// Waits until the folder has a temporary file.
fn temporary(folder: &Folder) -> String {
    let begun = Instant::now();
    loop {
        let name = folder.names().into_iter().find(|name| name.starts_with(".vbmodel-"));
        if let Some(name) =
            name.filter(|name| fs::metadata(folder.path(name)).is_ok_and(|m| m.len() > 0))
        {
            return name;
        }
        assert!(begun.elapsed() < Duration::from_secs(20), "no temporary file");
        std::thread::sleep(Duration::from_millis(5));
    }
}

fn signal(child: &Child, name: &str) {
    let sent = Command::new("kill").args([name, &child.id().to_string()]).status().unwrap();
    assert!(sent.success());
}

#[test]
fn no_command_writes_over_a_file_that_it_read() {
    let folder = Folder::with_demo("guard-inputs");
    assert_eq!(folder.vbmodel("run --rom out/rom.bin --budget 9 --save-state a.state").status, 0);
    assert_eq!(folder.vbmodel("trace --rom out/rom.bin --budget 9 -o a.trace").status, 0);
    folder.write("a.s", b"NOP\n");
    folder.write("a.schedule", b"at 1 tick\n");
    folder.write("a.bytes", b"1234");
    folder.write("a.overlay", b"word 0 0\n");
    fs::hard_link(folder.path("out/rom.bin"), folder.path("hard.rom")).unwrap();
    symlink("out/rom.bin", folder.path("soft.rom")).unwrap();
    let scene = "--vram out/vram.bin --drawing out/drawing.bin";
    for (command, input) in [
        ("run --rom out/rom.bin --save-wram out/rom.bin", "out/rom.bin"),
        ("run --rom out/rom.bin --save-wram hard.rom", "hard.rom"),
        ("run --rom out/rom.bin --save-wram soft.rom", "soft.rom"),
        ("run --rom soft.rom --save-wram out/../out/rom.bin", "out/../out/rom.bin"),
        ("run --rom out/rom.bin --wram out/wram.bin --save-wram out/wram.bin", "out/wram.bin"),
        ("run --rom out/rom.bin --vram out/vram.bin --save-vram out/vram.bin", "out/vram.bin"),
        ("run --rom out/rom.bin --processor out/processor.bin --save-processor out/processor.bin", "out/processor.bin"),
        ("run --rom out/rom.bin --drawing out/drawing.bin --save-drawing out/drawing.bin", "out/drawing.bin"),
        ("run --rom out/rom.bin --state a.state --save-state a.state", "a.state"),
        ("run --rom out/rom.bin --schedule a.schedule --save-wram a.schedule", "a.schedule"),
        ("run --rom out/rom.bin --load 0x05000000=a.bytes --save-wram a.bytes", "a.bytes"),
        ("step --rom out/rom.bin --save-wram out/rom.bin", "out/rom.bin"),
        ("trace --rom out/rom.bin -o out/rom.bin", "out/rom.bin"),
        ("trace --rom out/rom.bin -o x --save-wram out/rom.bin", "out/rom.bin"),
        ("replay --rom out/rom.bin a.trace --save-wram a.trace", "a.trace"),
        (&format!("draw {scene} --save-vram out/vram.bin"), "out/vram.bin"),
        (&format!("draw {scene} --overlay a.overlay --save-vram a.overlay"), "a.overlay"),
        ("asm a.s -o a.s", "a.s"),
        ("state move a.state -o a.state", "a.state"),
        ("state salvage a.state -o a.state", "a.state"),
    ] {
        let before = folder.read(input);
        let rule = "is read by this command, and would be written over; nothing was written";
        folder.refused(command, &format!("vbmodel: {input}: {rule}"));
        assert!(folder.read(input) == before, "{command}");
    }
    // standard input may be a file, too
    let ran = folder.shell("\"$VB\" state salvage - -o a.state <a.state");
    assert!(ran.status == 2 && ran.error.contains("is read by this command"), "{}", ran.error);
    let ran = folder.shell("\"$VB\" replay --rom out/rom.bin - --save-wram a.trace <a.trace");
    assert!(ran.status == 2 && ran.error.contains("is read by this command"), "{}", ran.error);
}

#[test]
fn outputs_that_cannot_all_be_written_leave_every_file_as_it_was() {
    let folder = with_rom("guard-all");
    folder.write("w", b"before");
    // in a folder with the sticky bit nobody replaces another one's file
    let ran = folder.shell(
        "[ $(id -u) = 0 ] && command -v setpriv >/dev/null || exit 99
         mkdir sticky && chmod 1777 sticky && chmod 777 . && touch sticky/v && chmod 666 sticky/v w && chown 1:1 sticky/v
         cp \"$VB\" ./tool && chmod 755 tool
         setpriv --reuid=65534 --clear-groups ./tool run --rom a.rom --save-wram w --save-vram sticky/v --save-pak p",
    );
    // the folder may lie where nobody may go
    if [99, 126, 127].contains(&ran.status) {
        return;
    }
    assert!(
        ran.status == 2 && ran.error.contains("nothing was written"),
        "{} {}",
        ran.text,
        ran.error
    );
    assert_eq!(folder.read("w"), b"before");
    assert_eq!(folder.read("sticky/v"), b"");
    assert_eq!(folder.names(), ["a.rom", "sticky/", "tool", "w"]);
}

#[test]
fn a_trace_and_the_saves_are_written_together_or_not_at_all() {
    let folder = with_rom("guard-trace");
    let ran = folder.vbmodel("trace --rom a.rom -o a.trace --save-wram /dev/full");
    assert_eq!(ran.status, 2, "{}", ran.error);
    assert!(!ran.text.contains("written:"), "{}", ran.text);
    assert_eq!(folder.names(), ["a.rom"]);
    folder.refused(
        "trace --rom a.rom -o a.trace --save-wram ./a.trace",
        "vbmodel: a.trace: named for two outputs",
    );
}

#[test]
fn sigterm_and_sighup_do_what_ctrl_c_does() {
    let folder = Folder::with_rom("guard-signals", &[BRANCH_TO_ITSELF], &[]);
    for name in ["-INT", "-TERM", "-HUP"] {
        let child = started(&folder, "trace --rom a.rom --budget 0xFFFF_FFFF_FFFF -o a.trace");
        temporary(&folder);
        signal(&child, name);
        let output = child.wait_with_output().unwrap();
        assert_eq!(output.status.code(), Some(130), "{name}");
        assert!(String::from_utf8_lossy(&output.stdout).starts_with("answer:       interrupted"));
        let trace = folder.read("a.trace");
        assert!(!trace.is_empty() && trace.len().is_multiple_of(16), "{name}");
        assert_eq!(folder.names(), ["a.rom", "a.trace"], "{name}");
        fs::remove_file(folder.path("a.trace")).unwrap();
    }
    // one started by nohup stays
    let ran = folder.shell(
        "nohup \"$VB\" run --rom a.rom --budget 300_000_000 >out.txt 2>/dev/null & pid=$!
         sleep 0.2; kill -HUP $pid; wait $pid; echo $?",
    );
    assert_eq!(ran.text.trim(), "0");
}

#[test]
fn a_second_signal_leaves_no_temporary_file() {
    let folder = Folder::with_rom("guard-second", &[BRANCH_TO_ITSELF], &[]);
    // after the first signal it writes to a pipe that nobody reads, so that it cannot end before the second one
    let child = folder.shell(
        "mkfifo pipe
         \"$VB\" trace --rom a.rom --budget 0xFFFF_FFFF -o a.trace --save-wram pipe & pid=$!
         until ls .vbmodel-* >/dev/null 2>&1; do sleep 0.05; done
         kill -TERM $pid; sleep 0.5; kill -INT $pid; wait $pid; echo $?",
    );
    assert_eq!(child.text.trim(), "130");
    assert!(
        folder.names().iter().all(|name| !name.starts_with(".vbmodel-")),
        "{:?}",
        folder.names()
    );
}

#[test]
fn what_a_killed_command_left_is_removed_by_the_next_one_and_a_live_ones_file_stays() {
    let folder = Folder::with_rom("guard-killed", &[BRANCH_TO_ITSELF], &[]);
    let mut killed = started(&folder, "trace --rom a.rom --budget 0xFFFF_FFFF_FFFF -o a.trace");
    let left = temporary(&folder);
    signal(&killed, "-KILL");
    killed.wait().unwrap();
    assert!(folder.path(&left).exists());
    let live = started(&folder, "trace --rom a.rom --budget 0xFFFF_FFFF_FFFF -o b.trace");
    let begun = Instant::now();
    while folder.path(&left).exists() {
        assert!(begun.elapsed() < Duration::from_secs(20), "{left} is still there");
        std::thread::sleep(Duration::from_millis(5));
    }
    let kept = temporary(&folder);
    assert_eq!(folder.vbmodel("run --rom a.rom --budget 1 --save-wram w").status, 0);
    assert!(folder.path(&kept).exists(), "a live command's file was removed");
    signal(&live, "-TERM");
    assert_eq!(live.wait_with_output().unwrap().status.code(), Some(130));
    assert!(!folder.read("b.trace").is_empty());
    assert_eq!(folder.names(), ["a.rom", "b.trace", "w"]);
}

#[test]
fn a_file_over_the_size_limit_is_an_error_and_leaves_nothing() {
    let folder = Folder::with_rom("guard-limit", &[BRANCH_TO_ITSELF], &[]);
    let ran =
        folder.shell("ulimit -f 100; \"$VB\" trace --rom a.rom --budget 1_000_000 -o a.trace");
    assert_eq!(
        (ran.status, ran.error.as_str()),
        (2, "vbmodel: a.trace: File too large; nothing was written\n")
    );
    assert_eq!(folder.names(), ["a.rom"]);
}

#[test]
fn closed_standard_output_is_an_error() {
    let folder = Folder::with_demo("guard-closed");
    for arguments in [
        "run --rom out/rom.bin --budget 1 --save-wram w",
        "step --rom out/rom.bin",
        "judge lot",
        "compare --vram out/vram.bin --drawing out/drawing.bin --frame 1 --capture out/vram.bin",
        "--help",
        "--version",
        "completions bash",
    ] {
        let ran = folder.shell(&format!("\"$VB\" {arguments} >&-"));
        let line = "vbmodel: standard output: is closed; it must be open, to a file, a pipe or a terminal\n";
        assert_eq!((ran.status, ran.error.as_str()), (2, line), "{arguments}");
    }
    assert!(!folder.path("w").exists());
    // what is thrown away on purpose is not an error
    let ran = folder.shell("\"$VB\" run --rom out/rom.bin --budget 1 >/dev/null");
    assert_eq!((ran.status, ran.error.as_str()), (0, ""));
    let ran = folder.shell("\"$VB\" run --rom out/rom.bin --budget 1 1<>/dev/null");
    assert_eq!((ran.status, ran.error.as_str()), (0, ""));
}

#[test]
fn a_byte_order_mark_is_taken_and_utf_16_is_named() {
    let folder = with_rom("guard-mark");
    let with_mark = |text: &str| format!("\u{FEFF}{text}").into_bytes();
    folder.write("a.schedule", &with_mark("at 1 tick\n"));
    let ran = folder.vbmodel("run --rom a.rom --schedule a.schedule");
    assert_eq!((ran.status, ran.error.as_str()), (0, ""));
    folder.write("a.s", &with_mark("NOP\n"));
    let ran = folder.vbmodel("asm a.s -o a.bin");
    assert_eq!((ran.status, ran.error.as_str()), (0, ""));
    folder.write("a.overlay", &with_mark("word 0x00038000 0\n"));
    folder.write("v", &vec![0; 262_144]);
    folder.write("d", &[0; 26]);
    let ran = folder.vbmodel("draw --vram v --drawing d --overlay a.overlay");
    assert_eq!((ran.status, ran.error.as_str()), (0, ""));
    folder.write("wide.s", b"\xFF\xFEN\0O\0P\0");
    folder.refused("asm wide.s -o b.bin", "vbmodel: wide.s: is text in UTF-16; it must be UTF-8");
}

#[test]
fn any_number_of_ticks_takes_no_time() {
    let folder = with_rom("guard-ticks");
    let timer = |ticks: &str, more: &str| {
        let ran =
            folder.vbmodel(&format!("run --rom a.rom {more} --tick {ticks} --budget 0 --json"));
        let value: serde_json::Value = serde_json::from_str(&ran.text).unwrap();
        value["hardware"].clone()
    };
    let begun = Instant::now();
    for more in [
        "--set control=1 --set count=5 --set reload=0xFFFF",
        "--set control=9 --set count=7 --set reload=9",
        "--set control=1 --set count=0 --set reload=0",
        "",
    ] {
        timer("0xFFFF_FFFF", more);
        // rounds that are left out change nothing: 30 times 65,535 ticks are whole rounds of each timer
        assert_eq!(timer("1_000_000", more), timer("2_966_050", more), "{more}");
    }
    assert_eq!(timer("100", "--set control=1 --set count=50 --set reload=1000")["count"], 950);
    assert!(begun.elapsed() < Duration::from_secs(20), "{:?}", begun.elapsed());
}

#[test]
fn a_file_loaded_past_the_end_of_a_memory_is_refused() {
    let folder = with_rom("guard-load");
    folder.write("a", &[1; 100]);
    folder.write("pak", &[0; 64]);
    for (load, memory, fit) in [
        ("0x0500FFFF", "WRAM", 1),
        ("0x05FFFFF0", "WRAM", 16),
        ("0x0003FFFF", "VRAM", 1),
        ("0x070003A0", "ROM", 96),
        ("0xFFFFFFF0", "ROM", 16),
        ("0x06000020", "pak RAM", 32),
    ] {
        folder.refused(
            &format!("run --rom a.rom --pak pak --load {load}=a"),
            &format!("vbmodel: a (100 bytes): loaded at {load}, it passes the end of {memory}; at most {fit} bytes fit there"),
        );
    }
    for load in ["0x0500FF9C", "0x05ABFF9C", "0x0700039C", "0x00079F9C"] {
        let ran = folder.vbmodel(&format!("run --rom a.rom --load {load}=a --budget 0"));
        assert_eq!((ran.status, ran.error.as_str()), (0, ""), "{load}");
    }
}

#[test]
fn a_folder_of_an_output_must_be_there() {
    let folder = with_rom("guard-folder");
    for output in ["--save-state nosuch/a", "--save-wram no/such/a"] {
        let name = output.split_once(' ').unwrap().1;
        let parent = name.rsplit_once('/').unwrap().0;
        folder.refused(
            &format!("run --rom a.rom {output}"),
            &format!("vbmodel: {name}: there is no folder {parent}; nothing was written"),
        );
    }
    // a folder that is asked for is made
    folder.write("v", &vec![0; 262_144]);
    assert_eq!(folder.vbmodel("draw --vram v --as-is --out new/folder").status, 0);
    assert!(folder.path("new/folder/frame0-left.png").exists());
}

#[test]
fn a_dash_is_standard_output_where_a_command_is_for_one_file() {
    let folder = Folder::with_demo("guard-dash");
    assert_eq!(folder.vbmodel("run --rom out/rom.bin --budget 9 --save-state a.state").status, 0);
    folder.write("a.s", b"NOP\n");
    for (command, file) in [
        ("trace --rom out/rom.bin --budget 5", "-o"),
        ("asm a.s", "-o"),
        ("state move a.state", "-o"),
        ("state salvage a.state", "-o"),
    ] {
        let ran = folder.shell(&format!(
            "\"$VB\" {command} {file} - >piped 2>report && \"$VB\" {command} {file} named && cmp piped named"
        ));
        assert_eq!(ran.status, 0, "{command}: {} {}", ran.text, ran.error);
        assert!(!folder.read("report").is_empty(), "{command}");
    }
    let line =
        "vbmodel: -: cannot be standard output here; it must be a file (`./-` is one of that name)";
    folder.refused("run --rom out/rom.bin --budget 1 --save-wram -", line);
    assert_eq!(folder.vbmodel("run --rom out/rom.bin --budget 1 --save-wram ./-").status, 0);
    assert_eq!(folder.read("-").len(), 65_536);
}

#[test]
fn argument_errors_are_one_line_with_option_given_and_allowed() {
    let folder = Folder::new("guard-arguments");
    for (arguments, line) in [
        ("run --rom a --budget -1", "--budget: `-1` is not a whole number; write 1000, 1_000 or 0x3E8"),
        ("run --rom a --budget many", "--budget: `many` is not a whole number; write 1000, 1_000 or 0x3E8"),
        ("run --rom a --budget", "--budget: the value is missing; write --budget N"),
        ("run --rom a --budget 1 --budget 2", "--budget: is given twice; once is allowed"),
        ("run", "--rom FILE is missing; `vbmodel help run` has an example"),
        ("run --rom a extra", "`extra` is not an argument here; `vbmodel help run` lists them"),
        ("run --rom a --fly", "`--fly` is not an argument here; `vbmodel help run` lists them"),
        ("run --rom a --budgt 1", "`--budgt` is not an argument here; the nearest is `--budget`; `vbmodel help run` lists them"),
        ("run --rom a --set r1", "--set: `r1` is not NAME=VALUE"),
        ("run --rom a --load 5", "--load: `5` is not ADDR=FILE"),
        ("run --rom a --until x", "--until: `x` is not a whole number; write 1000, 1_000 or 0x3E8"),
        ("run --rom a --watch 2..1", "--watch: `2..1` ends before it begins"),
        ("run --rom a --raise 9", "--raise: `9` is not a level; write 0 or pad, 1 or timer, 2 or pak, 3 or link, 4 or vip"),
        ("run --rom a --tick 0x1_0000_0000", "--tick: `0x1_0000_0000` is above 0xFFFFFFFF"),
        ("run --rom a --state-form 3 --save-state s", "--state-form: `3` is not a form; write 1 or 2"),
        ("run --rom a --pad=middle", "--pad: `middle` is not allowed; write end or front"),
        ("run --rom a --state s --vram v", "--state: cannot be used with --vram; only one is allowed"),
        ("jugde", "`jugde` is not a command; the nearest is `judge`; `vbmodel help` lists them"),
        ("fly", "`fly` is not a command; `vbmodel help` lists them"),
        ("state", ""),
        ("state shwo a", "`shwo` is not a command; the nearest is `show`; `vbmodel help state` lists them"),
        ("state salvage a", "--out FILE is missing; `vbmodel help state salvage` has an example"),
        ("draw --vram v --drawing d --eye up", "--eye: `up` is not allowed; write left, right, both, side-by-side, anaglyph or all"),
        ("draw --vram v --drawing d --scale 0", "--scale: `0` is not from 1 to 16"),
        ("draw --vram v --drawing d --scale 17", "--scale: `17` is not from 1 to 16"),
        ("draw", "--vram FILE and --drawing FILE is missing; `vbmodel help draw` has an example"),
        ("replay --rom a", "TRACE is missing; `vbmodel help replay` has an example"),
        ("replay --rom a t --records 1 --partial", "--records: cannot be used with --partial; only one is allowed"),
        ("replay --rom a t --last 1001", "--last: `1001` is not from 0 to 1000"),
        ("step --rom a --count 1.5", "--count: `1.5` is not a whole number; write 1000, 1_000 or 0x3E8"),
        ("why left", ""),
        ("completions fish.", ""),
    ] {
        let ran = folder.vbmodel(arguments);
        assert_eq!((ran.status, ran.text.as_str()), (2, ""), "{arguments}");
        if arguments == "state" {
            assert!(ran.error.contains("Usage:"), "{}", ran.error);
            continue;
        }
        assert_eq!(ran.error.lines().count(), 1, "{arguments}: {}", ran.error);
        if !line.is_empty() {
            assert_eq!(ran.error, format!("vbmodel: {line}\n"), "{arguments}");
        }
    }
}

#[test]
fn control_characters_of_names_are_escaped_in_all_that_is_printed() {
    let folder = with_rom("guard-names");
    let name = "a\n\x1b[31mb\u{202e}c";
    fs::copy(folder.path("a.rom"), folder.path(name)).unwrap();
    let run = |arguments: &[&str]| {
        let output = Command::new(env!("CARGO_BIN_EXE_vbmodel"))
            .args(arguments)
            .current_dir(folder.path("."))
            .output()
            .unwrap();
        [output.stdout, output.stderr].map(|bytes| String::from_utf8(bytes).unwrap())
    };
    let shown = "a\\n\\x1b[31mb\\u{202e}c";
    for arguments in [
        &["run", "--rom", "a.rom", "--save-wram", name][..],
        &["run", "--rom", name, "--save-wram", name],
        &["trace", "--rom", "a.rom", "-o", name],
        &["trace", "--rom", "a.rom", "-o", "x", "--load", &format!("0x05000000={name}")],
        &["state", "show", name],
        &["asm", name, "-o", "x"],
        &["run", "--rom", &format!("no {name}")],
        &["run", "--rom", "a.rom", &format!("--fly{name}")],
        &["run", "--rom", "a.rom", "--budget", name],
    ] {
        let [text, error] = run(arguments);
        for printed in [&text, &error] {
            assert!(!printed.contains(['\x1b', '\u{202e}']), "{arguments:?}: {printed:?}");
        }
        assert!(text.contains(shown) || error.contains(shown), "{arguments:?}: {text} {error}");
        let json = run(&[arguments, &["--json"]].concat());
        assert!(!json.concat().contains(['\x1b', '\u{202e}']), "{arguments:?}: {json:?}");
        if json[0].starts_with('{') {
            serde_json::from_str::<serde_json::Value>(json[0].trim_end()).unwrap();
        }
    }
    folder.write("a.s", b"FLY \x1b[31m\n");
    let [_, error] = run(&["asm", "a.s", "-o", "x"]);
    assert_eq!(
        error,
        "vbmodel: a.s: line 1: `FLY` with these operands is not known: FLY \\x1b[31m\n"
    );
}

#[test]
fn surplus_image_data_in_a_png_is_refused() {
    let folder = Folder::with_demo("guard-png");
    let plain = folder.read("out/frame1-left.png");
    let scene = "--vram out/vram.bin --drawing out/drawing.bin --frame 1";
    // 384 by 224 pixels of 8 bits, and the same with more rows in the stream, or bytes after it
    let image = common::Rgb::read(&plain);
    assert_eq!((image.width, image.height), (384, 224));
    let values: Vec<u8> = image.pixels.iter().map(|pixel| pixel[0] / 0x55).collect();
    let raw: Vec<u8> = values.chunks(384).flat_map(|row| [&[0], row].concat()).collect();
    for (surplus, after) in [(0, 0), (1, 0), (300 << 20, 0), (0, 1), (0, 100)] {
        let mut data = raw.clone();
        data.resize(raw.len() + surplus, 0);
        folder.write("a.png", &common::png_of(384, 224, &data, after));
        let ran = folder.vbmodel(&format!("compare {scene} --eyes left --left a.png"));
        if surplus + after == 0 {
            assert_eq!(ran.status, 0, "{} {}", ran.text, ran.error);
            continue;
        }
        assert_eq!(ran.status, 2, "{surplus} {after}: {}", ran.text);
        assert!(
            ran.error.contains("the PNG has more image data than its 384 by 224 pixels"),
            "{}",
            ran.error
        );
    }
}

#[test]
fn salvage_of_an_all_zero_file_warns() {
    let folder = Folder::new("guard-blank");
    folder.write("blank", &vec![0; 327_962]);
    let ran = folder.vbmodel("state salvage blank -o b.state");
    assert_eq!(ran.status, 1, "{}", ran.error);
    let line = "warning:      the file is all zeros: each body counts as kept because its sum is right, but nothing here can \
                be distinguished from a blank file\n";
    assert!(ran.text.contains(line), "{}", ran.text);
    let mut file = vec![0; 327_962];
    file[327_961] = 1;
    folder.write("blank", &file);
    let ran = folder.vbmodel("state salvage blank -o c.state --json");
    assert!(!ran.text.contains("warning"), "{}", ran.text);
}
