//! Both forms of saved states from the command line: written, read, and moved from one to the other.

mod common;

use common::Folder;
use serde_json::Value;

/// A folder with the demo and `a.state`, form 2, in the middle of the demo with a line raised and the timer counting.
fn with_state(name: &str) -> Folder {
    let folder = Folder::with_demo(name);
    let ran = folder.vbmodel(
        "run --rom out/rom.bin --budget 300_000 --set psw=0x1000 --raise link --set reload=0x1234 --set count=7 --set \
         control=0x11 --save-state a.state",
    );
    assert_eq!((ran.status, ran.error.as_str()), (0, ""));
    assert!(ran.text.ends_with("written:      a.state\n"), "{}", ran.text);
    folder
}

fn show(folder: &Folder, file: &str) -> Value {
    let shown = folder.vbmodel(&format!("state show {file} --json"));
    serde_json::from_str(&shown.text).unwrap_or_else(|_| panic!("{} {}", shown.text, shown.error))
}

#[test]
fn form_2_is_written_and_holds_lines_and_timer() {
    let folder = with_state("form-2");
    let file = folder.read("a.state");
    assert_eq!((file.len(), &file[..6]), (327_962, &[0, 0, 2, 0, 5, 0][..]));
    assert_eq!(file[327_954..], [8, 0, 7, 0, 0x34, 0x12, 0x11, 0]);
    let value = show(&folder, "a.state");
    assert_eq!((&value["form"], &value["count"]), (&2.into(), &5.into()));
    let hardware = serde_json::json!({"lines": 8, "count": 7, "reload": 0x1234, "control": 0x11});
    assert_eq!(value["hardware"], hardware);
    assert_eq!(value.get("not_stored"), None);
    let shown = folder.vbmodel("state show a.state").text;
    let start = "a.state: a saved state of form 2, 327,962 bytes\nbodies:       5\n  kind 1  offset         76  length        172  ";
    assert!(shown.starts_with(start), "{shown}");
    let end = "\nlines   0x0008   count   0x0007   reload  0x1234   control 0x0011\n";
    assert!(shown.ends_with(end), "{shown}");
    // a run goes on from it, with its lines and timer
    let rom = "run --rom out/rom.bin";
    let all = "--budget 310_000 --set psw=0x1000 --raise 3 --set reload=0x1234 --set count=7 --set control=0x11";
    assert_eq!(folder.vbmodel(&format!("{rom} {all} --save-state all.state")).status, 0);
    let on =
        folder.vbmodel(&format!("{rom} --state a.state --budget 10_000 --save-state on.state"));
    assert!(
        on.text.starts_with("note:         a.state is a saved state of form 2\n"),
        "{}",
        on.text
    );
    assert!(folder.read("on.state") == folder.read("all.state"));
    // pictures too
    let why = folder.vbmodel("why left 192 120 --state a.state");
    assert_eq!(why.status, 0, "{}", why.error);
}

#[test]
fn form_1_is_written_where_lines_and_timer_are_at_reset() {
    let folder = with_state("form-1");
    let before = folder.names();
    let ran = folder.vbmodel(
        "run --rom out/rom.bin --state a.state --budget 9 --state-form 1 --save-vram v --save-state b.state",
    );
    assert_eq!(ran.status, 2);
    assert_eq!(
        ran.error,
        "vbmodel: refusal 16: request lines and timer are not at reset, and a saved state of form 1 does not hold them; \
         form 2 does\n"
    );
    assert_eq!(folder.names(), before);
    let ran =
        folder.vbmodel("run --rom out/rom.bin --state-form 1 --budget 5 --save-state b.state");
    assert_eq!(ran.status, 0, "{}", ran.error);
    let end =
        "written:      b.state (request lines and timer are not stored: they come back at reset)\n";
    assert!(ran.text.ends_with(end), "{}", ran.text);
    assert_eq!(folder.read("b.state").len(), 327_920);
    let wrong = folder.vbmodel("run --rom out/rom.bin --state-form 3");
    assert!(
        wrong.status == 2 && wrong.error.contains("`3` is not a form; write 1 or 2"),
        "{}",
        wrong.error
    );
}

#[test]
fn a_state_moves_there_and_back() {
    let folder = Folder::with_demo("form-move");
    folder.write("a.pak", &[7; 32]);
    for (pak, one, two) in [("", 327_920, 327_962), ("--pak a.pak", 327_962, 328_008)] {
        let run = format!("run --rom out/rom.bin {pak} --budget 9_999");
        assert_eq!(folder.vbmodel(&format!("{run} --save-state two.state")).status, 0);
        assert_eq!(
            folder.vbmodel(&format!("{run} --state-form 1 --save-state one.state")).status,
            0
        );
        let moved = folder.vbmodel("state move two.state -o a.state");
        assert_eq!((moved.status, moved.error.as_str()), (0, ""));
        let bytes = if pak.is_empty() { "327,920" } else { "327,962" };
        assert_eq!(
            moved.text,
            format!("two.state: moved from form 2 to form 1\nwritten: a.state ({bytes} bytes)\n")
        );
        let json = folder.vbmodel("state move a.state -o b.state --json");
        let value: Value = serde_json::from_str(&json.text).unwrap();
        assert_eq!(
            (&value["from"], &value["to"], &value["bytes"]),
            (&1.into(), &2.into(), &two.into())
        );
        assert!(folder.read("a.state") == folder.read("one.state"));
        assert!(folder.read("b.state") == folder.read("two.state"));
        assert_eq!((folder.read("one.state").len(), folder.read("two.state").len()), (one, two));
        // a file may be standard input, and is not moved over itself
        assert_eq!(
            folder.vbmodel_fed("state move - -o c.state", &folder.read("one.state")).status,
            0
        );
        let kept = folder.read("c.state");
        assert_eq!(folder.vbmodel("state move c.state -o c.state").status, 2);
        assert!(folder.read("c.state") == kept);
    }
}

#[test]
fn moves_that_are_refused_write_nothing() {
    let folder = with_state("form-refused");
    folder.refused(
        "state move a.state -o b.state",
        "vbmodel: a.state (327,962 bytes): refusal 16: request lines and timer are not at reset, and a saved state of form \
         1 does not hold them; form 2 does",
    );
    let sound = folder.read("a.state");
    let changed = |at: usize, value: u8| {
        let mut file = sound.clone();
        file[at] ^= value;
        file
    };
    for (file, message) in [
        (changed(300, 1), "bad (327,962 bytes): refusal 10: byte 44 (the sum in entry 2, WRAM) is 0x"),
        (changed(2, 1), "bad (327,962 bytes): refusal 10: byte 2 (the form) is 0x03; it must be 0x02"),
        (changed(0, 5), "bad (327,962 bytes): refusal 10: byte 1"),
        (sound[1..].to_vec(), "bad (327,961 bytes): refusal 9: no saved state has this length; it must be a saved state"),
        (Vec::new(), "bad (0 bytes): refusal 9: no saved state has this length; it must be a saved state"),
    ] {
        folder.write("bad", &file);
        let before = folder.names();
        for command in ["state move bad -o b.state", "state show bad"] {
            let ran = folder.vbmodel(command);
            assert_eq!(ran.status, 2, "{command}");
            let start = format!("vbmodel: {message}");
            let same = ran.error.starts_with(&start) || message.ends_with("byte 1");
            assert!(same, "{command}: {}", ran.error);
        }
        assert_eq!(folder.names(), before);
    }
    // a first halfword of the other form
    let ran =
        folder.vbmodel("run --rom out/rom.bin --state-form 1 --budget 5 --save-state one.state");
    assert_eq!(ran.status, 0);
    let mut one = folder.read("one.state");
    one[0] = 0;
    folder.write("zeroed", &one);
    let message = "zeroed (327,920 bytes): refusal 9: the first halfword is that of form 2, which has no such length; form 1 \
                   has, and begins with 0x0004";
    for command in [
        "state show zeroed",
        "state move zeroed -o x",
        "run --rom out/rom.bin --save-vram x --state zeroed",
    ] {
        folder.refused(command, &format!("vbmodel: {message}"));
    }
    let value = show(&folder, "zeroed");
    assert_eq!(
        (&value["refusal"], &value["rule"], &value["byte"]),
        (&9.into(), &"length".into(), &0.into())
    );
    let help = folder.vbmodel("state move --help").text;
    assert!(help.contains("Example: ") && help.contains("Exit status: 0 moved"), "{help}");
}
