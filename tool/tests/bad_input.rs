//! Every file that a command reads, in turn: missing, empty, short, long, a folder, unreadable, of another kind. Each is
//! one line with the file, what was given and what is allowed; status 2; nothing is written.

mod common;

use std::fs;
use std::os::unix::fs::PermissionsExt;

use common::Folder;

/// A file of a command: how it is named, and its length.
struct Read {
    command: &'static str,
    option: &'static str,
    length: usize,
    /// What is said to be allowed.
    allowed: &'static str,
}

const SCENE: &str = "--vram out/vram.bin --drawing out/drawing.bin";

const FILES: [Read; 15] = [
    Read {
        command: "run",
        option: "--rom",
        length: 65_536,
        allowed: "a power of two from 1,024 to 16,777,216",
    },
    Read { command: "run --rom out/rom.bin", option: "--wram", length: 65_536, allowed: "65,536" },
    Read {
        command: "run --rom out/rom.bin",
        option: "--vram",
        length: 262_144,
        allowed: "262,144",
    },
    Read {
        command: "run --rom out/rom.bin",
        option: "--pak",
        length: 65_536,
        allowed: "a power of two up to 16,777,216",
    },
    Read { command: "run --rom out/rom.bin", option: "--processor", length: 180, allowed: "180" },
    Read { command: "run --rom out/rom.bin", option: "--drawing", length: 26, allowed: "26" },
    Read {
        command: "step",
        option: "--rom",
        length: 65_536,
        allowed: "a power of two from 1,024 to 16,777,216",
    },
    Read {
        command: "draw --drawing out/drawing.bin",
        option: "--vram",
        length: 262_144,
        allowed: "262,144",
    },
    Read { command: "draw --vram out/vram.bin", option: "--drawing", length: 26, allowed: "26" },
    Read {
        command: "why left 0 0 --vram out/vram.bin",
        option: "--drawing",
        length: 26,
        allowed: "26",
    },
    Read { command: "draw", option: "--state", length: 1, allowed: "a saved state, form 1 or 2" },
    Read { command: "state", option: "show", length: 1, allowed: "a saved state, form 1 or 2" },
    Read {
        command: "run --rom out/rom.bin",
        option: "--state",
        length: 327_920,
        allowed: "a saved state, form 1 or 2",
    },
    Read {
        command: "compare SCENE --eyes left",
        option: "--left",
        length: 24_576,
        allowed: "24,576",
    },
    Read { command: "compare SCENE", option: "--capture", length: 262_144, allowed: "262,144" },
];

#[test]
fn bad_input_every_file_in_turn() {
    let folder = Folder::with_demo("bad-input");
    fs::create_dir(folder.path("folder")).unwrap();
    folder.write("empty", b"");
    folder.write("other", &folder.read("out/frame0-left.png"));
    for file in &FILES {
        folder.write("short", &vec![0; file.length - 1]);
        folder.write("long", &vec![0; file.length + 1]);
        let save = if file.command.starts_with("run") { "--save-vram saved" } else { "" };
        let out = if file.command.starts_with("draw") { "--out saved" } else { save };
        for bad in ["missing", "empty", "short", "long", "folder", "other"] {
            // pak RAM may be empty; a picture is a capture, though of another frame
            if (bad == "empty" && file.option == "--pak")
                || (bad == "other" && file.option == "--left")
            {
                continue;
            }
            let command = file.command.replace("SCENE", SCENE);
            let command = format!("{command} {} {bad} {out}", file.option);
            let ran = folder.vbmodel(&command);
            assert_eq!((ran.status, ran.text.as_str()), (2, ""), "vbmodel {command}");
            assert_eq!(ran.error.lines().count(), 1, "{}", ran.error);
            assert!(ran.error.starts_with(&format!("vbmodel: {bad}")), "{command}: {}", ran.error);
            assert!(ran.error.contains(file.allowed), "{command}: {}", ran.error);
            let given = match bad {
                "missing" => "No such file or directory".to_string(),
                "folder" => "is a folder".to_string(),
                _ => format!("({} bytes)", vb::grouped(folder.read(bad).len() as u64)),
            };
            assert!(ran.error.contains(&given), "{command}: {}", ran.error);
            assert!(!folder.path("saved").exists(), "{command}");
        }
    }
}

/// As root every file can be read, so this is tried as nobody where that can be had.
#[test]
fn bad_input_a_file_that_may_not_be_read() {
    let folder = Folder::with_demo("bad-input-rights");
    fs::set_permissions(folder.path("out/vram.bin"), fs::Permissions::from_mode(0o000)).unwrap();
    let as_root = fs::read(folder.path("out/vram.bin")).is_ok();
    let command = format!("\"$VB\" draw {SCENE} --out saved");
    let ran = match as_root {
        true => folder.shell(&format!(
            "command -v setpriv >/dev/null || exit 99; setpriv --reuid=65534 --clear-groups sh -c '{command}'"
        )),
        false => folder.shell(&command),
    };
    // the tool itself may lie where nobody may go
    if ran.status == 99 || ran.status == 126 || ran.status == 127 {
        return;
    }
    let message = "vbmodel: out/vram.bin: Permission denied; it must be VRAM of 262,144 bytes\n";
    assert_eq!((ran.status, ran.error.as_str()), (2, message));
}

/// A plan and a lot of one part, each of whose files in turn cannot be read: a folder, a pipe and a file that gives an
/// error stand in its place; then, for a user without rights, it is the file itself.
#[test]
fn bad_input_a_file_of_a_plan_or_lot_that_cannot_be_read() {
    let folder = Folder::new("bad-input-plan");
    assert_eq!(folder.vbmodel("demo --lot lot").status, 0);
    assert_eq!(folder.shell("cd lot/parts && mkdir one && mv die-01 one && rm -r die-* && mv one/die-01 . && rmdir one").status, 0);
    folder.write("lot/parts/parts.csv", b"part\ndie-01\n");
    let judge = "judge --plan lot/plan.toml lot/parts";
    assert_eq!(folder.vbmodel(judge).status, 0);
    let as_nobody = "setpriv --reuid=65534 --clear-groups \"$VB\"";
    let tried = folder.shell(&format!("{as_nobody} {judge}"));
    let tool = if tried.status == 0 { as_nobody } else { "\"$VB\"" };
    for (file, is_of_the_part) in [
        ("lot/plan.toml", false),
        ("lot/demo.rom", false),
        ("lot/frame.schedule", false),
        ("lot/parts/parts.csv", false),
        ("lot/parts/die-01/picture.frame0.left.png", true),
        ("lot/parts/die-01/picture.frame1.right.png", true),
        ("lot/parts/die-01/steps.trace", true),
    ] {
        for (make, what) in [
            ("mkdir FILE", "is a folder"),
            ("mkfifo FILE", "is a device or a pipe"),
            ("ln -s /proc/self/mem FILE", "Input/output error"),
            ("cp kept FILE; chmod 000 FILE", "Permission denied"),
        ] {
            if what == "Permission denied" && tried.status != 0 {
                continue;
            }
            fs::rename(folder.path(file), folder.path("kept")).unwrap();
            assert_eq!(folder.shell(&make.replace("FILE", file)).status, 0);
            let ran = folder.shell(&format!("timeout 60 {tool} {judge}"));
            assert_eq!(ran.status, 2, "{file} {what}: {}{}", ran.text, ran.error);
            let line = match is_of_the_part {
                true => ran.text.lines().find(|line| line.starts_with("invalid  die-01: ")),
                false => ran.error.lines().next(),
            };
            let line = line.unwrap_or_default();
            let named = line.contains(&format!("{file}: {what}; it must be "));
            assert!(named, "{file} {what}: {}{}", ran.text, ran.error);
            match is_of_the_part {
                true => {
                    assert!(ran.text.contains("1 part: 0 pass, 0 fail, 1 invalid"), "{}", ran.text)
                }
                false => assert_eq!((ran.text.as_str(), ran.error.lines().count()), ("", 1)),
            }
            assert_eq!(folder.shell(&format!("rm -r {file} && mv kept {file}")).status, 0);
        }
    }
    assert_eq!(folder.vbmodel(judge).status, 0);
}

/// A name may hold a newline, and codes that drive a terminal.
#[test]
fn names_with_newlines_and_escapes_are_printed_on_one_line() {
    let folder = Folder::with_demo("bad-input-names");
    let (name, printed) = ("a\n\x1b[31mb\u{202e}", "a\\n\\x1b[31mb\\u{202e}");
    fs::create_dir(folder.path(name)).unwrap();
    folder.write(&format!("{name}.toml"), b"[[part]]\nnome = 'x'\n[[part]]\nname = ''\n");
    folder.write(&format!("{name}.csv"), b"name,frame\nx,one\n,0\n");
    folder.write(&format!("{name}.txt"), b"x");
    folder.write(&format!("{name}.plan"), b"name = 3\n");
    folder.write(
        "lot.toml",
        "[[part]]\nname = \"a\\n\\u001Bb\"\nleft = \"c\\n\\u001Bd\"\n".as_bytes(),
    );
    for arguments in [
        "judge NAME",
        "judge NAME.toml",
        "judge NAME.csv",
        "judge NAME.txt",
        "judge NAME.none",
        "judge lot.toml --vram NAME --drawing out/drawing.bin",
        "draw --vram out/vram.bin --drawing out/drawing.bin --out NAME.txt/x",
        "judge --plan NAME.plan out",
        "judge --plan NAME.none out",
        "expect --plan NAME.plan --out x",
        "verify NAME.txt",
        "merge NAME.txt",
        "run --rom NAME",
        "run --rom NAME.txt",
        "run --rom out/rom.bin --save-wram NAME",
        "trace --rom out/rom.bin -o NAME",
        "replay --rom out/rom.bin NAME.txt",
        "draw --state NAME.txt",
        "compare --vram out/vram.bin --drawing out/drawing.bin --capture NAME.txt",
        "why left 0 0 --vram NAME.txt --drawing out/drawing.bin",
        "state show NAME.txt",
        "asm NAME.txt -o x",
        "disasm NAME.txt",
    ] {
        let arguments: Vec<String> =
            arguments.split(' ').map(|word| word.replace("NAME", name)).collect();
        let ran = folder.vbmodel_with(&arguments);
        assert_eq!(ran.status, 2, "{arguments:?}: {}{}", ran.text, ran.error);
        let all = ran.text.clone() + &ran.error;
        assert!(all.contains(printed), "{arguments:?}: {all}");
        assert!(!all.contains('\x1b') && !all.contains('\u{202e}'), "{arguments:?}: {all:?}");
        // a line that began in the middle of the name would begin so
        let torn =
            all.lines().any(|line| line.starts_with("\\x1b[31mb") || line.starts_with("[31mb"));
        assert!(!torn, "{arguments:?}: {all}");
    }
    // and nothing in the sources prints a path by itself
    let sources =
        folder.shell(&format!("grep -rn '\\.display()' {}/src", env!("CARGO_MANIFEST_DIR")));
    assert_eq!(sources.text, "");
}

/// The aim is 30 ms on an idle machine.
#[test]
#[ignore = "timed"]
fn speed_compare_and_why() {
    let folder = Folder::with_demo("speed");
    for command in [
        format!("why left 192 120 {SCENE}"),
        format!("compare {SCENE} --frame 1 --capture out/vram.bin"),
        format!("compare {SCENE} --frame 1 --eyes left --left out/frame0-left.png --why"),
    ] {
        let took = (0..5).map(|_| {
            let begun = std::time::Instant::now();
            assert!(folder.vbmodel(&command).status < 2);
            begun.elapsed()
        });
        let least = took.min().unwrap();
        println!("{command}: {least:?}");
        assert!(least.as_millis() < 30, "{command}: {least:?}");
    }
}
