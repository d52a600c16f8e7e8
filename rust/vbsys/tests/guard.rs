//! The guard of libvb: what is linked, which calls compute with floats, and the three guarded calls from C in every
//! floating-point environment.

use std::collections::{BTreeMap, BTreeSet};
use std::path::{Path, PathBuf};
use std::process::{Command, Output};

const HEADER: &str = include_str!("../../../include/vb.h");
const GUARD: &str = include_str!("../../../guard/guard.c");
const GUARDED: [&str; 3] = ["vb_replay", "vb_run", "vb_step"];

fn root() -> PathBuf {
    Path::new(env!("CARGO_MANIFEST_DIR")).join("../..")
}

fn output(command: &str, arguments: &[&str]) -> String {
    let ran = Command::new(command).args(arguments).output();
    let ran = ran.unwrap_or_else(|error| panic!("{command} cannot be run: {error}"));
    assert!(ran.status.success(), "{command}: {}", String::from_utf8_lossy(&ran.stderr));
    String::from_utf8(ran.stdout).expect("ASCII")
}

/// The functions that vb.h declares.
fn declared() -> BTreeSet<&'static str> {
    let names = HEADER.split(|c: char| !c.is_ascii_alphanumeric() && c != '_' && c != '(');
    let names = names.filter_map(|word| word.strip_prefix("vb_").and(word.split_once('(')));
    names.map(|(name, _)| name).filter(|name| !name.is_empty()).collect()
}

/// A program of guard/, linked with this archive and run.
fn run(source: &str, archive: &str, name: &str) -> Output {
    let binary = Path::new(env!("CARGO_TARGET_TMPDIR")).join(name);
    let compiler = std::env::var("CC").unwrap_or_else(|_| "cc".into());
    let compiled = Command::new(compiler)
        .args(["-std=gnu11", "-O2", "-Wall", "-Wextra", "-Werror", "-I"])
        .arg(root().join("include"))
        .arg(root().join("guard").join(source))
        .args([archive, "-o"])
        .arg(&binary)
        .output()
        .expect("the C compiler runs");
    assert!(compiled.status.success(), "{}", String::from_utf8_lossy(&compiled.stderr));
    Command::new(&binary).output().expect("the program runs")
}

#[test]
fn c_programs_get_the_default_environments_answers_in_every_environment() {
    let ran = run("environments.c", vbsys::LIBRARY, "environments");
    let text = String::from_utf8_lossy(&ran.stdout).into_owned();
    assert!(ran.status.success(), "{text}");
    assert!(
        text.ends_with("calls answer as in the default environment and keep MXCSR\n"),
        "{text}"
    );
}

/// So the test above sees what it is for. Where the proved archive is not there, nothing is shown.
#[test]
fn without_the_guard_the_same_programs_fail() {
    if !Path::new(vbsys::PROVED).is_file() {
        return;
    }
    for (source, name) in [("environments.c", "environments-bare"), ("nested.c", "nested-bare")] {
        let ran = run(source, vbsys::PROVED, name);
        assert_eq!(ran.status.code(), Some(1), "{}", String::from_utf8_lossy(&ran.stdout));
    }
}

#[test]
fn a_signal_handler_may_call_within_a_call() {
    let ran = run("nested.c", vbsys::LIBRARY, "nested");
    assert!(ran.status.success(), "{}", String::from_utf8_lossy(&ran.stdout));
}

#[test]
fn the_library_shows_the_headers_functions_and_nothing_else() {
    let names =
        output("nm", &["--defined-only", "--extern-only", "--format=posix", vbsys::LIBRARY]);
    let shown: BTreeSet<&str> =
        names.lines().filter_map(|line| line.split_once(" T ")).map(|pair| pair.0).collect();
    assert_eq!(shown, declared());
    assert_eq!(names.lines().filter(|line| line.contains(' ')).count(), shown.len(), "{names}");
    let needed = output("nm", &["--undefined-only", "--format=posix", vbsys::LIBRARY]);
    let needed = needed.lines().filter_map(|line| line.split_once(" U")).map(|pair| pair.0);
    for name in needed {
        assert!(
            ["memcpy", "memset", "memmove", "memcmp", "_GLOBAL_OFFSET_TABLE_"].contains(&name),
            "{name}"
        );
    }
}

/// Whether an instruction computes with floats: scalar or packed, single or double, and not a move or bitwise.
fn computes(mnemonic: &str) -> bool {
    let float = ["ss", "sd", "ps", "pd"].iter().any(|end| mnemonic.ends_with(end));
    let plain = ["mov", "shuf", "unpck", "and", "or", "xor"];
    float && !plain.iter().any(|start| mnemonic.starts_with(start)) || mnemonic.starts_with("cvt")
}

/// A function's instructions, as mnemonic and operands, and the functions that it calls or jumps to.
#[derive(Default)]
struct Code {
    instructions: BTreeSet<(String, String)>,
    reached: BTreeSet<String>,
}

/// The functions of libvb by name, from the shared library, whose calls are resolved.
fn disassembled() -> BTreeMap<String, Code> {
    let shared = Path::new(vbsys::LIBRARY).with_file_name(format!("libvb.so.{}", vbsys::VERSION));
    let shared = shared.to_str().expect("a plain path");
    let text = output("objdump", &["-d", "--no-show-raw-insn", shared]);
    let mut functions: BTreeMap<String, Code> = BTreeMap::new();
    let mut current = String::new();
    for line in text.lines() {
        if let Some((_, name)) = line.strip_suffix(">:").and_then(|line| line.split_once('<')) {
            current = name.to_string();
            functions.entry(current.clone()).or_default();
        } else if let Some((_, instruction)) = line.split_once(":\t") {
            let function = functions.get_mut(&current).expect("a function's code");
            let (mnemonic, operands) = instruction.split_once(' ').unwrap_or((instruction, ""));
            function.instructions.insert((mnemonic.to_string(), operands.trim().to_string()));
            let target = operands.split_once('<').map_or("", |(_, name)| name);
            let name = target.split(['+', '>']).next().unwrap_or("");
            if ["call", "j"].iter().any(|start| mnemonic.starts_with(start)) && name != current {
                function.reached.insert(name.to_string());
            }
        }
    }
    functions
}

/// A function with all that it calls, and what these call; those outside libvb too.
fn reached(functions: &BTreeMap<String, Code>, start: &str) -> BTreeSet<String> {
    let (mut seen, mut open) = (BTreeSet::new(), vec![start.to_string()]);
    while let Some(name) = open.pop() {
        if !name.is_empty() && seen.insert(name.clone()) {
            let code = functions.get(&name);
            open.extend(code.iter().flat_map(|code| code.reached.iter().cloned()));
        }
    }
    seen
}

#[test]
fn only_the_guarded_calls_compute_with_floats() {
    let functions = disassembled();
    let reaches = |start: &str| {
        let (mut seen, mut open) = (BTreeSet::new(), vec![start.to_string()]);
        while let Some(name) = open.pop() {
            if let Some(code) = functions.get(&name) {
                if seen.insert(name) {
                    open.extend(code.reached.iter().cloned());
                }
            }
        }
        seen
    };
    let float = |name: &String| functions[name].instructions.iter().any(|(name, _)| computes(name));
    let computing = declared().into_iter().filter(|name| reaches(name).iter().any(float));
    assert_eq!(computing.collect::<Vec<_>>(), GUARDED);
    // a call through a register would lead elsewhere unseen
    let proved = functions.iter().filter(|(name, _)| name.contains("::") || name.contains("vb_"));
    for (name, code) in proved {
        let hidden = |(mnemonic, operands): &(String, String)| {
            mnemonic == "call" && operands.starts_with('*')
        };
        assert!(!code.instructions.iter().any(hidden), "{name}");
    }
}

/// The caller's x87 unit may hold an exception that its next instruction raises, MMX instructions too.
#[test]
fn no_call_uses_the_mmx_or_the_x87_unit() {
    for (name, code) in disassembled() {
        for (mnemonic, operands) in &code.instructions {
            let touches =
                mnemonic.starts_with('f') || mnemonic == "emms" || operands.contains("%mm");
            assert!(!touches && mnemonic != "(bad)", "{name}: {mnemonic} {operands}");
        }
    }
}

/// The proved functions alone.
#[test]
fn the_proved_functions_use_neither_the_mmx_nor_the_x87_unit() {
    let functions = disassembled();
    assert!(GUARDED.iter().all(|name| functions.contains_key(&format!("proved_{name}"))));
    for (name, code) in functions.iter().filter(|(name, _)| !GUARDED.contains(&name.as_str())) {
        for (mnemonic, operands) in &code.instructions {
            let touches =
                mnemonic.starts_with('f') || mnemonic == "emms" || operands.contains("%mm");
            assert!(!touches && mnemonic != "(bad)", "{name}: {mnemonic} {operands}");
        }
    }
}

/// The guard keeps the return address and MXCSR in xmm15 and xmm14 while a proved function runs.
#[test]
fn what_the_guard_keeps_in_registers_no_proved_function_touches() {
    let functions = disassembled();
    for name in GUARDED.map(|name| format!("proved_{name}")) {
        for inner in reached(&functions, &name) {
            let code = functions.get(&inner);
            let code = code.filter(|_| !inner.ends_with("@plt"));
            let code = code.unwrap_or_else(|| panic!("{name} calls {inner}, outside libvb"));
            for (mnemonic, operands) in &code.instructions {
                let kept = ["mm14", "mm15"].iter().any(|register| operands.contains(register));
                assert!(!kept, "{inner}: {mnemonic} {operands}");
                let whole = mnemonic.starts_with("vzero") || mnemonic.starts_with("xrstor");
                assert!(!whole && mnemonic != "fxrstor", "{inner}: {mnemonic}");
            }
        }
    }
}

#[test]
fn the_guard_is_short() {
    assert!(GUARD.lines().count() < 150);
}

#[test]
fn the_library_says_its_version() {
    assert_eq!(vbsys::version(), vbsys::VERSION);
    let text = vbsys::version_text();
    let parts: Vec<&str> = text.split(", ").collect();
    assert_eq!(parts.len(), 4, "{text}");
    assert_eq!(parts[0], concat!("libvb ", env!("CARGO_PKG_VERSION")));
    assert!(parts[1].contains("commit "), "{text}");
    let digest = parts[2].strip_prefix("proved archive SHA-256 ").expect("the digest");
    assert!(digest.len() == 64 && digest.chars().all(|c| c.is_ascii_hexdigit()), "{text}");
    if Path::new(vbsys::PROVED).is_file() {
        assert!(output("sha256sum", &[vbsys::PROVED]).starts_with(digest), "{text}");
    }
    assert!(
        parts[3] == "not proved in this build" || parts[3].starts_with("proved in this build by "),
        "{text}"
    );
}

#[test]
fn every_refusal_has_a_sentence_of_its_own() {
    let numbers = || (0..=17).chain([vbsys::MISUSE]);
    let texts: BTreeSet<&str> = numbers().map(vbsys::refusal_text).collect();
    assert_eq!(texts.len(), numbers().count());
    assert!(!texts.contains("unknown"));
    for number in (18..255).chain([256, u32::MAX]) {
        assert_eq!(vbsys::refusal_text(number), "unknown");
    }
}
