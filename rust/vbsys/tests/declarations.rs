//! Holds every foreign declaration of this crate against include/vb.h: the
//! functions by name, their answers, and each argument's type and name.

use std::collections::BTreeMap;

const SOURCE: &str = include_str!("../src/raw.rs");
const HEADER: &str = include_str!("../../../include/vb.h");

/// The answer's type, then each argument's type and name, in C's words.
type Signature = (String, Vec<(String, String)>);
type Signatures = BTreeMap<String, Signature>;

fn words(text: &str) -> String {
    text.split_whitespace().collect::<Vec<_>>().join(" ")
}

/// What stands between the first `open` after `from` and the `close` that belongs to it.
fn block(text: &str, from: usize, open: char, close: char) -> &str {
    let start = from + text[from..].find(open).expect("an opening bracket") + 1;
    let mut depth = 1;
    for (i, c) in text[start..].char_indices() {
        depth += i32::from(c == open) - i32::from(c == close);
        if depth == 0 {
            return &text[start..start + i];
        }
    }
    panic!("no closing bracket");
}

/// The type of this crate in C's words.
fn c_type(rust: &str) -> String {
    match rust {
        "*const u8" => "const uint8_t *".into(),
        "*mut u8" => "uint8_t *".into(),
        "*mut u32" => "uint32_t *".into(),
        "*const c_char" => "const char *".into(),
        "usize" => "size_t".into(),
        "u8" => "uint8_t".into(),
        "u16" => "uint16_t".into(),
        "u32" => "uint32_t".into(),
        "u64" => "uint64_t".into(),
        name if name.starts_with(char::is_uppercase) => format!("vb_{}", name.to_lowercase()),
        other => panic!("vb.h has no type for {other}"),
    }
}

fn rust_signatures(declarations: &str, into: &mut Signatures) {
    for declaration in declarations.split(';').map(words).filter(|text| !text.is_empty()) {
        let text = declaration.strip_prefix("pub fn ").expect("a function");
        let (name, _) = text.split_once('(').expect("arguments");
        let arguments = block(text, 0, '(', ')').split(',').map(str::trim);
        let arguments = arguments.filter(|text| !text.is_empty()).map(|argument| {
            let (name, kind) = argument.split_once(':').expect("name: type");
            (c_type(kind.trim()), name.trim().to_string())
        });
        let (_, answer) = text.split_once("->").expect("an answer");
        let signature = (c_type(answer.trim()), arguments.collect());
        assert!(into.insert(name.to_string(), signature).is_none(), "{name} is declared twice");
    }
}

/// What this crate declares: by its macro, and directly.
fn declared() -> Signatures {
    let mut signatures = Signatures::new();
    let at = SOURCE.find("macro_rules! on_memories").expect("the macro");
    let body = block(SOURCE, at, '{', '}');
    let each = block(body, body.find("extern \"C\"").expect("declarations"), '{', '}').trim();
    let each = each.strip_prefix("$(").and_then(|text| text.strip_suffix(")*")).expect("a call");
    let direct = SOURCE.replace(body, "");
    for (at, _) in direct.match_indices("on_memories! {") {
        let used = words(block(&direct, at, '{', '}'));
        let (memories, calls) = used.split_once(']').expect("how memories are passed");
        for call in calls.split(';').map(str::trim).filter(|text| !text.is_empty()) {
            let (head, answer) = call.split_once("->").expect("an answer");
            let (name, _) = head.split_once('(').expect("arguments");
            let mut text = each.replace("$function", name).replace("$answer", answer.trim());
            text = text.replace("$($name: $kind),*", block(head, 0, '(', ')'));
            for memory in memories.trim_start_matches('[').split(',') {
                let (memory, way) = memory.trim().split_once(": ").expect("memory: way");
                text = text.replace(&format!("${memory}"), way);
            }
            rust_signatures(&text, &mut signatures);
        }
    }
    for (at, _) in direct.match_indices("extern \"C\"") {
        rust_signatures(block(&direct, at, '{', '}'), &mut signatures);
    }
    signatures
}

/// The header without its comments, its lists of memories written out.
fn plain_header() -> String {
    let mut text = HEADER.replace("\\\n", " ");
    while let Some(start) = text.find("/*") {
        let end = start + text[start..].find("*/").expect("the comment's end") + 2;
        text.replace_range(start..end, " ");
    }
    for name in ["VB_READ_MEMORIES", "VB_PROBE_MEMORIES", "VB_MEMORIES"] {
        let define = format!("#define {name} ");
        let start = text.find(&define).expect("the list of memories");
        let end = start + text[start..].find('\n').expect("a line's end");
        let list = text[start + define.len()..end].to_string();
        text.replace_range(start..end, "");
        text = text.replace(name, &list);
    }
    text.lines().filter(|line| !line.starts_with('#')).collect::<Vec<_>>().join("\n")
}

fn promised() -> Signatures {
    let header = plain_header();
    let prototypes =
        header.split(';').map(words).filter(|text| text.contains("(") && !text.contains('{'));
    let prototype = |text: String| {
        let (head, _) = text.split_once('(').expect("arguments");
        let (answer, name) = head.split_at(head.rfind([' ', '*']).expect("an answer") + 1);
        let arguments = block(&text, 0, '(', ')').split(',').map(str::trim);
        let arguments = arguments.filter(|text| *text != "void").map(|argument| {
            let at = argument.rfind([' ', '*']).expect("type and name") + 1;
            (argument[..at].trim().to_string(), argument[at..].to_string())
        });
        (name.to_string(), (answer.trim().to_string(), arguments.collect()))
    };
    prototypes.map(prototype).collect()
}

#[test]
fn declarations_are_those_of_the_header() {
    let (here, there) = (declared(), promised());
    assert!(there.len() >= 12, "vb.h has at least the base's twelve functions: {there:?}");
    assert_eq!(here.keys().collect::<Vec<_>>(), there.keys().collect::<Vec<_>>());
    for (name, signature) in &there {
        assert_eq!(&here[name], signature, "{name}");
    }
}

#[test]
fn no_other_module_has_foreign_functions() {
    for text in [
        include_str!("../src/lib.rs"),
        include_str!("../src/calls.rs"),
        include_str!("../../vb/src/lib.rs"),
        include_str!("../../model/src/lib.rs"),
    ] {
        assert!(!text.contains("extern \"C\""));
    }
    assert!(include_str!("../../vb/src/lib.rs").contains("#![forbid(unsafe_code)]"));
}
