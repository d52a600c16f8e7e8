//! `vbmodel why` and `compare --why`: a difference explains itself.

mod common;

use common::Folder;
use serde_json::Value;

const SCENE: &str = "--vram out/vram.bin --drawing out/drawing.bin";

/// Every number of a text line must be a member of the JSON somewhere.
fn numbers(value: &Value, into: &mut Vec<i64>) {
    match value {
        Value::Number(n) => into.extend(n.as_i64()),
        Value::Array(all) => all.iter().for_each(|one| numbers(one, into)),
        Value::Object(all) => all.values().for_each(|one| numbers(one, into)),
        _ => {}
    }
}

#[test]
fn records_are_decoded_with_their_names() {
    let folder = Folder::with_demo("why-records");
    let ran = folder.vbmodel(&format!("why left 192 120 {SCENE}"));
    assert_eq!(ran.status, 0, "{}", ran.error);
    for name in [
        "GX ",
        "GP ",
        "GY ",
        "MX ",
        "MP ",
        "MY ",
        " W ",
        " H ",
        " rows stored, ",
        " shown)",
        " columns)",
        "base ",
        "SCX ",
        "SCY ",
    ] {
        let line = ran.text.lines().find(|line| line.starts_with("      H-bias LON RON"));
        assert!(line.is_some_and(|line| line.contains(name)), "{name}: {}", ran.text);
    }
    let worlds = ran.text.split("worlds, from 31 downwards:\n").nth(1).unwrap();
    assert!(worlds.contains("OVER, GX "), "{worlds}");
    assert!(worlds.contains(", overplane "), "{worlds}");
    // the covering object's record, and where its cell of a background lies
    assert!(ran.text.contains("\n    JX "), "{}", ran.text);
    assert!(ran.text.contains(" (map "), "{}", ran.text);
    // why one does not cover
    assert!(ran.text.contains("does not hold row 120\n"), "{}", ran.text);
    assert!(
        ran.text.contains(" cover the pixel, ") && ran.text.contains(" lie elsewhere\n"),
        "{}",
        ran.text
    );
}

#[test]
fn the_json_has_all_that_the_text_has() {
    let folder = Folder::with_demo("why-json");
    for pixel in ["left 192 120", "right 150 218", "left 75 120"] {
        let text = folder.vbmodel(&format!("why {pixel} {SCENE} --objects")).text;
        let json = folder.vbmodel(&format!("why {pixel} {SCENE} --objects --json"));
        let value: Value = serde_json::from_str(&json.text).unwrap();
        let mut all = Vec::new();
        numbers(&value, &mut all);
        for word in text.split(|c: char| !c.is_ascii_alphanumeric() && c != '-') {
            let number = match word.strip_prefix("0x") {
                Some(hex) => i64::from_str_radix(hex, 16).ok(),
                None => word.parse().ok(),
            };
            let Some(number) = number else { continue };
            // seven columns to the right of the first, as an object's square ends
            let known = all.contains(&number) || all.contains(&(number - 7)) || number == 31;
            assert!(known, "{pixel}: {word} of the text is not in the JSON");
        }
        let world = &value["worlds"][0]["record"];
        for name in [
            "gx", "gp", "gy", "mx", "mp", "my", "w", "h", "columns", "rows", "base", "scx", "scy",
            "over", "window",
        ] {
            assert!(!world[name].is_null(), "{name}: {world}");
        }
        let objects =
            value["worlds"].as_array().unwrap().iter().filter_map(|w| w["objects"].as_object());
        for group in objects {
            let count = |name: &str| group[name].as_u64().unwrap();
            assert_eq!(count("length"), count("covering") + count("hidden") + count("elsewhere"));
            assert_eq!(group["each"].as_array().unwrap().len() as u64, count("length"));
        }
    }
}

#[test]
fn compare_groups_differing_pixels_by_what_wins_there() {
    let folder = Folder::with_demo("why-compare");
    let compare =
        format!("compare {SCENE} --frame 1 --eyes left --left out/frame0-left.png --first 1 --why");
    let ran = folder.vbmodel(&compare);
    assert_eq!(ran.status, 1, "{}", ran.error);
    let shares: Vec<&str> = ran
        .text
        .lines()
        .skip_while(|line| *line != "  by what the model shows there:")
        .skip(1)
        .take_while(|line| line.starts_with("    "))
        .collect();
    let counts: Vec<u64> = shares
        .iter()
        .map(|line| line.split_whitespace().next().unwrap().replace(',', "").parse().unwrap())
        .collect();
    assert_eq!(counts.iter().sum::<u64>(), 11_715, "{}", ran.text);
    assert!(counts[..10].windows(2).all(|pair| pair[0] >= pair[1]), "{}", ran.text);
    assert_eq!((counts.len(), shares[10].ends_with(" others")), (11, true), "{}", ran.text);
    // each group's first pixel is given by what the group names
    for line in &shares[..10] {
        let words: Vec<&str> = line.split(|c: char| c == ',' || c.is_whitespace()).collect();
        let after = |name: &str| words[words.iter().rposition(|w| *w == name).unwrap() + 1];
        let why = folder.vbmodel(&format!("why left {} {} {SCENE}", after("column"), after("row")));
        let winner = why.text.lines().find(|line| line.ends_with("<- the pixel"));
        let what = line.split("  ").last().unwrap().split(", first at").next().unwrap();
        let named = match what.strip_prefix("object ") {
            Some(object) => format!(", object {}:", object.split(' ').next().unwrap()),
            None => what.to_string(),
        };
        assert!(winner.unwrap_or("BKCOL").contains(&named), "{line}: {winner:?}");
    }
    let json = folder.vbmodel(&format!("{compare} --json"));
    let value: Value = serde_json::from_str(&json.text).unwrap();
    assert_eq!(value["eyes"][0]["models_agree"], true);
    let all = value["eyes"][0]["why"].as_array().unwrap();
    let pixels: u64 = all.iter().map(|share| share["pixels"].as_u64().unwrap()).sum();
    assert!(all.len() > 10 && pixels == 11_715, "{} of {pixels}", all.len());
}

#[test]
fn the_list_is_the_proved_librarys_and_the_models_is_the_same() {
    let folder = Folder::with_demo("why-list");
    for pixel in ["left 192 120", "right 150 218", "left 75 120", "right 383 223"] {
        let ran = folder.vbmodel(&format!("why {pixel} {SCENE}"));
        let json = folder.vbmodel(&format!("why {pixel} {SCENE} --json"));
        assert_eq!((ran.status, json.status), (0, 0), "{pixel}");
        let value: Value = serde_json::from_str(&json.text).unwrap();
        let lists = &value["bytes"];
        assert_eq!(lists["library"], lists["model"], "{pixel}");
        let mut listed: Vec<u64> =
            lists["library"].as_array().unwrap().iter().map(|one| one.as_u64().unwrap()).collect();
        let head = format!(
            "the bytes it answers to, {}, proved; the independent model's are the same:\n",
            listed.len()
        );
        let (_, said) = ran.text.split_once(&head).unwrap_or_else(|| panic!("{}", ran.text));
        // two bytes a line, in drawing order
        let mut printed: Vec<u64> = said
            .lines()
            .map_while(|line| line.strip_prefix("  0x"))
            .map(|line| u64::from_str_radix(&line[..5], 16).unwrap())
            .flat_map(|address| [address, address + 1])
            .collect();
        printed.sort_unstable();
        listed.sort_unstable();
        assert_eq!(printed, listed, "{pixel}: {}", ran.text);
    }
}
