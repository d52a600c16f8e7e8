//! `vbmodel selftest`: it passes with the proved library, names its seed, and repeats itself from it.

mod common;

use common::{Folder, Rgb, HEIGHT, WIDTH};
use sha2::{Digest, Sha256};

const CHECKS: [&str; 10] = [
    "digest",
    "worked rows",
    "accesses",
    "programs",
    "interrupts",
    "floats",
    "frames",
    "byte lists",
    "saved states",
    "demo",
];

#[test]
fn the_proved_library_agrees_in_every_check() {
    let ran = Folder::new("selftest").vbmodel("selftest --seconds 1 --seed 0xC0FFEE");
    assert_eq!((ran.status, ran.error.as_str()), (0, ""), "{}", ran.text);
    assert!(ran.text.starts_with("seed 0xC0FFEE\n"), "{}", ran.text);
    for check in CHECKS {
        assert!(ran.text.contains(&format!("\nagrees   {check}")), "{check}: {}", ran.text);
    }
    assert!(ran.text.contains("\neverything agrees in "), "{}", ran.text);
}

#[test]
fn json_has_the_seed_and_every_check() {
    let ran = Folder::new("selftest-json").vbmodel("selftest --seconds 1 --json");
    assert_eq!((ran.status, ran.error.as_str()), (0, ""));
    let answer: serde_json::Value = serde_json::from_str(&ran.text).unwrap();
    assert!(answer["seed"].is_u64() && answer["agrees"] == true, "{answer}");
    let names: Vec<&str> = answer["checks"]
        .as_array()
        .unwrap()
        .iter()
        .map(|check| check["check"].as_str().unwrap())
        .collect();
    assert_eq!(names, CHECKS);
}

#[test]
fn seconds_outside_its_range_are_refused() {
    let folder = Folder::new("selftest-seconds");
    for seconds in ["0", "86_401", "-1", "x"] {
        let ran = folder.vbmodel(&format!("selftest --seconds {seconds}"));
        assert_eq!((ran.status, ran.text.as_str()), (2, ""), "{seconds}");
    }
}

/// The recorded hash is that of the pictures that the independent model drew.
#[test]
fn the_recorded_pictures_are_the_golden_ones() {
    let mut hash = Sha256::new();
    for frame in 0..2 {
        let path =
            format!("{}/tests/golden/frame{frame}-side-by-side.png", env!("CARGO_MANIFEST_DIR"));
        let golden = Rgb::read(&std::fs::read(path).unwrap());
        for eye in 0..2 {
            let places = (0..HEIGHT).flat_map(|y| (0..WIDTH).map(move |x| (x + WIDTH * eye, y)));
            let values: Vec<u8> = places.map(|(x, y)| golden.at(x, y)[0] / 0x55).collect();
            hash.update(values);
        }
    }
    let seen: String = hash.finalize().iter().map(|byte| format!("{byte:02x}")).collect();
    assert_eq!(seen, vbmodel::selftest::PICTURES);
}

/// As the package installs it: the program, and a list of sums.
#[test]
fn a_program_with_another_sum_than_the_installed_list_says_is_found() {
    let folder = Folder::new("selftest-sum");
    for name in ["bin", "share/doc/vbmodel"] {
        std::fs::create_dir_all(folder.path(name)).unwrap();
    }
    std::fs::copy(env!("CARGO_BIN_EXE_vbmodel"), folder.path("bin/vbmodel")).unwrap();
    let list = "share/doc/vbmodel/SHA256SUMS";
    let sum: String = Sha256::digest(folder.read("bin/vbmodel"))
        .iter()
        .map(|byte| format!("{byte:02x}"))
        .collect();
    folder.write(list, format!("{sum}  usr/bin/vbmodel\n").as_bytes());
    let ran = folder.shell("bin/vbmodel selftest --seconds 1");
    assert_eq!(ran.status, 0, "{}", ran.text);
    assert!(ran.text.contains("; the program has its recorded sum\n"), "{}", ran.text);
    folder.write(list, format!("{}  usr/bin/vbmodel\n", "0".repeat(64)).as_bytes());
    let ran = folder.shell("bin/vbmodel selftest --seconds 1");
    assert_eq!(ran.status, 3, "{}", ran.text);
    assert!(ran.text.contains("\nDIFFERS  digest "), "{}", ran.text);
}
