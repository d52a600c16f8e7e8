//! Which crates need packages, and that `./setup` installs all of them.

use std::fs;
use std::path::Path;

/// The dependencies of a crate that lie in no folder of the repository.
fn packages(manifest: &str) -> Vec<String> {
    let root = Path::new(env!("CARGO_MANIFEST_DIR")).join("..");
    let text = fs::read_to_string(root.join(manifest)).unwrap();
    let table: toml::Value = toml::from_str(&text).unwrap();
    let mut names = Vec::new();
    for section in ["dependencies", "dev-dependencies", "build-dependencies"] {
        let section = table.get(section).and_then(toml::Value::as_table);
        for (name, about) in section.into_iter().flatten() {
            if about.get("path").is_none() {
                names.push(name.clone());
            }
        }
    }
    names
}

#[test]
fn the_librarys_crates_and_the_model_need_std_alone() {
    for name in ["model", "vb", "vbsys"] {
        assert_eq!(packages(&format!("rust/{name}/Cargo.toml")), [""; 0], "{name}");
    }
}

#[test]
fn setup_installs_what_the_tool_and_the_differential_tests_need() {
    let (tool, tests) = (packages("tool/Cargo.toml"), packages("rust/difftests/Cargo.toml"));
    for name in ["serde_json", "tempfile", "signal-hook", "rayon", "png", "clap"] {
        assert!(tool.iter().any(|package| package == name), "{name}: {tool:?}");
    }
    assert_eq!(tests, ["libc", "proptest"]);
    let setup = include_str!("../../setup");
    for name in tool.iter().chain(&tests) {
        let package = format!("librust-{}", name.replace('_', "-"));
        let installed = setup.split_whitespace().any(|word| {
            let word = word.trim_start_matches("packages=\"").trim_end_matches('"');
            word == format!("{package}-dev") || word == format!("{package}+std-dev")
        });
        assert!(installed, "{name}");
    }
}

#[test]
fn the_packages_copyright_file_names_every_library_that_the_tool_links() {
    let copyright = include_str!("../../packaging/copyright");
    let named: Vec<&str> = copyright.split([' ', ',', '\n']).collect();
    let root = Path::new(env!("CARGO_MANIFEST_DIR")).join("..");
    let text = fs::read_to_string(root.join("tool/Cargo.toml")).unwrap();
    let table: toml::Value = toml::from_str(&text).unwrap();
    let linked = table["dependencies"].as_table().unwrap().iter();
    for (name, _) in linked.filter(|(_, about)| about.get("path").is_none()) {
        assert!(named.contains(&name.as_str()), "{name}");
    }
}
