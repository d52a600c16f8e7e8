//! Completions and the manual page.

mod common;

use common::Folder;

#[test]
fn completions_know_every_command() {
    let folder = Folder::new("pages-completions");
    let commands = folder.commands();
    for shell in ["bash", "zsh", "fish"] {
        let made = folder.vbmodel(&format!("completions {shell}"));
        assert_eq!((made.status, made.error.as_str()), (0, ""));
        for command in &commands {
            assert!(made.text.contains(command), "{shell}: {command}");
        }
        assert!(made.text.contains("threshold"), "{shell}");
    }
    folder.write("vbmodel.bash", folder.vbmodel("completions bash").text.as_bytes());
    let ran = folder.shell(
        "command -v bash >/dev/null || { echo --frame; exit; }
         bash -c '. ./vbmodel.bash; COMP_WORDS=(vbmodel draw --fr); COMP_CWORD=2; _vbmodel vbmodel --fr draw; echo ${COMPREPLY[*]}'",
    );
    assert_eq!((ran.text.as_str(), ran.error.as_str()), ("--frame\n", ""));
    assert_eq!(folder.vbmodel("completions fly").status, 2);
}

#[test]
fn the_manual_page_has_every_command_and_option() {
    let folder = Folder::new("pages-man");
    let page = folder.vbmodel("man");
    assert_eq!((page.status, page.error.as_str()), (0, ""));
    assert!(page.text.starts_with(".TH VBMODEL 1 "), "{}", page.text);
    let inner = ["state show", "state move", "state salvage"].map(str::to_string);
    for command in folder.commands().into_iter().chain(inner) {
        assert!(
            page.text.contains(&format!("\n.SH VBMODEL {}\n", command.to_uppercase())),
            "{command}"
        );
        let help = folder.vbmodel(&format!("{command} --help")).text;
        for word in help.split(|c: char| c.is_whitespace() || c == '[' || c == '=') {
            let option = word.starts_with("--") && word.len() > 2 && word != "--help";
            if option && help.contains(&format!("      {word}")) {
                let shown = word.replace('-', "\\-");
                assert!(page.text.contains(&shown), "{command}: {word}");
            }
        }
    }
    assert!(page.text.contains("/usr/share/doc/vbmodel/docs/CONSOLE.md"), "the programmer's page");
    assert!(folder.vbmodel("help asm").text.contains("docs/CONSOLE.md"), "the programmer's page");
    folder.write("vbmodel.1", page.text.as_bytes());
    let ran =
        folder.shell("command -v groff >/dev/null || exit 0; groff -man -ww -z vbmodel.1 2>&1");
    assert_eq!((ran.status, ran.text.as_str()), (0, ""));
}
