//! `vbmodel completions` and `vbmodel man`: what a shell and a manual reader know of the tool, both made from its own
//! description of its commands. Debian has clap's generator of completions, and none of manual pages.

use clap::{Arg, Args, Command};
use clap_complete::{generate, Shell};

use super::Report;

#[derive(Args)]
#[command(after_help = "Example: for bash, in the shell that is open
  vbmodel completions bash >vbmodel.bash && . ./vbmodel.bash

Exit status: 0 printed; 2 a shell that is not known.")]
pub struct Completions {
    /// Which shell
    #[arg(value_enum)]
    shell: Shell,
}

#[derive(Args)]
#[command(after_help = "Example: read it, or keep it
  vbmodel man | man -l -
  vbmodel man >vbmodel.1

Exit status: 0 printed.")]
pub struct Man {}

pub fn completions(options: &Completions, mut command: Command) -> Report {
    let mut bytes = Vec::new();
    generate(options.shell, &mut command, "vbmodel", &mut bytes);
    Report::new(String::from_utf8_lossy(&bytes).into_owned(), &(), 0)
}

pub fn man(command: &Command) -> Report {
    let about = command.get_about().map(ToString::to_string).unwrap_or_default();
    let mut page = vec![
        format!(".TH VBMODEL 1 \"\" \"vbmodel {}\"", command.get_version().unwrap_or_default()),
        ".SH NAME".to_string(),
        format!("vbmodel \\- {}", escaped(&about)),
        ".SH SYNOPSIS".to_string(),
        ".B vbmodel\n.I COMMAND\n.RI [ OPTIONS ]".to_string(),
        ".SH DESCRIPTION".to_string(),
        verbatim(command),
    ];
    page.extend(sections(command, "VBMODEL"));
    page.extend(PAGES.map(str::to_string));
    Report::new(page.join("\n") + "\n", &(), 0)
}

/// Where a reader goes on.
const PAGES: [&str; 5] = [
    ".SH SEE ALSO",
    ".I /usr/share/doc/vbmodel/docs/TOOL.md\n(the manual),",
    ".I /usr/share/doc/vbmodel/docs/CONSOLE.md\n(memory, registers, instructions, assembler),",
    ".I /usr/share/doc/vbmodel/docs/README.md\n(all pages);",
    "in the archive they are in share/doc/vbmodel/docs.",
];

/// A section for each command of a command, and for each of theirs.
fn sections(command: &Command, above: &str) -> Vec<String> {
    let mut lines = Vec::new();
    for one in command.get_subcommands().filter(|one| one.get_name() != "help") {
        let name = format!("{above} {}", one.get_name().to_uppercase());
        lines.extend(section(one, &name));
        lines.extend(sections(one, &name));
    }
    lines
}

fn section(command: &Command, name: &str) -> Vec<String> {
    let about = command.get_about().map(ToString::to_string).unwrap_or_default();
    let mut lines = vec![format!(".SH {name}"), escaped(&about) + "."];
    for argument in command.get_arguments().filter(|one| one.get_id() != "help") {
        lines.push(".TP".to_string());
        lines.push(format!(".B {}", escaped(&spelled(argument))));
        lines.push(escaped(&argument.get_help().map(ToString::to_string).unwrap_or_default()));
    }
    lines.push(".PP".to_string());
    lines.push(verbatim(command));
    lines
}

/// `--frame N`, or the value's name alone.
fn spelled(argument: &Arg) -> String {
    let values: Vec<String> = match argument.get_value_names() {
        Some(names) if argument.get_action().takes_values() => {
            names.iter().map(ToString::to_string).collect()
        }
        _ => Vec::new(),
    };
    match argument.get_long() {
        Some(long) => format!("--{long} {}", values.join(" ")).trim_end().to_string(),
        None => values.join(" "),
    }
}

/// The text after a command's help, its lines kept.
fn verbatim(command: &Command) -> String {
    let text = command.get_after_help().map(ToString::to_string).unwrap_or_default();
    format!(".nf\n{}\n.fi", escaped(&text))
}

/// Text that the page shows as it is.
fn escaped(text: &str) -> String {
    let text = text.replace('\\', "\\e").replace('-', "\\-");
    let line = |line: &str| match line.starts_with(['.', '\'']) {
        true => format!("\\&{line}"),
        false => line.to_string(),
    };
    text.lines().map(line).collect::<Vec<_>>().join("\n")
}
