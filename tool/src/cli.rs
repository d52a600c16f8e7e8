//! The command line: the commands, their options, and what is printed.

use std::ffi::OsString;
use std::io::{self, stderr, stdout, Write};

use clap::error::ErrorKind;
use clap::{CommandFactory, FromArgMatches, Parser, Subcommand};

use crate::commands::{self, Report};
use crate::failure::Failure;
use crate::files::printable;
use crate::interrupt;
use crate::reports::arguments::wrong;
use crate::reports::json::json;

#[derive(Parser)]
#[command(
    name = "vbmodel",
    version,
    long_version = crate::version::text(),
    about = "Runs, draws and compares the proved reference model of the console",
    after_help = "Start with `vbmodel demo`; `vbmodel help COMMAND` has an example for each command.
Numbers are decimal or, after 0x, hexadecimal; `_` may stand between digits. The file `-` is standard input; where a
command is for one file, it is standard output there.
No output may be a file that the command reads. All outputs are written, or none.

Exit status: 0 done (compare, judge, replay: pass); 1 compare, judge, replay: fail; 2 refused or bad input, or a capture
or trace that cannot be judged; 3 why, compare --why, judge, selftest: the independent model and the proved library
differ; 130 stopped by Ctrl-C, SIGTERM or SIGHUP."
)]
struct Cli {
    #[command(subcommand)]
    command: Command,
}

#[derive(Subcommand)]
enum Command {
    /// Runs a small program for the console from reset and writes both frames as PNG
    Demo(commands::demo::Options),
    /// Runs a program from memory images and prints the answer, the count and the registers
    Run(Box<commands::run::Options>),
    /// Records a trace of a program: four words per completed step
    Trace(Box<commands::trace::Options>),
    /// Compares a die's recorded trace with the model and explains the first record that differs
    Replay(Box<commands::replay::Options>),
    /// Follows a program: what each instruction does to registers and memory
    Step(Box<commands::step::Options>),
    /// Draws a frame from VRAM and drawing registers and writes PNGs
    Draw(commands::draw::Options),
    /// Compares the model's frame with a die's capture of it
    Compare(commands::compare::Options),
    /// Judges a whole lot by its captures, or by a test plan, with a report
    Judge(Box<commands::judge::Options>),
    /// Writes what the model expects of a test plan: frames and traces
    Expect(commands::expect::Options),
    /// Reads a report's files again and judges its lot again
    Verify(commands::verify::Options),
    /// Joins the reports of a lot's shards
    Merge(commands::merge::Options),
    /// Lists the faults that a die can have
    Faults(commands::faults::Options),
    /// Tells which faults a test plan detects, and which bad parts it would pass
    Coverage(commands::coverage::Options),
    /// Shows which worlds and objects cover a pixel, and the bytes it answers to
    Why(commands::why::Options),
    /// Assembles a program into a ROM image
    Asm(commands::asm::Options),
    /// Disassembles a ROM image into text that assembles to the same bytes
    Disasm(commands::disasm::Options),
    /// Shows what a saved state holds, or which rule it breaks
    State(commands::state::Options),
    /// Checks the linked library on this machine against the independent model and recorded answers
    Selftest(commands::selftest::Options),
    /// Prints completions for a shell
    Completions(commands::pages::Completions),
    /// Prints the manual page
    Man(commands::pages::Man),
}

impl Command {
    fn json(&self) -> bool {
        match self {
            Command::Demo(_) | Command::Completions(_) | Command::Man(_) => false,
            Command::Run(options) => options.json,
            Command::Step(options) => options.json,
            Command::Trace(options) => options.json,
            Command::Replay(options) => options.json,
            Command::Draw(options) => options.json,
            Command::Compare(options) => options.json,
            Command::Judge(options) => options.json,
            Command::Expect(options) => options.json,
            Command::Verify(options) => options.json,
            Command::Merge(options) => options.json,
            Command::Faults(options) => options.json,
            Command::Coverage(options) => options.json,
            Command::Why(options) => options.json,
            Command::Asm(options) => options.json,
            Command::Disasm(options) => options.json,
            Command::State(options) => options.json(),
            Command::Selftest(options) => options.json,
        }
    }

    /// Whether it takes long, and says what it did so far when a signal comes.
    fn looks_at_signals(&self) -> bool {
        matches!(
            self,
            Command::Run(_)
                | Command::Step(_)
                | Command::Trace(_)
                | Command::Replay(_)
                | Command::Judge(_)
                | Command::Expect(_)
                | Command::Verify(_)
                | Command::Coverage(_)
        )
    }

    fn run(&self) -> Result<Report, Failure> {
        match self {
            Command::Demo(options) => commands::demo::run(options),
            Command::Run(options) => commands::run::run(options),
            Command::Step(options) => commands::step::run(options),
            Command::Trace(options) => commands::trace::run(options),
            Command::Replay(options) => commands::replay::run(options),
            Command::Draw(options) => commands::draw::run(options),
            Command::Compare(options) => commands::compare::run(options),
            Command::Judge(options) => commands::judge::run(options),
            Command::Expect(options) => commands::expect::run(options),
            Command::Verify(options) => commands::verify::run(options),
            Command::Merge(options) => commands::merge::run(options),
            Command::Faults(options) => commands::faults::run(options),
            Command::Coverage(options) => commands::coverage::run(options),
            Command::Why(options) => commands::why::run(options),
            Command::Asm(options) => commands::asm::run(options),
            Command::Disasm(options) => commands::disasm::run(options),
            Command::State(options) => commands::state::run(options),
            Command::Selftest(options) => commands::selftest::run(options),
            Command::Completions(options) => {
                Ok(commands::pages::completions(options, Cli::command()))
            }
            Command::Man(_) => Ok(commands::pages::man(&Cli::command())),
        }
    }
}

/// Does what the arguments say, the first being the program's name, and gives the exit status. Where standard output is
/// closed, what is printed would be lost: nothing is done.
pub fn run(arguments: Vec<OsString>, output_is_closed: bool) -> i32 {
    if output_is_closed {
        warn("vbmodel: standard output: is closed; it must be open, to a file, a pipe or a terminal\n");
        return 2;
    }
    let parsed = description().try_get_matches_from(&arguments);
    match parsed.and_then(|matches| Cli::from_arg_matches(&matches)) {
        Ok(Cli { command }) => {
            if !command.looks_at_signals() {
                interrupt::at_once();
            }
            reported(command.run(), command.json())
        }
        Err(error) if error.kind() == ErrorKind::DisplayHelpOnMissingArgumentOrSubcommand => {
            warn(&error.to_string());
            2
        }
        Err(error) if error.use_stderr() => {
            let line = wrong(&error, &Cli::command(), &arguments);
            let wants_json = arguments.iter().any(|argument| argument == "--json");
            reported(Err(Failure::bad(printable(&line))), wants_json)
        }
        Err(help) => printed(&help.to_string(), 0),
    }
}

/// The commands; a value may be a negative number, which its own rule refuses or takes.
fn description() -> clap::Command {
    let names = Cli::command();
    let names: Vec<String> =
        names.get_subcommands().map(|one| one.get_name().to_string()).collect();
    names.into_iter().fold(Cli::command(), |all, name| {
        all.mut_subcommand(name, |one| one.allow_negative_numbers(true))
    })
}

/// Prints what a command did or why it did not, and gives the exit status.
fn reported(done: Result<Report, Failure>, as_json: bool) -> i32 {
    match done {
        Ok(report) => {
            let text = if as_json { report.json + "\n" } else { report.text };
            let status = match report.aside {
                true => {
                    warn(&text);
                    report.status
                }
                false => printed(&text, report.status),
            };
            if let Some(failure) = report.failure {
                warn(&format!("vbmodel: {}\n", failure.message));
            }
            status
        }
        Err(failure) => {
            warn(
                &failure
                    .message
                    .lines()
                    .map(|line| format!("vbmodel: {line}\n"))
                    .collect::<String>(),
            );
            let text = if as_json { json(&failure) + "\n" } else { String::new() };
            printed(&text, if interrupt::asked() { interrupt::STATUS } else { 2 })
        }
    }
}

/// Prints to standard output. A reader that has gone away is not an error of the command; anything else is one.
fn printed(text: &str, status: i32) -> i32 {
    let mut out = stdout().lock();
    match out.write_all(safe(text).as_bytes()).and_then(|()| out.flush()) {
        Err(error) if error.kind() != io::ErrorKind::BrokenPipe => {
            warn(&format!("vbmodel: standard output: {error}\n"));
            2
        }
        _ => status,
    }
}

fn warn(text: &str) {
    let _ = stderr().write_all(safe(text).as_bytes());
}

/// Text whose lines have no control characters, whatever file they came from.
fn safe(text: &str) -> String {
    text.split_inclusive('\n')
        .map(|line| match line.strip_suffix('\n') {
            Some(line) => printable(line) + "\n",
            None => printable(line),
        })
        .collect()
}

#[cfg(test)]
mod tests {
    use super::*;
    use std::collections::BTreeSet;

    /// The parser's own check runs in a debug build alone; names of groups and options that are there twice are found in
    /// both.
    #[test]
    fn the_parsers_description_of_every_command_is_sound() {
        description().debug_assert();
        let all = description();
        for command in std::iter::once(&all).chain(all.get_subcommands()) {
            let groups: Vec<_> =
                command.get_groups().map(|group| group.get_id().as_str()).collect();
            let options: Vec<_> =
                command.get_arguments().filter_map(|one| one.get_long()).collect();
            for names in [groups, options] {
                let distinct: BTreeSet<&str> = names.iter().copied().collect();
                assert_eq!(distinct.len(), names.len(), "{}: {names:?}", command.get_name());
            }
        }
    }
}
