//! What is wrong with the arguments, on one line: the option, what was given, what is allowed.

use std::error::Error as _;
use std::ffi::OsString;

use clap::error::{ContextKind, ContextValue, ErrorKind};
use clap::Command;

/// The line for an argument error of the command line parser.
pub fn wrong(error: &clap::Error, command: &Command, arguments: &[OsString]) -> String {
    let help = help_of(command, arguments);
    let one = |kind| match error.get(kind) {
        Some(ContextValue::String(text)) => Some(text.as_str()),
        _ => None,
    };
    let all = |kind| match error.get(kind) {
        Some(ContextValue::Strings(texts)) => texts.clone(),
        Some(ContextValue::String(text)) => vec![text.clone()],
        _ => Vec::new(),
    };
    let given = one(ContextKind::InvalidArg).unwrap_or_default();
    let option = option_of(given);
    let value = one(ContextKind::InvalidValue).unwrap_or_default();
    match error.kind() {
        ErrorKind::ValueValidation => {
            let rule = error.source().map(ToString::to_string);
            let rule = rule.unwrap_or_else(|| format!("`{value}` is not allowed"));
            format!("{option}: {rule}")
        }
        ErrorKind::InvalidValue if value.is_empty() => {
            format!("{option}: the value is missing; write {}", plain(given))
        }
        ErrorKind::InvalidValue => {
            let allowed = alternatives(&all(ContextKind::ValidValue));
            format!("{option}: `{value}` is not allowed; write {allowed}")
        }
        ErrorKind::UnknownArgument => {
            let near = one(ContextKind::SuggestedArg);
            let near = near.map(|near| format!("; the nearest is `{near}`")).unwrap_or_default();
            format!("`{option}` is not an argument here{near}; {help} lists them")
        }
        ErrorKind::InvalidSubcommand => {
            let name = one(ContextKind::InvalidSubcommand).unwrap_or_default();
            let near = all(ContextKind::SuggestedSubcommand);
            let near = near.first().map(|near| format!("; the nearest is `{near}`"));
            format!("`{name}` is not a command{}; {help} lists them", near.unwrap_or_default())
        }
        ErrorKind::MissingRequiredArgument => {
            let missing: Vec<String> =
                all(ContextKind::InvalidArg).iter().map(|one| plain(one)).collect();
            format!("{} is missing; {help} has an example", listed(&missing))
        }
        ErrorKind::ArgumentConflict => match all(ContextKind::PriorArg) {
            others if others.iter().all(|other| other == given) => {
                format!("{option}: is given twice; once is allowed")
            }
            others => {
                let others: Vec<String> = others.iter().map(|other| option_of(other)).collect();
                format!("{option}: cannot be used with {}; only one is allowed", listed(&others))
            }
        },
        ErrorKind::NoEquals => {
            format!("{option}: the value comes after `=`; write {}", plain(given))
        }
        ErrorKind::TooManyValues => {
            format!("{option}: `{value}` is one value too many; write {}", plain(given))
        }
        ErrorKind::TooFewValues | ErrorKind::WrongNumberOfValues => {
            format!("{option}: it has too few or too many values; write {}", plain(given))
        }
        ErrorKind::InvalidUtf8 => format!("an argument is not text in UTF-8; {help} lists them"),
        _ => {
            let first = error.to_string();
            let first = first.lines().next().unwrap_or_default().trim_start_matches("error: ");
            format!("{first}; {help} has an example")
        }
    }
}

/// The help of the command that was named, as one types it.
fn help_of(command: &Command, arguments: &[OsString]) -> String {
    let mut named = String::new();
    let mut at = command;
    for word in arguments.iter().skip(1).filter_map(|word| word.to_str()) {
        match at.find_subcommand(word) {
            Some(inner) => at = inner,
            None => break,
        }
        named += &format!(" {word}");
    }
    format!("`vbmodel help{named}`")
}

/// `--budget` of `--budget <N>`, and `TRACE` of `<TRACE>...`.
fn option_of(argument: &str) -> String {
    let first = argument.split([' ', '=']).next().unwrap_or(argument);
    let first = first.trim_end_matches('[');
    plain(first)
}

/// `--budget N` of `--budget <N>`.
fn plain(argument: &str) -> String {
    argument.replace(['<', '>'], "").trim_end_matches("...").to_string()
}

/// `a`, `a and b`, `a, b and c`.
fn listed(all: &[String]) -> String {
    match all {
        [] => String::new(),
        [one] => one.clone(),
        [first @ .., last] => format!("{} and {last}", first.join(", ")),
    }
}

/// `a`, `a or b`, `a, b or c`.
fn alternatives(all: &[String]) -> String {
    match all {
        [first @ .., last] if !first.is_empty() => format!("{} or {last}", first.join(", ")),
        _ => listed(all),
    }
}
