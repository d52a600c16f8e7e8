//! `vbmodel selftest`: checks the linked library on this machine.

use std::io::{stdout, Write};
use std::time::{Duration, Instant, SystemTime, UNIX_EPOCH};

use clap::Args;
use serde::Serialize;

use super::Report;
use crate::failure::Failure;
use crate::inputs::number;
use crate::selftest::{self, Checked};

#[derive(Args)]
#[command(
    after_help = "Checks what you run: the specification's worked rows; the independent model against the proved library, on \
random accesses, programs, floating instructions, frames, byte lists and saved states; and the demo's pictures.

Example: a minute, and the inputs of an earlier run again
  vbmodel selftest --seconds 60
  vbmodel selftest --seed 0x1234

Exit status: 0 everything agrees; 3 something differs."
)]
pub struct Options {
    /// For how many seconds random inputs are tried, 1 to 86,400
    #[arg(long, value_name = "N", default_value = "4", value_parser = seconds)]
    seconds: u64,
    /// The seed of the random inputs; without it, one of the clock
    #[arg(long, value_name = "S", value_parser = number::whole)]
    seed: Option<u64>,
    /// Prints one JSON object
    #[arg(long)]
    pub json: bool,
}

#[derive(Serialize)]
struct Answer {
    seed: u64,
    agrees: bool,
    checks: Vec<Line>,
}

#[derive(Serialize)]
struct Line {
    check: &'static str,
    agrees: bool,
    what: String,
}

fn seconds(text: &str) -> Result<u64, String> {
    match number::whole(text) {
        Ok(seconds @ 1..=86_400) => Ok(seconds),
        _ => Err("it must be a whole number from 1 to 86,400".to_string()),
    }
}

pub fn run(options: &Options) -> Result<Report, Failure> {
    let begun = Instant::now();
    let seed = options.seed.unwrap_or_else(of_the_clock);
    let mut checks = Vec::new();
    let first = format!("seed 0x{seed:X}\n");
    show(options, &first);
    let agrees = selftest::run(seed, Duration::from_secs(options.seconds), |checked| {
        show(options, &line(checked));
        let Checked { name, what, agrees } = checked;
        checks.push(Line { check: name, agrees: *agrees, what: what.clone() });
    });
    let last = format!(
        "{} in {:.1} s\n",
        if agrees {
            "everything agrees"
        } else {
            "THE LIBRARY DIFFERS: do not judge parts with it"
        },
        begun.elapsed().as_secs_f64()
    );
    // the lines stand on the terminal as the checks end; what is left to print is the last
    let status = if agrees { 0 } else { 3 };
    Ok(Report::new(last, &Answer { seed, agrees, checks }, status))
}

fn line(checked: &Checked) -> String {
    let verdict = if checked.agrees { "agrees " } else { "DIFFERS" };
    format!("{verdict}  {:<13} {}\n", checked.name, checked.what)
}

/// Shows a line at once: the whole takes seconds.
fn show(options: &Options, text: &str) {
    if !options.json {
        let mut out = stdout().lock();
        let _ = out.write_all(text.as_bytes()).and_then(|()| out.flush());
    }
}

fn of_the_clock() -> u64 {
    let since = SystemTime::now().duration_since(UNIX_EPOCH).unwrap_or_default();
    since.as_nanos() as u64 & 0xFFFF_FFFF
}
