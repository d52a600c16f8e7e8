//! Times the library, through its C interface, and the independent model:
//! the same input, the same buffers, which are not cleared between calls. A
//! figure is the least of many rounds.
//!
//! `cargo run --release --offline --manifest-path rust/Cargo.toml -p bench [-- bus|cpu|replay|draw|rows]`
//!
//! `rust/bench/peer/run [cpu|draw|all]` times it and an emulator instead.

#![forbid(unsafe_code)]

mod bus;
mod cpu;
mod draw;
mod peer;
mod replay;
mod rows;

use std::time::{Duration, Instant};

/// A row of the table: what was timed, then the library's and the model's figure.
pub struct Row {
    pub what: String,
    pub library: f64,
    pub model: f64,
}

/// The least time of a unit, in nanoseconds: `work` does some units and gives their number. Rounds are short, so that
/// some of them are not interrupted where other programs use the machine too.
pub fn least(mut work: impl FnMut() -> u64) -> f64 {
    const ROUND: Duration = Duration::from_millis(1);
    const WHOLE: Duration = Duration::from_millis(400);
    work();
    let begun = Instant::now();
    let mut best = f64::INFINITY;
    let mut rounds = 0;
    while rounds < 5 || begun.elapsed() < WHOLE {
        let start = Instant::now();
        let mut units = 0;
        while units == 0 || start.elapsed() < ROUND {
            units += work();
        }
        best = best.min(start.elapsed().as_nanos() as f64 / units as f64);
        rounds += 1;
    }
    best
}

fn print(title: &str, unit: &str, rows: &[Row]) {
    println!("\n{title}\n");
    println!("| | library, {unit} | independent model, {unit} |");
    println!("|---|---:|---:|");
    for Row { what, library, model } in rows {
        println!("| {what} | {library:.1} | {model:.1} |");
    }
}

/// What Linux calls the processor.
fn processor() -> String {
    let about = std::fs::read_to_string("/proc/cpuinfo").unwrap_or_default();
    let line = about.lines().find(|line| line.starts_with("model name"));
    line.and_then(|line| line.split_once(": ")).map_or("unknown", |(_, name)| name).to_string()
}

fn main() {
    let words: Vec<String> = std::env::args().skip(1).collect();
    if words.first().is_some_and(|word| word == "peer") {
        println!("Processor: {}. Release build.", processor());
        return peer::compare(&words[1..]);
    }
    let asked = words.first().map_or("all", String::as_str);
    let wants = |part: &str| asked == part || asked == "all";
    if !["all", "bus", "cpu", "replay", "draw", "rows"].contains(&asked) {
        eprintln!("usage: bench [bus|cpu|replay|draw|rows]");
        std::process::exit(2);
    }
    println!("Processor: {}. Release build.", processor());
    println!(
        "Both sides on the same buffers, not cleared between calls; the least of many rounds."
    );
    if wants("bus") {
        print("Bus: one checked call", "ns", &bus::rows());
    }
    if wants("cpu") {
        print("Processor: one run", "million instructions a second", &cpu::rows());
    }
    if wants("replay") {
        print("Replay: one trace of 100,000 records", "million records a second", &replay::rows());
    }
    if wants("draw") {
        print("Drawing: one frame, both eyes", "µs", &draw::rows());
    }
    if wants("rows") {
        rows::print();
    }
}
