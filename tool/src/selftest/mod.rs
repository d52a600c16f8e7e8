//! The self-test: the linked library against the specification's worked rows, the independent model and the demo's recorded
//! pictures. Each check stops at its first difference.

mod demo;
mod digest;
mod random;
mod worked;

use std::any::Any;
use std::panic::{self, UnwindSafe};
use std::time::{Duration, Instant};

pub use demo::PICTURES;

/// A check that agreed, or the first difference that it met.
pub struct Checked {
    pub name: &'static str,
    /// What was compared, with its count, or what differed.
    pub what: String,
    pub agrees: bool,
}

/// A check on random inputs: it makes one of them and compares, and gives how many comparisons that were.
type Check = fn(&mut difftests::random::Random) -> u64;

/// The checks on random inputs, with what each compares and its share of the time.
const CHECKS: [(&str, &str, Check, u32); 7] = [
    ("accesses", "loads, stores and probes", random::accesses, 2),
    ("programs", "instructions of random programs", random::programs, 3),
    ("interrupts", "instructions of programs with interrupts and the timer", random::interrupts, 2),
    ("floats", "floating instructions", random::floats, 2),
    ("frames", "frames and strips", random::frames, 4),
    ("byte lists", "pixels with their bytes", random::byte_lists, 2),
    ("saved states", "saved states in both forms", random::saved_states, 2),
];

/// Makes every check, those on random inputs for about so long together, and hands each on as it is done.
pub fn run(seed: u64, time: Duration, mut done: impl FnMut(&Checked)) -> bool {
    let hook = panic::take_hook();
    panic::set_hook(Box::new(|_| {}));
    let mut agrees = true;
    let mut report = |checked: Checked| {
        agrees &= checked.agrees;
        done(&checked);
    };
    report(checked("digest", digest::digest));
    report(checked("worked rows", worked::rows));
    let shares: u32 = CHECKS.iter().map(|check| check.3).sum();
    for (number, (name, what, check, share)) in CHECKS.into_iter().enumerate() {
        let until = Instant::now() + time * share / shares;
        report(checked(name, move || {
            let (mut random, mut count) = (generator(seed, number as u64), 0);
            loop {
                count += check(&mut random);
                if Instant::now() >= until {
                    return format!(
                        "{} {what} agree with the independent model",
                        vb::grouped(count)
                    );
                }
            }
        }));
    }
    report(checked("demo", demo::pictures));
    panic::set_hook(hook);
    agrees
}

/// A generator for each check, so that one check's inputs do not depend on the time that another had.
fn generator(seed: u64, number: u64) -> difftests::random::Random {
    difftests::random::Random::new(seed.wrapping_add(number << 32))
}

/// A check reports a difference by a panic, as the differential tests do.
fn checked(name: &'static str, check: impl FnOnce() -> String + UnwindSafe) -> Checked {
    match panic::catch_unwind(check) {
        Ok(what) => Checked { name, what, agrees: true },
        Err(difference) => Checked { name, what: message(&*difference), agrees: false },
    }
}

fn message(panic: &(dyn Any + Send)) -> String {
    let text = panic.downcast_ref::<String>().map(String::as_str);
    let text = text.or_else(|| panic.downcast_ref::<&str>().copied()).unwrap_or("a difference");
    text.split_whitespace().collect::<Vec<_>>().join(" ")
}
