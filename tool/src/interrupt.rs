//! Ctrl-C, SIGTERM and SIGHUP: a command that takes long stops where it can say what it did, writes that, and ends with
//! status 130. Every other ends at once. No temporary file stays.

use std::fs;
use std::io::{stderr, Write};
use std::sync::atomic::{AtomicBool, AtomicU8, Ordering};
use std::sync::{Arc, OnceLock};
use std::thread;
use std::time::{Duration, Instant};

use signal_hook::consts::{SIGHUP, SIGINT, SIGTERM, SIGXFSZ};
use signal_hook::iterator::Signals;

use crate::files::remove_all;

/// The exit status of a command that was stopped.
pub const STATUS: i32 = 130;

/// How long a command may read its input after a signal before it is ended without an answer.
const PATIENCE: Duration = Duration::from_millis(500);

/// Set by the handler itself, so that no thread has to run first.
static ASKED: OnceLock<Arc<AtomicBool>> = OnceLock::new();
static PHASE: AtomicU8 = AtomicU8::new(STARTING);

/// The arguments or the input are being read: it is not known yet what the command does with a signal.
const STARTING: u8 = 0;
/// A signal ends the command at once.
const AT_ONCE: u8 = 1;
/// The command looks at `asked`.
const WATCHED: u8 = 2;

/// From now on signals are taken. Without a handler they end the process, as they do by themselves.
pub fn install() {
    // a file over the size limit is then an error of its write
    let _ = signal_hook::flag::register(SIGXFSZ, Arc::new(AtomicBool::new(false)));
    // `nohup` asks that SIGHUP stay without effect
    let taken = [SIGINT, SIGTERM, SIGHUP];
    let taken = taken.into_iter().filter(|&signal| signal != SIGHUP || !is_ignored(SIGHUP));
    let taken: Vec<i32> = taken.collect();
    // before the flag: a signal between the two would set it, and no thread would see it
    let signals = Signals::new(&taken);
    let asked = ASKED.get_or_init(Arc::default);
    for signal in &taken {
        let _ = signal_hook::flag::register(*signal, Arc::clone(asked));
    }
    let Ok(mut signals) = signals else { return };
    thread::spawn(move || {
        let mut all = signals.forever();
        if all.next().is_some() {
            asked.store(true, Ordering::SeqCst);
            wait();
        }
        if all.next().is_some() {
            end();
        }
    });
}

/// A signal has come. One that comes while the command starts waits for it to say what it does.
fn wait() {
    let begun = Instant::now();
    while PHASE.load(Ordering::SeqCst) != WATCHED {
        if PHASE.load(Ordering::SeqCst) == AT_ONCE || begun.elapsed() > PATIENCE {
            end();
        }
        thread::sleep(Duration::from_millis(2));
    }
}

fn end() -> ! {
    remove_all();
    let _ = stderr().write_all(b"vbmodel: stopped by a signal\n");
    std::process::exit(STATUS);
}

/// From now on a signal ends the command at once.
pub fn at_once() {
    PHASE.store(AT_ONCE, Ordering::SeqCst);
}

/// From now on a signal asks to stop; a second one stops at once.
pub fn watch() {
    PHASE.store(WATCHED, Ordering::SeqCst);
}

pub fn asked() -> bool {
    ASKED.get().is_some_and(|asked| asked.load(Ordering::Relaxed))
}

/// Whether the one who started the process has the signal ignored.
fn is_ignored(signal: i32) -> bool {
    let status = fs::read_to_string("/proc/self/status").unwrap_or_default();
    let mask = status.lines().find_map(|line| line.strip_prefix("SigIgn:"));
    let mask = mask.and_then(|mask| u64::from_str_radix(mask.trim(), 16).ok()).unwrap_or(0);
    mask & 1 << (signal - 1) != 0
}
