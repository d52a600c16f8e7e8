//! The program `vbmodel`: the library's command line.
#![deny(unsafe_code)]

use std::os::fd::AsFd;
use std::sync::atomic::{AtomicBool, Ordering};

static OUTPUT_IS_CLOSED: AtomicBool = AtomicBool::new(false);

/// Looks at standard output before `main`: Rust opens /dev/null for it where it is closed, and then it would seem open.
extern "C" fn look() {
    let closed = std::io::stdout().as_fd().try_clone_to_owned().is_err();
    OUTPUT_IS_CLOSED.store(closed, Ordering::Relaxed);
}

/// The system calls each function of this section before `main`.
#[allow(unsafe_code)]
#[used]
#[link_section = ".init_array"]
static BEFORE_MAIN: extern "C" fn() = look;

fn main() {
    vbmodel::interrupt::install();
    let closed = OUTPUT_IS_CLOSED.load(Ordering::Relaxed);
    std::process::exit(vbmodel::cli::run(std::env::args_os().collect(), closed));
}
