//! A line on the terminal that says how far a command is. Where standard error is not a terminal there is none.

use std::io::{stderr, IsTerminal, Write};
use std::os::fd::AsRawFd;
use std::time::{Duration, Instant};

use terminal_size::{terminal_size_using_fd, Width};

pub struct Progress {
    on: bool,
    last: Instant,
    shown: bool,
}

impl Default for Progress {
    fn default() -> Progress {
        Progress::new()
    }
}

impl Progress {
    pub fn new() -> Progress {
        Progress { on: stderr().is_terminal(), last: Instant::now(), shown: false }
    }

    /// Shows the line where the last one is a quarter of a second old.
    pub fn show(&mut self, line: impl FnOnce() -> String) {
        if !self.on || self.last.elapsed() < Duration::from_millis(250) {
            return;
        }
        (self.last, self.shown) = (Instant::now(), true);
        let _ = write!(stderr(), "\r\x1b[K{}", cut(&line(), width()));
        let _ = stderr().flush();
    }

    /// Removes the line again.
    pub fn clear(&mut self) {
        if self.shown {
            let _ = write!(stderr(), "\r\x1b[K");
            self.shown = false;
        }
    }
}

fn width() -> usize {
    match terminal_size_using_fd(stderr().as_raw_fd()) {
        Some((Width(width), _)) if width > 0 => usize::from(width),
        _ => 80,
    }
}

/// A line that leaves the last column free, where some terminals wrap.
fn cut(line: &str, width: usize) -> String {
    line.chars().take(width.saturating_sub(1)).collect()
}

#[cfg(test)]
mod tests {
    use super::cut;

    #[test]
    fn a_line_is_never_wider_than_the_terminal() {
        assert_eq!(cut("1,000 of at most 2,000", 80), "1,000 of at most 2,000");
        assert_eq!(cut("1,000 of at most 2,000", 9), "1,000 of");
        assert_eq!(cut("1,000", 0), "");
    }
}
