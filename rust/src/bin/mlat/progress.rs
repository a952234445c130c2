use std::io::{self, IsTerminal, Write};
use std::sync::atomic::{AtomicBool, Ordering};
use std::time::{Duration, Instant};

/// A line on standard error that tells how far a long command is: once a second, on a terminal alone.
pub struct Progress {
    on: bool,
    begun: Instant,
    due: Duration,
}

/// Whether the line stands on the terminal.
static SHOWN: AtomicBool = AtomicBool::new(false);

const EVERY: Duration = Duration::from_secs(1);

impl Progress {
    pub fn begin() -> Self {
        Progress {
            on: io::stderr().is_terminal(),
            begun: Instant::now(),
            due: EVERY,
        }
    }

    /// One that tells nothing where a command is to be quiet.
    pub fn unless(quiet: bool) -> Self {
        let progress = Progress::begin();
        let on = progress.on && !quiet;
        Progress { on, ..progress }
    }

    /// Tells, where a second has passed since it told last; the words are made of the seconds since the beginning.
    pub fn tell(&mut self, words: impl FnOnce(f64) -> String) {
        if !self.on {
            return;
        }
        let since = self.begun.elapsed();
        if since < self.due {
            return;
        }
        self.due = since + EVERY;
        SHOWN.store(true, Ordering::Relaxed);
        // a terminal that takes no more is no reason to stop
        let _ = write!(io::stderr(), "\r{}\x1b[K", words(since.as_secs_f64()));
    }
}

impl Drop for Progress {
    /// Leaves the line to what is said next.
    fn drop(&mut self) {
        if SHOWN.swap(false, Ordering::Relaxed) {
            let _ = write!(io::stderr(), "\r\x1b[K");
        }
    }
}

/// Says something on standard error, in the place of the line that tells how far a command is. Where standard error
/// takes nothing, the exit status still tells.
pub fn say(words: &str) {
    let clear = if SHOWN.load(Ordering::Relaxed) { "\r\x1b[K" } else { "" };
    let _ = writeln!(io::stderr(), "{clear}mlat: {words}");
}

/// How much of an input of a known size has been read, for the line: `37 % of 6.0 GB`.
pub fn share(done: u64, size: Option<u64>) -> String {
    match size {
        Some(size) if size > 0 => format!("{} % of {}", done.min(size) * 100 / size, bytes(size)),
        _ => bytes(done),
    }
}

fn bytes(count: u64) -> String {
    match count {
        0..=999_999 => format!("{} kB", count / 1_000),
        1_000_000..=999_999_999 => format!("{:.1} MB", count as f64 / 1e6),
        _ => format!("{:.1} GB", count as f64 / 1e9),
    }
}
