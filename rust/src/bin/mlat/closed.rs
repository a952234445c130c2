//! Whether standard output was closed when the program began. Rust opens /dev/null in its place before `main`, and what
//! is written there would be lost without a word; so this looks before.

use std::sync::atomic::{AtomicBool, Ordering};

static CLOSED: AtomicBool = AtomicBool::new(false);

/// POSIX's number of standard output, and the command of fcntl that fails for a descriptor that is not open.
const STDOUT: i32 = 1;
const F_GETFD: i32 = 1;

extern "C" {
    fn fcntl(descriptor: i32, command: i32, ...) -> i32;
}

extern "C" fn look() {
    // SAFETY: the call takes every number and lends nothing.
    let closed = unsafe { fcntl(STDOUT, F_GETFD) } == -1;
    CLOSED.store(closed, Ordering::Relaxed);
}

/// The functions of this section run before Rust's own start.
#[cfg(target_os = "linux")]
#[used]
#[link_section = ".init_array"]
static LOOK: extern "C" fn() = look;

pub fn is_output_closed() -> bool {
    CLOSED.load(Ordering::Relaxed)
}
