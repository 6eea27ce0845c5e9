//! Whether standard output was open when the program was started.

use std::ffi::c_int;
use std::sync::atomic::{AtomicBool, Ordering};

extern "C" {
    fn fcntl(descriptor: c_int, command: c_int, ...) -> c_int;
}

const STANDARD_OUTPUT: c_int = 1;
const F_GETFD: c_int = 1;

static WAS_CLOSED: AtomicBool = AtomicBool::new(false);

/// Rust's runtime opens /dev/null in the place of a closed descriptor before `main`, and what is printed would be lost
/// without a word. So the look is taken ahead of it, among the functions that the loader calls.
#[used]
#[link_section = ".init_array"]
static LOOK: extern "C" fn() = look;

extern "C" fn look() {
    // SAFETY: F_GETFD takes no further argument and only asks whether the descriptor is open.
    let flags = unsafe { fcntl(STANDARD_OUTPUT, F_GETFD) };
    WAS_CLOSED.store(flags == -1, Ordering::Relaxed);
}

pub fn was_closed() -> bool {
    WAS_CLOSED.load(Ordering::Relaxed)
}
