//! Whether standard output was closed when the process began. Before `main` std opens /dev/null in
//! its place, where all figures would be lost without a word, so this is asked earlier: by a function
//! that the loader calls.

use std::ffi::c_int;
use std::sync::atomic::{AtomicBool, Ordering::Relaxed};

static CLOSED: AtomicBool = AtomicBool::new(false);

/// Whether there was no standard output.
pub fn was_closed() -> bool {
    CLOSED.load(Relaxed)
}

unsafe extern "C" {
    fn fcntl(file: c_int, command: c_int, ...) -> c_int;
}

const STANDARD_OUTPUT: c_int = 1;
const GET_FLAGS: c_int = 1;

extern "C" fn look() {
    // Safe: asking for the flags of a file changes nothing, also where there is no file.
    let flags = unsafe { fcntl(STANDARD_OUTPUT, GET_FLAGS) };
    CLOSED.store(flags == -1, Relaxed);
}

// Safe: the section is a list of such functions, and this one needs nothing that `main` sets up.
#[used]
#[cfg_attr(target_os = "linux", unsafe(link_section = ".init_array"))]
static LOOK: extern "C" fn() = look;
