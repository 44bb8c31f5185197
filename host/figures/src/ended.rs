//! Files that are removed when a signal ends the process. std cannot catch signals, so the C library
//! is asked. A handler may do little: here it removes files by names that stand ready, and lets the
//! signal do what it would have done.

use std::ffi::{CString, c_char, c_int};
use std::os::unix::ffi::OsStrExt;
use std::path::Path;
use std::ptr::null_mut;
use std::sync::Once;
use std::sync::atomic::{AtomicPtr, Ordering::SeqCst};

/// The names of the files, ready for the C library; a run writes two at the most. A name that was
/// taken out is not freed, since a handler may be reading it.
static NAMES: [AtomicPtr<c_char>; 2] = [const { AtomicPtr::new(null_mut()) }; 2];

unsafe extern "C" {
    fn signal(number: c_int, handler: usize) -> usize;
    fn raise(number: c_int) -> c_int;
    fn unlink(name: *const c_char) -> c_int;
}

/// SIGHUP, SIGINT, SIGQUIT and SIGTERM.
const SIGNALS: [c_int; 4] = [1, 2, 3, 15];
const DEFAULT: usize = 0;
const IGNORE: usize = 1;

extern "C" fn end(number: c_int) {
    for name in &NAMES {
        let name = name.load(SeqCst);
        if !name.is_null() {
            // Safe: the name ends in 0 and is never freed. A handler may call `unlink`.
            unsafe { unlink(name) };
        }
    }
    // Safe: a handler may call both.
    unsafe {
        signal(number, DEFAULT);
        raise(number);
    }
}

/// Has a file removed when a signal ends the process; gives the place of its name, if there is one.
pub fn remove(file: &Path) -> Option<usize> {
    static CAUGHT: Once = Once::new();
    CAUGHT.call_once(catch);
    let name = CString::new(file.as_os_str().as_bytes()).ok()?.into_raw();
    let free = |place: &AtomicPtr<c_char>| {
        place.compare_exchange(null_mut(), name, SeqCst, SeqCst).is_ok()
    };
    NAMES.iter().position(free)
}

/// Leaves the file of a place alone from now on.
pub fn keep(place: usize) {
    NAMES[place].store(null_mut(), SeqCst);
}

/// Catches the signals that are not ignored.
fn catch() {
    for number in SIGNALS {
        // Safe: `end` does only what a handler may do.
        unsafe {
            if signal(number, end as *const () as usize) == IGNORE {
                signal(number, IGNORE);
            }
        }
    }
}
