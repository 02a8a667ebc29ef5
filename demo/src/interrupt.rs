//! The end asked for from outside. The only unsafe code here: std has no signals.

use std::sync::atomic::{AtomicBool, Ordering};

/// Set by an interrupt (Ctrl-C) or a request to end.
pub static ENDING: AtomicBool = AtomicBool::new(false);

const SIGINT: i32 = 2;
const SIGTERM: i32 = 15;

unsafe extern "C" {
    /// From the C library, which std links.
    fn signal(number: i32, handler: extern "C" fn(i32)) -> usize;
}

/// Storing is all that a signal's handler may safely do.
extern "C" fn end(_number: i32) {
    ENDING.store(true, Ordering::Relaxed);
}

/// From now on both signals set `ENDING`.
pub fn watch() {
    for number in [SIGINT, SIGTERM] {
        // SAFETY: the handler lives as long as the program and only stores.
        unsafe { signal(number, end) };
    }
}
