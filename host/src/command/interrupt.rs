//! Ctrl-C, noted and not obeyed at once, so that an answer can still be printed.

use std::sync::atomic::{AtomicBool, Ordering};

static ASKED: AtomicBool = AtomicBool::new(false);

/// The number of the signal that Ctrl-C sends, and of its usual handler, which ends the program.
const INTERRUPT: i32 = 2;
const USUAL: usize = 0;

extern "C" {
    fn signal(number: i32, handler: usize) -> usize;
}

/// Runs while a signal is handled: a store is all that is allowed there.
extern "C" fn note(_number: i32) {
    ASKED.store(true, Ordering::Relaxed);
}

/// From now on Ctrl-C is noted.
pub fn listen() {
    let handler: extern "C" fn(i32) = note;
    // Safety: the handler has the type that `signal` asks for, lives as long as the program, and only stores a flag.
    unsafe { signal(INTERRUPT, handler as usize) };
}

/// From now on Ctrl-C ends the program.
pub fn stop_listening() {
    // Safety: 0 is the usual handler.
    unsafe { signal(INTERRUPT, USUAL) };
}

/// Whether Ctrl-C has been pressed.
pub fn asked() -> bool {
    ASKED.load(Ordering::Relaxed)
}
