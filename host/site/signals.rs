//! SIGTERM and SIGINT end the site, SIGHUP has its files opened again.

use crate::system::{on_signal, SIGHUP, SIGINT, SIGTERM};
use std::sync::atomic::{AtomicBool, Ordering};

static ENDING: AtomicBool = AtomicBool::new(false);
static REOPENING: AtomicBool = AtomicBool::new(false);

extern "C" fn end(_: i32) {
    ENDING.store(true, Ordering::Relaxed);
}

extern "C" fn reopen(_: i32) {
    REOPENING.store(true, Ordering::Relaxed);
}

pub fn listen() {
    on_signal(SIGTERM, end);
    on_signal(SIGINT, end);
    on_signal(SIGHUP, reopen);
}

pub fn ending() -> bool {
    ENDING.load(Ordering::Relaxed)
}

/// True once for each SIGHUP.
pub fn take_reopening() -> bool {
    REOPENING.swap(false, Ordering::Relaxed)
}
