//! Panics of a side, which are differences and are told as such.

use std::any::Any;
use std::panic::{self, AssertUnwindSafe};
use std::sync::atomic::{AtomicBool, Ordering};

/// Whether a panic is caught, and so needs no telling where it happens.
static IS_CAUGHT: AtomicBool = AtomicBool::new(false);

/// Keeps panics that are caught from being printed; a difference is looked for
/// again and again while what leads to it is shortened.
pub fn keep_quiet() {
    let usual = panic::take_hook();
    panic::set_hook(Box::new(move |told| {
        if !IS_CAUGHT.load(Ordering::Relaxed) {
            usual(told);
        }
    }));
}

/// What the call of a side answers, or what its panic says.
pub fn caught<T>(side: &str, call: impl FnOnce() -> T) -> Result<T, String> {
    IS_CAUGHT.store(true, Ordering::Relaxed);
    let answer = panic::catch_unwind(AssertUnwindSafe(call));
    IS_CAUGHT.store(false, Ordering::Relaxed);
    answer.map_err(|panic| format!("{side}: {}\n", text(panic.as_ref())))
}

fn text(panic: &(dyn Any + Send)) -> &str {
    let text = panic.downcast_ref::<String>().map(String::as_str);
    text.or(panic.downcast_ref::<&str>().copied())
        .unwrap_or("a panic")
}
