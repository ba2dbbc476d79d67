//! Looks at calls of the Rust that may panic, without the panic being printed.
use std::cell::Cell;
use std::panic::{self, AssertUnwindSafe};

thread_local!(static OBSERVED: Cell<bool> = const { Cell::new(false) });

/// Makes observed panics silent. All others are printed as before.
pub fn start() {
    let before = panic::take_hook();
    panic::set_hook(Box::new(move |info| {
        if !OBSERVED.get() {
            before(info);
        }
    }));
}

/// The answer of the call, or nothing where it panics.
pub fn answer<T>(call: impl FnOnce() -> T) -> Option<T> {
    OBSERVED.set(true);
    let answer = panic::catch_unwind(AssertUnwindSafe(call)).ok();
    OBSERVED.set(false);
    answer
}

pub fn hex(bytes: &[u8]) -> String {
    if bytes.is_empty() {
        return "nothing".into();
    }
    bytes.iter().map(|byte| format!("{byte:02X}")).collect::<Vec<_>>().join(" ")
}
