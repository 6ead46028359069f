//! Keeps a panic inside the original from ending the oracle.

use std::cell::Cell;
use std::panic::{self, AssertUnwindSafe};
use std::sync::Once;

use crate::refusal::Refusal;

thread_local! {
    static INSIDE: Cell<bool> = const { Cell::new(false) };
}

static QUIET: Once = Once::new();

/// Runs a call of the original. What it changed before a panic is not to be
/// used any more: the caller drops or replaces it.
pub fn guarded<T>(call: impl FnOnce() -> T) -> Result<T, Refusal> {
    QUIET.call_once(silence_guarded_panics);
    INSIDE.set(true);
    let result = panic::catch_unwind(AssertUnwindSafe(call));
    INSIDE.set(false);
    result.map_err(|_| Refusal::Fault)
}

/// A caught panic is an answer and prints nothing; all others print as before.
fn silence_guarded_panics() {
    let before = panic::take_hook();
    panic::set_hook(Box::new(move |info| {
        if !INSIDE.get() {
            before(info);
        }
    }));
}
