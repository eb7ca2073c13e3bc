//! Stands in for the crate `tracing`: the number given to `error!` is kept for the caller instead of being printed.

use std::cell::Cell;

thread_local! {
    static LEN: Cell<Option<usize>> = const { Cell::new(None) };
}

/// Keeps the number of an event. Called by [`error!`].
pub fn record_len(len: usize) {
    LEN.set(Some(len));
}

/// Hands over the number of this thread's last event, once.
pub fn take_len() -> Option<usize> {
    LEN.take()
}

/// Records the `len` of the event.
#[macro_export]
macro_rules! error {
    ($message:literal, len = $len:expr) => {
        $crate::record_len($len)
    };
}
