//! What the tests of the sources use.
use core::fmt::Debug;
use rust_alloc::string::String;

/// Why a test stops early. It is not `Debug`, so that each error that is converts to it.
pub struct Fail(pub String);

impl<E: Debug> From<E> for Fail {
    fn from(error: E) -> Fail {
        Fail(rust_alloc::format!("{error:?}"))
    }
}

/// What a test returns.
pub trait Outcome {
    /// Why it failed, if it did.
    fn failure(self) -> Option<Fail>;
}

impl Outcome for () {
    fn failure(self) -> Option<Fail> {
        None
    }
}

impl Outcome for Result<(), Fail> {
    fn failure(self) -> Option<Fail> {
        self.err()
    }
}

/// Ends a test of Rust's, which panics where the outcome is a failure.
pub fn finish(outcome: impl Outcome) {
    if let Some(Fail(why)) = outcome.failure() {
        core::panic!("{why}");
    }
}

#[cfg(test)]
mod tests {
    use super::*;
    use rust_std::panic::catch_unwind;

    #[test]
    fn failures_panic() {
        finish(());
        finish(Ok(()));
        assert!(catch_unwind(|| finish(Err(Fail::from(1)))).is_err());
    }
}
