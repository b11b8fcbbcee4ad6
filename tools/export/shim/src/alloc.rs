//! The allocator, and the errors of a request for memory that is refused.
use rust_alloc::collections::TryReserveError;

/// The allocator of the process: Rust's global one.
#[derive(Clone, Copy, Debug)]
pub struct Global;

/// Out of memory.
#[derive(Clone, Copy, Debug, PartialEq, Eq)]
pub struct AllocError;

/// Out of memory, with the value that could not be stored.
#[derive(Debug, PartialEq, Eq)]
pub struct AllocFailed<T> {
    /// What was to be stored.
    pub value: T,
}

impl<T> From<AllocFailed<T>> for AllocError {
    fn from(_: AllocFailed<T>) -> AllocError {
        AllocError
    }
}

impl From<TryReserveError> for AllocError {
    fn from(_: TryReserveError) -> AllocError {
        AllocError
    }
}
