//! What the proved sources use of their toolchain's standard library, where that differs from Rust's: each call that needs memory is
//! passed an allocator, and returns an error where memory is refused. Nothing here ends the process for lack of memory.
//!
//! It is written for this export, over Rust's `core` and `alloc`. Where the toolchain's library has the contract of a call, the comment of
//! the call says it in short, and the tests try it, with each request for memory refused in turn. None of it is proved.
#![no_std]
#![deny(unsafe_code)]

extern crate alloc as rust_alloc;
#[cfg(any(all(feature = "host", not(feature = "libc")), test))]
extern crate std as rust_std;

mod macros;
pub mod alloc;
mod btree_map;
mod deque;
pub mod env;
mod hash_map;
pub mod io;
pub mod iter;
#[cfg(all(feature = "libc", not(test)))]
mod libc;
pub mod process;
#[cfg(test)]
mod refusing;
#[cfg(feature = "host")]
pub mod runtime;
mod slices;
mod string;
pub mod test;
mod vec;

pub use core::{cmp, convert, fmt, hash, marker, mem, num, ops};

/// Collections whose growth can fail.
pub mod collections {
    pub use crate::btree_map::BTreeMap;
    pub use crate::deque::VecDeque;
    pub use crate::hash_map::HashMap;
}

/// What a module of the proved sources sees without an import.
pub mod prelude {
    /// The export imports all of it into each module.
    pub mod rattle {
        pub use crate::iter::CollectIn;
        #[cfg(feature = "host")]
        pub use crate::runtime::HostRuntime;
        pub use crate::slices::{ConcatIn, SliceIn};
        pub use crate::string::String;
        pub use crate::vec::Vec;
        pub use crate::{format, vec};

        /// A value that may be let go: in Rust every one.
        pub trait Drop {}
        impl<T: ?Sized> Drop for T {}
    }
}
