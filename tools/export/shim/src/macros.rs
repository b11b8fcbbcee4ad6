/// `vec![in alloc; x; n]`, n copies of x, and `vec![in alloc; a, b]`: a `Result`.
#[macro_export]
macro_rules! vec {
    (in $alloc:expr; $x:expr; $n:expr) => { $crate::prelude::rattle::Vec::of_copies($alloc, $x, $n) };
    (in $alloc:expr; $($x:expr),* $(,)?) => { $crate::prelude::rattle::Vec::from_array($alloc, [$($x),*]) };
}

/// `format!(in alloc; ..)`: a `Result`.
#[macro_export]
macro_rules! format {
    (in $alloc:expr; $($t:tt)*) => { $crate::prelude::rattle::String::of_format($alloc, format_args!($($t)*)) };
}

/// `assert!(rt; ..)`: the runtime of a test is not used.
#[macro_export]
macro_rules! assert { ($rt:expr; $($t:tt)*) => { ::core::assert!($($t)*) }; }

/// `assert_eq!(rt; ..)`.
#[macro_export]
macro_rules! assert_eq { ($rt:expr; $($t:tt)*) => { ::core::assert_eq!($($t)*) }; }

/// `assert_ne!(rt; ..)`.
#[macro_export]
macro_rules! assert_ne { ($rt:expr; $($t:tt)*) => { ::core::assert_ne!($($t)*) }; }

#[cfg(test)]
mod tests {
    use crate::alloc::{AllocError, Global};
    use crate::refusing::without_memory;

    #[test]
    fn macros_that_allocate() {
        core::assert_eq!(vec![in Global; 7u8; 3].unwrap().as_slice(), [7, 7, 7]);
        core::assert_eq!(vec![in Global; 1u8, 2].unwrap().as_slice(), [1, 2]);
        core::assert_eq!(format!(in Global; "{}-{}", 1, "a").unwrap().as_str(), "1-a");
        core::assert_eq!(without_memory(|| vec![in Global; 7u8; 3]), Err(AllocError));
        core::assert_eq!(without_memory(|| vec![in Global; 1u8, 2]), Err(AllocError));
        core::assert_eq!(without_memory(|| format!(in Global; "{}", 1)), Err(AllocError));
    }

    #[test]
    fn assertions() {
        assert!((); true);
        assert_eq!((); 1, 1);
        assert_ne!((); 1, 2);
        core::assert!(rust_std::panic::catch_unwind(|| assert_eq!((); 1, 2)).is_err());
    }
}
