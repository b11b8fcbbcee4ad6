//! The runtime of a process. On Unix all goes by the C library's calls: Rust's own start and streams end the process where memory runs
//! out, and take a closed stream for one that was written. Elsewhere it is Rust's own, and there both hold.
use crate::alloc::Global;
use crate::io::{Error, ErrorKind, Read, Result, Write};
use crate::string::String;
use crate::vec::Vec;

/// The runtime of a process.
pub struct HostRuntime {
    count: usize,
    words: *const *const u8,
}

/// The standard input.
pub struct Stdin(());

/// The standard output.
pub struct Stdout(());

const OTHER: Error = Error(ErrorKind::Other);
const FULL: Error = Error(ErrorKind::OutOfMemory);

impl HostRuntime {
    /// A runtime without words, as for a test.
    pub fn host() -> HostRuntime {
        HostRuntime { count: 0, words: core::ptr::null() }
    }

    /// The allocator.
    pub fn alloc(&self) -> Global {
        Global
    }

    /// The standard input.
    pub fn stdin(&self) -> Stdin {
        Stdin(())
    }

    /// The standard output.
    pub fn stdout(&self) -> Stdout {
        Stdout(())
    }
}

#[cfg(unix)]
#[allow(unsafe_code)]
mod system {
    use super::*;
    use core::ffi::CStr;

    // POSIX numbers SIGPIPE so, and SIG_IGN is 1 on Linux and macOS.
    const SIGPIPE: i32 = 13;
    const SIG_IGN: usize = 1;

    unsafe extern "C" {
        fn read(descriptor: i32, room: *mut u8, size: usize) -> isize;
        fn write(descriptor: i32, bytes: *const u8, size: usize) -> isize;
        fn signal(number: i32, handler: usize) -> usize;
    }

    /// Whether a signal has interrupted the last call.
    #[cfg(not(all(feature = "libc", not(test))))]
    fn is_interrupted() -> bool {
        rust_std::io::Error::last_os_error().kind() == rust_std::io::ErrorKind::Interrupted
    }

    #[cfg(all(feature = "libc", not(test)))]
    use crate::libc::is_interrupted;

    /// A call, again for as long as signals interrupt it.
    fn counted(mut call: impl FnMut() -> isize) -> Result<usize> {
        loop {
            match usize::try_from(call()) {
                Ok(count) => return Ok(count),
                Err(_) if is_interrupted() => {}
                Err(_) => return Err(OTHER),
            }
        }
    }

    impl Read for Stdin {
        fn read(&mut self, room: &mut [u8]) -> Result<usize> {
            // SAFETY: the room is the caller's, and has that size.
            counted(|| unsafe { read(0, room.as_mut_ptr(), room.len()) })
        }
    }

    impl Write for Stdout {
        fn write(&mut self, piece: &[u8]) -> Result<usize> {
            // SAFETY: the piece has that size.
            counted(|| unsafe { write(1, piece.as_ptr(), piece.len()) })
        }
    }

    impl HostRuntime {
        /// The runtime of a process, whose writes to a closed pipe fail, and do not end it.
        ///
        /// # Safety
        /// These are the arguments of C's `main`.
        pub unsafe fn of_c(count: i32, words: *const *const u8) -> HostRuntime {
            // SAFETY: the call takes these two numbers.
            unsafe { signal(SIGPIPE, SIG_IGN) };
            HostRuntime { count: count as usize, words }
        }

        pub(crate) fn words(&self) -> Result<Vec<String>> {
            let mut all = Vec::with_capacity(Global, self.count).map_err(|_| FULL)?;
            for index in 0..self.count {
                // SAFETY: C's `main` gets so many words, each with a zero at its end.
                let word = unsafe { CStr::from_ptr((*self.words.add(index)).cast()) };
                let text = word.to_str().map_err(|_| OTHER)?;
                all.push_reserved(String::from_str(Global, text).map_err(|_| FULL)?);
            }
            Ok(all)
        }
    }
}

#[cfg(not(unix))]
mod system {
    use super::*;

    impl Read for Stdin {
        fn read(&mut self, room: &mut [u8]) -> Result<usize> {
            rust_std::io::Read::read(&mut rust_std::io::stdin().lock(), room).map_err(|_| OTHER)
        }
    }

    impl Write for Stdout {
        fn write(&mut self, piece: &[u8]) -> Result<usize> {
            let mut out = rust_std::io::stdout().lock();
            let count = rust_std::io::Write::write(&mut out, piece).map_err(|_| OTHER)?;
            rust_std::io::Write::flush(&mut out).map_err(|_| OTHER)?;
            Ok(count)
        }
    }

    impl HostRuntime {
        pub(crate) fn words(&self) -> Result<Vec<String>> {
            let mut all = Vec::new(Global);
            for word in rust_std::env::args_os() {
                let text = word.into_string().map_err(|_| OTHER)?;
                all.push(String::from_rust(text)).map_err(|_| FULL)?;
            }
            Ok(all)
        }
    }

    /// The start of a program.
    pub fn start(main: fn(HostRuntime) -> crate::process::ExitCode) -> rust_std::process::ExitCode {
        rust_std::process::ExitCode::from(main(HostRuntime::host()).0)
    }
}

#[cfg(not(unix))]
pub use rust_std::process::ExitCode as SystemExitCode;
#[cfg(not(unix))]
pub use system::start;

/// The start of a program whose main function takes the runtime.
#[macro_export]
macro_rules! program {
    ($main:path) => {
        #[cfg(unix)]
        #[unsafe(no_mangle)]
        extern "C" fn main(count: i32, words: *const *const u8) -> i32 {
            // SAFETY: these are the arguments of C's `main`.
            i32::from($main(unsafe { $crate::runtime::HostRuntime::of_c(count, words) }).0)
        }
        #[cfg(not(unix))]
        fn main() -> $crate::runtime::SystemExitCode {
            $crate::runtime::start($main)
        }
    };
}

#[cfg(all(test, unix))]
#[allow(unsafe_code)]
mod tests {
    use super::*;
    use crate::iter::CollectIn;
    use crate::refusing::each_refusal;

    /// The words of a process that is started with these.
    fn runtime(words: &[*const u8]) -> HostRuntime {
        // SAFETY: each word has a zero at its end.
        unsafe { HostRuntime::of_c(words.len() as i32, words.as_ptr()) }
    }

    #[test]
    fn words_of_a_process() {
        let words = [c"name".as_ptr().cast(), c"".as_ptr().cast(), c"\u{e9}".as_ptr().cast()];
        let rt = runtime(&words);
        let (requests, (), all) = each_refusal(|| (), |()| (), |()| crate::env::args(&rt)?.collect_in(Global).map_err(|_| FULL));
        assert_eq!((all.len(), all[0].as_str(), all[1].as_str(), all[2].as_str()), (3, "name", "", "\u{e9}"));
        assert!(requests > 2);
    }

    #[test]
    fn a_word_that_is_no_text() {
        let words = [c"name".as_ptr().cast(), c"\xff".as_ptr().cast()];
        assert_eq!(crate::env::args(&runtime(&words)).err().map(|e| e.kind()), Some(ErrorKind::Other));
    }

    #[test]
    fn a_test_has_no_words() {
        assert_eq!(HostRuntime::host().words().unwrap().len(), 0);
    }
}
