//! The words of a process.
use crate::string::String;
use rust_alloc::vec::IntoIter;

/// The words of a process, of which the first is the program's name.
pub struct Args(pub IntoIter<String>);

impl Iterator for Args {
    type Item = String;
    fn next(&mut self) -> Option<String> {
        self.0.next()
    }
    fn size_hint(&self) -> (usize, Option<usize>) {
        self.0.size_hint()
    }
}

/// The words of this process. An error if one is not UTF-8, or memory is refused.
#[cfg(feature = "host")]
pub fn args(rt: &crate::runtime::HostRuntime) -> crate::io::Result<Args> {
    Ok(Args(rt.words()?.into_iter()))
}
