use crate::alloc::{AllocError, Global};
use core::fmt::{self, Write};
use core::ops::Deref;
use rust_alloc::string::String as RustString;

/// A text whose growth can fail. Where a call fails, the text is as it was, but for `write!`, which keeps the pieces that had room.
#[derive(Debug, PartialEq, Eq, PartialOrd, Ord, Hash)]
pub struct String(RustString);

impl String {
    /// An empty text, which asks for no memory.
    pub fn new(_: Global) -> String {
        String(RustString::new())
    }

    /// A copy of a text.
    pub fn from_str(alloc: Global, text: &str) -> Result<String, AllocError> {
        let mut string = String::new(alloc);
        string.push_str(text)?;
        Ok(string)
    }

    /// Rust's own text.
    pub fn from_rust(text: RustString) -> String {
        String(text)
    }

    /// What a format gives.
    pub fn of_format(alloc: Global, arguments: fmt::Arguments<'_>) -> Result<String, AllocError> {
        let mut string = String::new(alloc);
        string.write_fmt(arguments)?;
        Ok(string)
    }

    /// All of the text.
    pub fn as_str(&self) -> &str {
        &self.0
    }

    /// Adds a character.
    #[inline]
    pub fn push(&mut self, character: char) -> Result<(), AllocError> {
        self.0.try_reserve(character.len_utf8())?;
        self.0.push(character);
        Ok(())
    }

    /// Adds a text.
    #[inline]
    pub fn push_str(&mut self, text: &str) -> Result<(), AllocError> {
        self.0.try_reserve(text.len())?;
        self.0.push_str(text);
        Ok(())
    }

    /// What `write!` calls. Its error is of memory alone.
    pub fn write_fmt(&mut self, arguments: fmt::Arguments<'_>) -> Result<(), AllocError> {
        Growing(self).write_fmt(arguments).map_err(|_| AllocError)
    }
}

struct Growing<'a>(&'a mut String);

impl Write for Growing<'_> {
    fn write_str(&mut self, text: &str) -> fmt::Result {
        self.0.push_str(text).map_err(|_| fmt::Error)
    }
}

impl Deref for String {
    type Target = str;
    fn deref(&self) -> &str {
        &self.0
    }
}

impl fmt::Display for String {
    fn fmt(&self, f: &mut fmt::Formatter<'_>) -> fmt::Result {
        f.pad(&self.0)
    }
}

#[cfg(test)]
mod tests {
    use super::*;
    use crate::refusing::{each_refusal, without_memory};

    fn text(s: &String) -> RustString {
        s.0.clone()
    }

    #[test]
    fn what_makes_a_text() {
        assert!(without_memory(|| String::new(Global)).is_empty());
        assert_eq!(String::from_str(Global, "aé").unwrap().as_str(), "aé");
        assert_eq!(String::from_rust("a".into()).as_bytes(), b"a");
        assert_eq!(without_memory(|| String::from_str(Global, "a")), Err(AllocError));
        assert_eq!(without_memory(|| String::of_format(Global, format_args!("{}", 7))), Err(AllocError));
    }

    #[test]
    fn what_adds_to_a_text() {
        let full = || String::from_str(Global, "12345678").unwrap();
        let (requests, string, ()) = each_refusal(full, text, |s| s.push('é'));
        assert_eq!((requests, string.as_str()), (1, "12345678é"));
        let (requests, string, ()) = each_refusal(full, text, |s| s.push_str("ab"));
        assert_eq!((requests, string.as_str()), (1, "12345678ab"));
        let (requests, string, ()) = each_refusal(full, text, |s| s.write_fmt(format_args!("ab")));
        assert_eq!((requests, string.as_str()), (1, "12345678ab"));
    }

    #[test]
    fn a_text_is_displayed() {
        assert_eq!(rust_std::format!("<{:>3}>", String::from_str(Global, "a").unwrap()), "<  a>");
    }
}
