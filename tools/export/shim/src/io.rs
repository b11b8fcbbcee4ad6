//! Streams of bytes.

/// Why a stream fails.
#[derive(Clone, Copy, Debug, PartialEq, Eq)]
pub enum ErrorKind {
    /// Memory was refused.
    OutOfMemory,
    /// All else.
    Other,
}

/// The error of a stream.
#[derive(Clone, Copy, Debug, PartialEq, Eq)]
pub struct Error(pub ErrorKind);

impl Error {
    /// Why it failed.
    pub fn kind(&self) -> ErrorKind {
        self.0
    }
}

/// What a stream gives.
pub type Result<T> = core::result::Result<T, Error>;

/// A stream that is read.
pub trait Read {
    /// Reads bytes into the front of the room and says how many: none at the end of the stream, or where there is no room.
    fn read(&mut self, room: &mut [u8]) -> Result<usize>;
}

/// A stream that is written.
pub trait Write {
    /// Writes a front of the piece, and says how many bytes it has.
    fn write(&mut self, piece: &[u8]) -> Result<usize>;
}

impl Read for &[u8] {
    fn read(&mut self, room: &mut [u8]) -> Result<usize> {
        let count = self.len().min(room.len());
        let (front, rest) = self.split_at(count);
        room[..count].copy_from_slice(front);
        *self = rest;
        Ok(count)
    }
}

impl Write for crate::vec::Vec<u8> {
    fn write(&mut self, piece: &[u8]) -> Result<usize> {
        self.extend_from_slice(piece).map_err(|_| Error(ErrorKind::OutOfMemory))?;
        Ok(piece.len())
    }
}

impl Write for &mut [u8] {
    fn write(&mut self, piece: &[u8]) -> Result<usize> {
        let count = self.len().min(piece.len());
        let (front, rest) = core::mem::take(self).split_at_mut(count);
        front.copy_from_slice(&piece[..count]);
        *self = rest;
        Ok(count)
    }
}

#[cfg(test)]
mod tests {
    use super::*;
    use crate::alloc::Global;
    use crate::refusing::each_refusal;
    use crate::vec::Vec;

    #[test]
    fn bytes_are_read() {
        let (mut bytes, mut room) = (&b"abcde"[..], [0; 3]);
        assert_eq!((bytes.read(&mut room), room, bytes), (Ok(3), *b"abc", &b"de"[..]));
        assert_eq!((bytes.read(&mut room), room, bytes), (Ok(2), *b"dec", &b""[..]));
        assert_eq!(bytes.read(&mut room), Ok(0));
    }

    #[test]
    fn bytes_are_written() {
        let mut room = [0; 3];
        let mut left = &mut room[..];
        assert_eq!((left.write(b"ab"), left.write(b"cd"), left.write(b"e")), (Ok(2), Ok(1), Ok(0)));
        assert_eq!(room, *b"abc");
    }

    #[test]
    fn bytes_are_written_to_a_vector() {
        let made = || Vec::from_slice(Global, b"ab").unwrap();
        let (requests, vector, count) = each_refusal(made, |v| v.len(), |v| v.write(b"cd"));
        assert_eq!((requests, vector.as_slice(), count), (1, &b"abcd"[..], 2));
        let refused = crate::refusing::without_memory(|| Vec::new(Global).write(b"a"));
        assert_eq!(refused.map_err(|e| e.kind()), Err(ErrorKind::OutOfMemory));
    }
}
