//! Streams, and buffers whose memory may be refused.

use super::lists::ListCalls;
use crate::shim::{with_capacity, zeroed_bytes, AllocError, Global};
use std::fs::File;
use std::mem::ManuallyDrop;
use std::os::fd::{FromRawFd, RawFd};

pub use std::io::{BufRead, Error, ErrorKind, Read, Result, Write};

impl From<AllocError> for Error {
    fn from(_refused: AllocError) -> Error {
        Error::from(ErrorKind::OutOfMemory)
    }
}

/// That the system does not follow that many links. The kind for it is not in the stable part of
/// Rust's std.
pub fn filesystem_loop() -> Error {
    Error::other("filesystem loop or indirection limit (e.g. symlink loop)")
}

/// A standard stream, without the buffer that Rust's own have: what is read and written goes to the system at once.
pub struct Stream(ManuallyDrop<File>);

/// The standard streams, by their descriptors.
#[derive(Clone, Copy)]
pub enum Standard {
    /// Standard input.
    Input = 0,
    /// Standard output.
    Output = 1,
    /// Standard error.
    Errors = 2,
}

impl Stream {
    /// A standard stream.
    #[allow(unsafe_code)]
    pub fn of(standard: Standard) -> Stream {
        // SAFETY: the descriptor is open as long as the program runs: where it was not, Rust's runtime has opened it, and
        // nothing closes it, since this file is not dropped.
        Stream(ManuallyDrop::new(unsafe { File::from_raw_fd(standard as RawFd) }))
    }
}

impl Read for Stream {
    fn read(&mut self, bytes: &mut [u8]) -> Result<usize> {
        self.0.read(bytes)
    }
}

impl Write for Stream {
    fn write(&mut self, bytes: &[u8]) -> Result<usize> {
        self.0.write(bytes)
    }

    fn flush(&mut self) -> Result<()> {
        Ok(())
    }
}

/// A reader with a buffer, which does not grow.
pub struct BufReader<R> {
    inner: R,
    bytes: Vec<u8>,
    // what of them was read, and not yet consumed
    at: usize,
    end: usize,
}

impl<R: Read> BufReader<R> {
    /// With a buffer of that many bytes.
    pub fn with_capacity(alloc: Global, len: usize, inner: R) -> Result<BufReader<R>> {
        Ok(BufReader { inner, bytes: zeroed_bytes(alloc, len)?, at: 0, end: 0 })
    }

    /// What was read, and not yet consumed.
    pub fn buffer(&self) -> &[u8] {
        &self.bytes[self.at..self.end]
    }
}

impl<R: Read> Read for BufReader<R> {
    fn read(&mut self, bytes: &mut [u8]) -> Result<usize> {
        let mut available = self.fill_buf()?;
        let len = available.read(bytes)?;
        self.consume(len);
        Ok(len)
    }
}

impl<R: Read> BufRead for BufReader<R> {
    #[inline]
    fn fill_buf(&mut self) -> Result<&[u8]> {
        if self.at == self.end {
            (self.at, self.end) = (0, 0);
            self.end = self.inner.read(&mut self.bytes)?;
        }
        Ok(&self.bytes[self.at..self.end])
    }

    #[inline]
    fn consume(&mut self, len: usize) {
        self.at = self.end.min(self.at + len);
    }
}

/// A writer with a buffer, which does not grow. It is written out where it is dropped too, and then an error is lost.
pub struct BufWriter<W: Write> {
    // None once `into_inner` has taken it, which ends this writer
    inner: Option<W>,
    bytes: Vec<u8>,
}

impl<W: Write> BufWriter<W> {
    /// With a buffer of 8,192 bytes, the number of Rattle's std.
    #[allow(dead_code)] // the script program uses it
    pub fn new(alloc: Global, inner: W) -> Result<BufWriter<W>> {
        BufWriter::with_capacity(alloc, 8192, inner)
    }

    /// With a buffer of that many bytes.
    pub fn with_capacity(alloc: Global, len: usize, inner: W) -> Result<BufWriter<W>> {
        Ok(BufWriter { inner: Some(inner), bytes: with_capacity(alloc, len)? })
    }

    /// Writes the buffer out, and returns what it was written to.
    #[allow(dead_code)] // the script program uses it
    pub fn into_inner(mut self) -> Result<W> {
        self.write_out()?;
        self.inner.take().ok_or(Error::from(ErrorKind::Other))
    }

    // Writes the buffer out. What a failure leaves unwritten stays in it.
    fn write_out(&mut self) -> Result<()> {
        let Some(inner) = &mut self.inner else { return Ok(()) };
        let mut written = 0;
        let mut done = Ok(());
        while written < self.bytes.len() && done.is_ok() {
            match inner.write(&self.bytes[written..]) {
                Ok(0) => done = Err(Error::from(ErrorKind::WriteZero)),
                Ok(len) => written += len,
                Err(error) if error.kind() == ErrorKind::Interrupted => {}
                Err(error) => done = Err(error),
            }
        }
        self.bytes.drain(..written);
        done
    }

    // The same where the buffer has no room for these bytes, or they are as long as it is.
    #[cold]
    #[inline(never)]
    fn write_all_cold(&mut self, bytes: &[u8]) -> Result<()> {
        if bytes.len() > self.bytes.capacity() - self.bytes.len() {
            self.write_out()?;
        }
        if bytes.len() >= self.bytes.capacity() {
            return self.inner.as_mut().map_or(Ok(()), |inner| inner.write_all(bytes));
        }
        self.bytes.extend_from_slice(bytes);
        Ok(())
    }
}

impl<W: Write> Write for BufWriter<W> {
    fn write(&mut self, bytes: &[u8]) -> Result<usize> {
        self.write_all(bytes)?;
        Ok(bytes.len())
    }

    #[inline]
    fn write_all(&mut self, bytes: &[u8]) -> Result<()> {
        if bytes.len() < self.bytes.capacity() - self.bytes.len() {
            self.bytes.extend_from_slice(bytes);
            return Ok(());
        }
        self.write_all_cold(bytes)
    }

    fn flush(&mut self) -> Result<()> {
        self.write_out()?;
        self.inner.as_mut().map_or(Ok(()), |inner| inner.flush())
    }
}

impl<W: Write> Drop for BufWriter<W> {
    fn drop(&mut self) {
        let _ = self.write_out();
    }
}

/// A method of readers that may be refused memory.
pub trait BufReadCalls: BufRead {
    /// `read_until`. What was read before an error is in the list.
    fn try_read_until(&mut self, last: u8, list: &mut Vec<u8>) -> Result<usize> {
        let start = list.len();
        loop {
            let available = match self.fill_buf() {
                Ok(available) => available,
                Err(error) if error.kind() == ErrorKind::Interrupted => continue,
                Err(error) => return Err(error),
            };
            let place = available.iter().position(|byte| *byte == last);
            let end = place.map_or(available.len(), |place| place + 1);
            list.try_extend_from_slice(&available[..end])?;
            self.consume(end);
            if place.is_some() || end == 0 {
                return Ok(list.len() - start);
            }
        }
    }
}

impl<B: BufRead> BufReadCalls for B {}

/// Whether a stream goes to a terminal. The trait of Rust's std cannot be had for a stream of ours.
pub trait IsTerminal {
    /// Whether it does.
    fn is_terminal(&self) -> bool;
}

impl IsTerminal for Stream {
    fn is_terminal(&self) -> bool {
        std::io::IsTerminal::is_terminal(&*self.0)
    }
}

#[cfg(test)]
mod tests {
    use super::*;

    // Reads and writes these pieces, one at each call: bytes, or an error.
    struct Pieces(Vec<std::result::Result<&'static [u8], ErrorKind>>, Vec<Vec<u8>>);

    impl Read for Pieces {
        fn read(&mut self, bytes: &mut [u8]) -> Result<usize> {
            if self.0.is_empty() {
                return Ok(0);
            }
            let piece = self.0.remove(0).map_err(Error::from)?;
            bytes[..piece.len()].copy_from_slice(piece);
            Ok(piece.len())
        }
    }

    impl Write for Pieces {
        fn write(&mut self, bytes: &[u8]) -> Result<usize> {
            let most = match self.0.is_empty() {
                true => usize::MAX,
                false => self.0.remove(0).map_err(Error::from)?.len(),
            };
            self.1.push(bytes[..bytes.len().min(most)].to_vec());
            Ok(bytes.len().min(most))
        }

        fn flush(&mut self) -> Result<()> {
            Ok(())
        }
    }

    fn reader(pieces: &[std::result::Result<&'static [u8], ErrorKind>]) -> BufReader<Pieces> {
        BufReader::with_capacity(Global, 8, Pieces(pieces.to_vec(), vec![])).unwrap()
    }

    #[test]
    fn lines_are_read_over_pieces_and_interruptions() {
        let mut input = reader(&[Ok(b"ab"), Err(ErrorKind::Interrupted), Ok(b"c\nd"), Ok(b"e")]);
        let mut line = vec![];
        assert_eq!(input.try_read_until(b'\n', &mut line).unwrap(), 4);
        assert_eq!(input.try_read_until(b'\n', &mut line).unwrap(), 2);
        assert_eq!(input.try_read_until(b'\n', &mut line).unwrap(), 0);
        assert_eq!(line, b"abc\nde");
    }

    #[test]
    fn what_was_read_before_an_error_is_there() {
        let mut input = reader(&[Ok(b"ab"), Err(ErrorKind::Other), Ok(b"c\n")]);
        let mut line = vec![];
        let error = input.try_read_until(b'\n', &mut line).unwrap_err();
        assert_eq!((error.kind(), &line[..]), (ErrorKind::Other, &b"ab"[..]));
        assert_eq!(input.try_read_until(b'\n', &mut line).unwrap(), 2);
        assert_eq!(line, b"abc\n");
    }

    #[test]
    fn bytes_wait_until_the_buffer_is_full() {
        let mut output =
            BufWriter::with_capacity(Global, 8, Pieces(vec![Ok(b"123")], vec![])).unwrap();
        for piece in [&b"abc"[..], b"def", b"gh", b"ijklmnopq", b"r"] {
            output.write_all(piece).unwrap();
        }
        output.flush().unwrap();
        let wanted = [&b"abc"[..], b"defgh", b"ijklmnopq", b"r"];
        assert_eq!(output.into_inner().unwrap().1, wanted);
    }

    #[test]
    fn what_a_failed_write_leaves_is_written_by_the_next() {
        let pieces = vec![Ok(&b"12"[..]), Err(ErrorKind::Interrupted), Err(ErrorKind::Other)];
        let mut output = BufWriter::with_capacity(Global, 8, Pieces(pieces, vec![])).unwrap();
        output.write_all(b"abcdef").unwrap();
        assert_eq!(output.flush().unwrap_err().kind(), ErrorKind::Other);
        assert_eq!(output.into_inner().unwrap().1, [&b"ab"[..], b"cdef"]);
    }

    #[test]
    fn taking_what_is_written_to_writes_the_buffer_out_and_says_where_that_fails() {
        let pieces = vec![Ok(&b"1"[..]), Err(ErrorKind::BrokenPipe), Err(ErrorKind::Other)];
        let mut output = BufWriter::new(Global, Pieces(pieces, vec![])).unwrap();
        output.write_all(b"abc").unwrap();
        let error = output.into_inner().err().map(|it| it.kind());
        assert_eq!(error, Some(ErrorKind::BrokenPipe));
    }
}
