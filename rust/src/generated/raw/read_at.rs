// Generated from crates/odht_raw/src/read_at.rt by make generate.
//! Bytes that are read by position, such as those of a file.

/// Why bytes were not read.
#[derive(Debug, PartialEq, Eq)]
pub enum ReadError {
    /// A signal came before any byte was read.
    Interrupted,
    /// The source ends before the last of the bytes.
    EarlyEnd,
    /// The source returned an error.
    Failed {
        /// The error's number, as the source has it.
        code: u32,
    },
}

/// A source of bytes that are read by position.
///
/// In a contract `gives s B` says that each read of the source `s` that succeeds gives bytes of
/// the list `B`, and some where there are more. It holds of no list where the bytes change between
/// reads: then a read promises only how many bytes it gives. `fails s e` says that a read of `s`
/// may return the error `e`. Of a file nothing proves `gives`: the clauses of std's own `read_at`
/// say only how many bytes come.
pub trait ReadAt {
    /// Reads bytes from the offset on to the front of `out`, and returns how many: fewer than fit
    /// in where the source gives fewer at once, and none at its end. On an error `out` may have
    /// changed.
    fn read_at(&self, offset: u64, out: &mut [u8]) -> Result<usize, ReadError>;
}

/// Bytes in memory, as a source. No read fails.
///
/// In a contract it is these bytes.
pub struct BytesSource<'a> {
    bytes: &'a [u8],
}

impl<'a> BytesSource<'a> {
    /// These bytes.
    #[inline]
    pub fn new(bytes: &'a [u8]) -> Self {
        BytesSource { bytes }
    }
}

impl<'a> ReadAt for BytesSource<'a> {
    fn read_at(&self, offset: u64, out: &mut [u8]) -> Result<usize, ReadError> {
        let bytes = self.bytes;
        if offset >= bytes.len() as u64 {
            return Ok(0);
        }
        let at = offset as usize;
        let few = out.len().min(bytes.len() - at);
        out[..few].copy_from_slice(&bytes[at..at + few]);
        Ok(few)
    }
}

// How often a read that was interrupted is made again.
const MOST_INTERRUPTS: u32 = 1000;

/// Fills `out` with the bytes from the offset on. A read that gives fewer bytes than were asked is
/// followed by one of the others, and one that is interrupted is made again, up to a thousand
/// times.
///
/// Any other error is returned at once, and so is the last interrupt (only tests have both);
/// `EarlyEnd` comes where the source has no more bytes, or the offset passes 2^64. So where the
/// source has all of the bytes, the error is that of a read. On an error `out` may have changed.
pub fn read_exact_at<S: ReadAt>(source: &S, offset: u64, out: &mut [u8]) -> Result<(), ReadError> {
    let mut filled = 0;
    let mut interrupts = 0;
    while filled < out.len() {
        let at = match offset.checked_add(filled as u64) {
            Some(at) => at,
            None => return Err(ReadError::EarlyEnd),
        };
        match source.read_at(at, &mut out[filled..]) {
            Ok(0) => return Err(ReadError::EarlyEnd),
            Ok(more) => filled += more,
            Err(ReadError::Interrupted) if interrupts < MOST_INTERRUPTS => interrupts += 1,
            Err(error) => return Err(error),
        }
    }
    Ok(())
}
