use crate::raw;
use crate::refusal::Refusal;
use crate::settings::{NoUniqueNames, Settings};
use std::error::Error;
use std::fmt;
use std::io;

/// A text that comes slice by slice. It has 8 KiB and takes no more memory; no byte of the text is kept.
///
/// ```
/// use jx::{Reader, Refusal};
/// use std::io::Write;
///
/// let mut reader = Reader::new(jx::DEPTH)?;
/// reader.write_all(b"{\"a\":")?;
/// assert_eq!(reader.verdict(), Err(Refusal::Truncated));
/// reader.write_all(b"[1,2]}")?;
/// assert_eq!(reader.verdict(), Ok(()));
/// reader.write_all(b"]")?;
/// assert_eq!(reader.verdict(), Err(Refusal::Stopped { at: 11 }));
/// # Ok::<(), Box<dyn std::error::Error>>(())
/// ```
///
/// Any code that writes into an [`io::Write`] feeds one, as [`io::copy`] does:
///
/// ```
/// let mut reader = jx::Reader::new(jx::DEPTH)?;
/// std::io::copy(&mut &b"[1,2]"[..], &mut reader)?;
/// assert_eq!(reader.verdict(), Ok(()));
/// # Ok::<(), Box<dyn std::error::Error>>(())
/// ```
#[derive(Clone)]
pub struct Reader {
    raw: raw::Reader,
}

/// A reader would have been fed 2^64 bytes or more. It was left as it was.
#[derive(Clone, Copy, Debug, PartialEq, Eq)]
pub struct TooManyBytes;

impl fmt::Display for TooManyBytes {
    fn fmt(&self, f: &mut fmt::Formatter<'_>) -> fmt::Result {
        f.write_str("too many bytes")
    }
}

impl Error for TooManyBytes {}

impl Reader {
    /// A reader at the start of a text by settings. A byte order mark that is ignored may come in any number of slices. Names
    /// can't have to be unique, since a reader keeps none.
    ///
    /// # Errors
    ///
    /// [`NoUniqueNames`]: the settings ask for unique names.
    ///
    /// ```
    /// let settings = jx::Settings { ignore_mark: true, ..jx::Settings::default() };
    /// let mut reader = jx::Reader::new(settings)?;
    /// reader.feed(b"\xEF\xBB")?;
    /// assert_eq!(reader.verdict(), Err(jx::Refusal::Truncated));
    /// reader.feed(b"\xBF1")?;
    /// assert_eq!(reader.verdict(), Ok(()));
    /// # Ok::<(), Box<dyn std::error::Error>>(())
    /// ```
    pub fn new(settings: impl Into<Settings>) -> Result<Reader, NoUniqueNames> {
        let mut reader = Reader {
            raw: raw::Reader { words: [0; 1031] },
        };
        reader.start(settings)?;
        Ok(reader)
    }

    /// Begins another text. Where the settings are refused, the reader stays as it was.
    ///
    /// # Errors
    ///
    /// [`NoUniqueNames`]: the settings ask for unique names.
    ///
    /// ```
    /// let mut reader = jx::Reader::new(jx::DEPTH)?;
    /// reader.feed(b"nulx")?;
    /// reader.start(0)?;
    /// reader.feed(b"null")?;
    /// assert_eq!(reader.verdict(), Ok(()));
    /// # Ok::<(), Box<dyn std::error::Error>>(())
    /// ```
    pub fn start(&mut self, settings: impl Into<Settings>) -> Result<(), NoUniqueNames> {
        let settings = settings.into().raw();
        // SAFETY: both are borrowed for the call alone; whatever stands in the reader may stand there.
        match unsafe { raw::jx_reader_start_non_null(&mut self.raw, &settings) } {
            raw::NO_UNIQUE_NAMES => Err(NoUniqueNames),
            status => {
                debug_assert_eq!(status, raw::OK);
                Ok(())
            }
        }
    }

    /// Reads the bytes after all that it was fed. After a fault they are counted and not looked at. A slice may end
    /// anywhere, also inside a character.
    ///
    /// # Errors
    ///
    /// [`TooManyBytes`]: it would have been fed 2^64 bytes or more. Then it is as it was.
    pub fn feed(&mut self, bytes: &[u8]) -> Result<(), TooManyBytes> {
        // SAFETY: the pointer and the size are those of one slice, and the reader is borrowed for the call alone.
        match unsafe { raw::jx_reader_feed(&mut self.raw, bytes.as_ptr(), bytes.len()) } {
            raw::TOO_MANY_BYTES => Err(TooManyBytes),
            status => {
                debug_assert_eq!(status, raw::OK);
                Ok(())
            }
        }
    }

    /// The verdict on all bytes that it was fed, as one text: the same as [`check`](crate::check) gives by its settings. It may
    /// be fed on.
    ///
    /// # Errors
    ///
    /// [`Refusal`]: the bytes are not valid by the settings.
    pub fn verdict(&self) -> Result<(), Refusal> {
        let mut verdict = raw::Verdict {
            offset: 0,
            kind: raw::TRUNCATED,
        };
        // SAFETY: both are borrowed for the call alone.
        let status = unsafe { raw::jx_reader_verdict(&self.raw, &mut verdict) };
        debug_assert_eq!(status, raw::OK);
        Refusal::of(verdict)
    }
}

impl fmt::Debug for Reader {
    fn fmt(&self, f: &mut fmt::Formatter<'_>) -> fmt::Result {
        f.debug_struct("Reader")
            .field("verdict", &self.verdict())
            .finish_non_exhaustive()
    }
}

impl io::Write for Reader {
    fn write(&mut self, bytes: &[u8]) -> io::Result<usize> {
        self.feed(bytes).map_err(io::Error::other)?;
        Ok(bytes.len())
    }

    fn flush(&mut self) -> io::Result<()> {
        Ok(())
    }
}
