use crate::find::{find, FindError};
use crate::raw;
use crate::refusal::Refusal;
use crate::settings::Settings;
use std::error::Error;
use std::fmt;
use std::io;

/// Why values are not given, or why there are no more than were given.
#[derive(Debug)]
pub enum EachError {
    /// An allocation failed. What waited is lost, and each later call says so again.
    OutOfMemory,
    /// The settings ask for unique names, and a stream of values keeps no names.
    NoUniqueNames,
    /// It would have been fed 2^64 bytes or more. It was left as it was.
    TooManyBytes,
    /// The input could not be read.
    Read(io::Error),
    /// The string is not a pointer, or leads to no array or object, or the bytes are not valid JSON. Where a name of the pointer is repeated, it
    /// led to the value of the first member of that name.
    Find(FindError),
}

impl fmt::Display for EachError {
    fn fmt(&self, f: &mut fmt::Formatter<'_>) -> fmt::Result {
        match self {
            EachError::OutOfMemory => f.write_str("out of memory"),
            EachError::NoUniqueNames => f.write_str("a stream of values keeps no names"),
            EachError::TooManyBytes => f.write_str("too many bytes"),
            EachError::Read(error) => error.fmt(f),
            EachError::Find(error) => error.fmt(f),
        }
    }
}

impl Error for EachError {
    fn source(&self) -> Option<&(dyn Error + 'static)> {
        match self {
            EachError::Read(error) => Some(error),
            EachError::Find(error) => Some(error),
            EachError::OutOfMemory | EachError::NoUniqueNames | EachError::TooManyBytes => None,
        }
    }
}

impl EachError {
    fn of(status: u32) -> Result<(), EachError> {
        match status {
            raw::NO_MEMORY | raw::NO_VALUES => Err(EachError::OutOfMemory),
            raw::NO_UNIQUE_NAMES => Err(EachError::NoUniqueNames),
            raw::TOO_MANY_BYTES => Err(EachError::TooManyBytes),
            status => {
                debug_assert_eq!(status, raw::OK);
                Ok(())
            }
        }
    }
}

impl From<EachError> for io::Error {
    fn from(error: EachError) -> io::Error {
        match error {
            EachError::OutOfMemory => io::ErrorKind::OutOfMemory.into(),
            EachError::Read(error) => error,
            EachError::Find(FindError::Refused(Refusal::Truncated)) => {
                io::Error::new(io::ErrorKind::UnexpectedEof, error)
            }
            EachError::Find(FindError::Refused(_)) => {
                io::Error::new(io::ErrorKind::InvalidData, error)
            }
            EachError::NoUniqueNames | EachError::TooManyBytes | EachError::Find(_) => {
                io::Error::new(io::ErrorKind::InvalidInput, error)
            }
        }
    }
}

/// The elements of an array, or the values of an object's members, in a text that comes slice by slice. Each is compact, on a line of
/// its own, as soon as it is due. No byte of the text is kept but those of a value or a name that is not whole yet.
///
/// A pointer (RFC 6901) leads to the array or object, by the first member of each of its names. Compact is a value without the white
/// space between its tokens (RFC 8259, section 2); each token keeps its bytes. A value is due once the comma or the bracket behind
/// it is read, before the text's first fault. What is due stays due, whatever comes after it.
///
/// ```
/// use jx::{Each, EachError, FindError, Refusal};
///
/// let mut each = Each::new("/rows", jx::DEPTH)?;
/// each.feed(b"{\"rows\": [{\"id\": 7}, {\"id\"")?;
/// assert_eq!(each.take()?, b"{\"id\":7}\n");
/// each.feed(b": 8}, {\"id\": x")?;
/// assert_eq!(each.take()?, b"{\"id\":8}\n");
/// let told = each.end();
/// assert!(matches!(told, Err(EachError::Find(FindError::Refused(Refusal::Stopped { at: 39 })))));
/// # Ok::<(), EachError>(())
/// ```
pub struct Each {
    raw: raw::Values,
    // The bytes that the library reads until the stream ends. They are not touched before that.
    _pointer: Box<[u8]>,
}

// SAFETY: nobody else leads to the memory of a stream, and the library keeps nothing of a thread.
unsafe impl Send for Each {}

impl Drop for Each {
    fn drop(&mut self) {
        // SAFETY: the stream was made by the library, or is none, and nobody uses it afterwards.
        unsafe { raw::jx_values_free_non_null(&mut self.raw) }
    }
}

impl fmt::Debug for Each {
    fn fmt(&self, f: &mut fmt::Formatter<'_>) -> fmt::Result {
        f.debug_struct("Each").finish_non_exhaustive()
    }
}

impl Each {
    /// A stream at the start of a text by settings, for the array or object that a pointer leads to. It copies the pointer. Names
    /// can't have to be unique, since it keeps none.
    ///
    /// # Errors
    ///
    /// [`EachError`]: the string is not a pointer, an allocation failed, or the settings ask for unique names.
    pub fn new(pointer: &str, settings: impl Into<Settings>) -> Result<Each, EachError> {
        let mut bytes = Vec::new();
        bytes
            .try_reserve_exact(pointer.len())
            .map_err(|_| EachError::OutOfMemory)?;
        bytes.extend_from_slice(pointer.as_bytes());
        let mut each = Each {
            raw: raw::Values::default(),
            _pointer: bytes.into_boxed_slice(),
        };
        let settings = settings.into();
        // SAFETY: the bytes stay as they are until the stream is freed, which `drop` does first.
        let status = unsafe {
            raw::jx_values_new_non_null(
                each._pointer.as_ptr(),
                each._pointer.len(),
                &settings.raw(),
                &mut each.raw,
            )
        };
        if status == raw::NOT_A_POINTER {
            return Err(EachError::Find(why_none(pointer, settings)));
        }
        EachError::of(status)?;
        Ok(each)
    }

    /// Reads the bytes after all that it was fed. A slice may end anywhere, also inside a character.
    ///
    /// # Errors
    ///
    /// [`EachError`]: an allocation failed, now or before, or it would have been fed 2^64 bytes or more.
    pub fn feed(&mut self, bytes: &[u8]) -> Result<(), EachError> {
        // SAFETY: the pointer and the size are those of one slice, and the stream is borrowed for the call alone.
        EachError::of(unsafe {
            raw::jx_values_feed_non_null(&mut self.raw, bytes.as_ptr(), bytes.len())
        })
    }

    /// The values that are due and were not taken before, in their order: each compact, with a line feed after it.
    ///
    /// # Errors
    ///
    /// [`EachError::OutOfMemory`]: an allocation failed, now or before. Where it is the room for them, they still wait.
    pub fn take(&mut self) -> Result<Vec<u8>, EachError> {
        let mut room = Vec::new();
        let mut size = 0;
        loop {
            // SAFETY: the pointer and the size are those of one vector, and all are borrowed for the call alone.
            let status = unsafe {
                raw::jx_values_take_non_null(
                    &mut self.raw,
                    room.as_mut_ptr(),
                    room.len(),
                    &mut size,
                )
            };
            if status != raw::NO_ROOM {
                EachError::of(status)?;
                return Ok(room);
            }
            room.try_reserve_exact(size)
                .map_err(|_| EachError::OutOfMemory)?;
            room.resize(size, 0);
        }
    }

    /// Ends the stream. `Ok` where all bytes that it was fed are a text in which the pointer leads to an array or an object. No
    /// value becomes due by the end, and those that wait are lost: take them before.
    ///
    /// # Errors
    ///
    /// [`EachError`]: the bytes are not valid JSON, the pointer leads to no array or object, or an allocation failed, now or before.
    pub fn end(mut self) -> Result<(), EachError> {
        let mut outcome = raw::Outcome::default();
        // SAFETY: both are borrowed for the call alone.
        EachError::of(unsafe { raw::jx_values_end_non_null(&mut self.raw, &mut outcome) })?;
        FindError::of(outcome.kind, outcome.at).map_err(EachError::Find)
    }
}

impl io::Write for Each {
    /// Takes all of the bytes, or none.
    fn write(&mut self, bytes: &[u8]) -> io::Result<usize> {
        self.feed(bytes)?;
        Ok(bytes.len())
    }

    fn flush(&mut self) -> io::Result<()> {
        Ok(())
    }
}

/// Why a string is not a pointer: reported before a text is read.
fn why_none(pointer: &str, settings: Settings) -> FindError {
    find(b"", pointer, settings).expect_err("nothing is no text")
}

/// How many bytes are read at a time, at most.
const STEP: usize = 64 * 1024;

/// The values of an array or object in what is read, each compact and before the next read may wait, as [`each()`] gives them.
#[derive(Debug)]
pub struct Values<R> {
    // None behind the end of the input, or an error
    reading: Option<(R, Each)>,
    buffer: Vec<u8>,
    // whole lines, and where the first one begins that was not given
    lines: Vec<u8>,
    at: usize,
}

impl<R: io::Read> Values<R> {
    /// The next line, if one waits.
    fn next_line(&mut self) -> Option<Result<Vec<u8>, EachError>> {
        let rest = &self.lines[self.at..];
        let length = rest.iter().position(|byte| *byte == b'\n')?;
        let mut value = Vec::new();
        if value.try_reserve_exact(length).is_err() {
            return Some(Err(EachError::OutOfMemory));
        }
        value.extend_from_slice(&rest[..length]);
        self.at += length + 1;
        Some(Ok(value))
    }

    /// Reads once, and answers whether there may be more to read.
    fn read(&mut self) -> Result<bool, EachError> {
        let Some((input, each)) = &mut self.reading else {
            return Ok(false);
        };
        match input.read(&mut self.buffer) {
            Ok(0) => {
                if let Some((_, each)) = self.reading.take() {
                    each.end()?;
                }
            }
            Ok(count) => {
                each.feed(&self.buffer[..count])?;
                self.lines = each.take()?;
                self.at = 0;
            }
            Err(error) if error.kind() == io::ErrorKind::Interrupted => {}
            Err(error) => return Err(EachError::Read(error)),
        }
        Ok(true)
    }
}

impl<R: io::Read> Iterator for Values<R> {
    type Item = Result<Vec<u8>, EachError>;

    fn next(&mut self) -> Option<Result<Vec<u8>, EachError>> {
        let next = loop {
            if let Some(line) = self.next_line() {
                break Some(line);
            }
            match self.read() {
                Ok(true) => {}
                Ok(false) => break None,
                Err(error) => break Some(Err(error)),
            }
        };
        if let Some(Err(_)) = next {
            self.reading = None;
            self.at = self.lines.len();
        }
        next
    }
}

/// The elements of the array that a pointer (RFC 6901) leads to in what is read, or the values of the object's members. Each is
/// compact, and comes before more is read than is needed. A slice of bytes is an input too.
///
/// Values come while the text is read, so a fault comes after them. The last item is an [`EachError`] where the input is not valid JSON, a
/// read failed, or the pointer leads to no array or object. [`Each`] says which values are given then. After the first error there
/// is nothing.
///
/// # Errors
///
/// [`EachError`]: the string is not a pointer, an allocation failed, or the settings ask for unique names.
///
/// ```
/// use jx::{each, EachError, FindError, Refusal};
///
/// let text = &b"{\"rows\": [{\"id\": 7}, {\"id\": 8}]}"[..];
/// let rows = each(text, "/rows", jx::DEPTH)?.collect::<Result<Vec<_>, _>>()?;
/// assert_eq!(rows, [b"{\"id\":7}", b"{\"id\":8}"]);
///
/// let mut cut = each(&b"[1, 2, 3"[..], "", jx::DEPTH)?;
/// assert_eq!(cut.by_ref().filter_map(Result::ok).count(), 2);
/// let mut cut = each(&b"[1, 2, 3"[..], "", jx::DEPTH)?.skip(2);
/// let last = cut.next();
/// assert!(matches!(last, Some(Err(EachError::Find(FindError::Refused(Refusal::Truncated))))));
/// # Ok::<(), EachError>(())
/// ```
pub fn each<R: io::Read>(
    input: R,
    pointer: &str,
    settings: impl Into<Settings>,
) -> Result<Values<R>, EachError> {
    let mut buffer = Vec::new();
    buffer
        .try_reserve_exact(STEP)
        .map_err(|_| EachError::OutOfMemory)?;
    buffer.resize(STEP, 0);
    Ok(Values {
        reading: Some((input, Each::new(pointer, settings)?)),
        buffer,
        lines: Vec::new(),
        at: 0,
    })
}
