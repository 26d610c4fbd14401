use crate::raw;
use crate::refusal::Refusal;
use crate::settings::Settings;
use std::cell::UnsafeCell;
use std::collections::VecDeque;
use std::error::Error;
use std::fmt;
use std::io;
use std::ops::Range;

/// The verdict on a line of JSON Lines.
#[derive(Clone, Copy, Debug, PartialEq, Eq, Hash)]
pub enum LineVerdict {
    /// It is a text.
    Accepted,
    /// It is not valid JSON. Offsets count from the input's start.
    Refused(Refusal),
    /// The input ends with it, and its value is a number, `true`, `false` or `null` with nothing after it. So it may be the
    /// beginning of a longer one that was cut.
    MayBeCut,
    /// It has no byte, or white space alone (RFC 8259, section 2).
    Blank,
}

impl LineVerdict {
    fn of(verdict: raw::Verdict) -> LineVerdict {
        match verdict.kind {
            raw::MAY_BE_CUT => LineVerdict::MayBeCut,
            raw::BLANK => LineVerdict::Blank,
            _ => match Refusal::of(verdict) {
                Ok(()) => LineVerdict::Accepted,
                Err(refusal) => LineVerdict::Refused(refusal),
            },
        }
    }
}

impl fmt::Display for LineVerdict {
    fn fmt(&self, f: &mut fmt::Formatter<'_>) -> fmt::Result {
        match self {
            LineVerdict::Accepted => f.write_str("accepted"),
            LineVerdict::Refused(refusal) => refusal.fmt(f),
            LineVerdict::MayBeCut => f.write_str("may be cut"),
            LineVerdict::Blank => f.write_str("blank"),
        }
    }
}

/// A line of JSON Lines. Spans are byte offsets in the input.
#[derive(Clone, Debug, PartialEq, Eq, Hash)]
pub struct Line {
    /// Its place among the lines, from 1.
    pub number: usize,
    /// Where it stands, without its line feed.
    pub span: Range<usize>,
    /// The verdict on it.
    pub verdict: LineVerdict,
}

impl Line {
    /// The line, if there is one.
    fn of(line: &raw::Line) -> Option<Line> {
        (line.number != 0).then(|| Line {
            number: line.number,
            span: line.span.start..line.span.end,
            verdict: LineVerdict::of(line.verdict),
        })
    }
}

impl fmt::Display for Line {
    /// As `jx lines` writes it: `2 8..13 truncated`.
    fn fmt(&self, f: &mut fmt::Formatter<'_>) -> fmt::Result {
        let Range { start, end } = self.span;
        write!(f, "{} {start}..{end} {}", self.number, self.verdict)
    }
}

/// How many lines there are.
#[derive(Clone, Copy, Debug, Default, PartialEq, Eq, Hash)]
pub struct LineCounts {
    /// Those that are texts.
    pub accepted: usize,
    /// Those that are not valid JSON, and those that may be cut.
    pub refused: usize,
    /// Those that have no byte, or white space alone.
    pub blank: usize,
}

/// Why lines were not read.
#[derive(Clone, Copy, Debug, PartialEq, Eq, Hash)]
pub enum LineError {
    /// An allocation failed. What waited is lost, and each later call says so again.
    OutOfMemory,
    /// The settings ask for unique names, and a reader of lines keeps no names.
    NoUniqueNames,
    /// It would have been fed 2^64 bytes or more. It was left as it was.
    TooManyBytes,
}

impl fmt::Display for LineError {
    fn fmt(&self, f: &mut fmt::Formatter<'_>) -> fmt::Result {
        f.write_str(match self {
            LineError::OutOfMemory => "out of memory",
            LineError::NoUniqueNames => "a reader of lines keeps no names",
            LineError::TooManyBytes => "too many bytes",
        })
    }
}

impl Error for LineError {}

impl LineError {
    fn of(status: u32) -> Result<(), LineError> {
        match status {
            raw::NO_MEMORY | raw::NO_LINES => Err(LineError::OutOfMemory),
            raw::NO_UNIQUE_NAMES => Err(LineError::NoUniqueNames),
            raw::TOO_MANY_BYTES => Err(LineError::TooManyBytes),
            status => {
                debug_assert_eq!(status, raw::OK);
                Ok(())
            }
        }
    }
}

impl From<LineError> for io::Error {
    fn from(error: LineError) -> io::Error {
        match error {
            LineError::OutOfMemory => io::ErrorKind::OutOfMemory.into(),
            LineError::NoUniqueNames | LineError::TooManyBytes => {
                io::Error::new(io::ErrorKind::InvalidInput, error)
            }
        }
    }
}

/// A reader of JSON Lines, whose input comes slice by slice. A line feed ends a line; what follows the last one is a line,
/// too, unless it is empty. Lines that are not valid JSON wait until they are taken. No byte of the input is kept.
///
/// ```
/// use jx::{LineVerdict, Lines, Refusal};
///
/// let mut lines = Lines::new(jx::DEPTH)?;
/// lines.feed(b"{\"n\":1}\n{\"n\"")?;
/// assert_eq!(lines.take()?, []);
/// lines.feed(b":\n\n7")?;
/// let bad = lines.take()?;
/// assert_eq!((bad[0].number, bad[0].span.clone()), (2, 8..13));
/// assert_eq!(bad[0].verdict, LineVerdict::Refused(Refusal::Truncated));
/// assert_eq!(bad[1].to_string(), "3 14..14 blank");
/// let (last, counts) = lines.end()?;
/// assert_eq!(last.unwrap().verdict, LineVerdict::MayBeCut);
/// assert_eq!((counts.accepted, counts.refused, counts.blank), (1, 2, 1));
/// # Ok::<(), jx::LineError>(())
/// ```
pub struct Lines {
    // The library writes to the struct in each call, and leaves it as it was where it only reads.
    raw: UnsafeCell<raw::Lines>,
}

// SAFETY: nobody else leads to the memory of a reader, and the library keeps nothing of a thread.
unsafe impl Send for Lines {}

impl Drop for Lines {
    fn drop(&mut self) {
        // SAFETY: the reader was made by the library, or is none, and nobody uses it afterwards.
        unsafe { raw::jx_lines_free_non_null(self.raw.get_mut()) }
    }
}

impl fmt::Debug for Lines {
    fn fmt(&self, f: &mut fmt::Formatter<'_>) -> fmt::Result {
        f.debug_struct("Lines")
            .field("end", &self.end())
            .finish_non_exhaustive()
    }
}

impl Lines {
    /// A reader at the start of an input by settings. A byte order mark that is ignored stands at the input's front alone. Names
    /// can't have to be unique, since a reader keeps none.
    ///
    /// # Errors
    ///
    /// [`LineError`]: an allocation failed, or the settings ask for unique names.
    pub fn new(settings: impl Into<Settings>) -> Result<Lines, LineError> {
        let lines = Lines {
            raw: UnsafeCell::new(raw::Lines::default()),
        };
        let settings = settings.into().raw();
        // SAFETY: both are borrowed for the call alone.
        LineError::of(unsafe { raw::jx_lines_new_non_null(&settings, lines.raw.get()) })?;
        Ok(lines)
    }

    /// Reads the bytes after all that it was fed. A slice may end anywhere, also inside a character.
    ///
    /// # Errors
    ///
    /// [`LineError`]: an allocation failed, now or before, or it would have been fed 2^64 bytes or more.
    pub fn feed(&mut self, bytes: &[u8]) -> Result<(), LineError> {
        // SAFETY: the pointer and the size are those of one slice, and the reader is borrowed for the call alone.
        LineError::of(unsafe {
            raw::jx_lines_feed_non_null(self.raw.get_mut(), bytes.as_ptr(), bytes.len())
        })
    }

    /// The lines that have ended, are not valid JSON, and were not taken before, in their order.
    ///
    /// # Errors
    ///
    /// [`LineError`]: an allocation failed, now or before. Where it is the room for the lines, they still wait.
    pub fn take(&mut self) -> Result<Vec<Line>, LineError> {
        let mut room = Vec::new();
        let mut count = 0;
        loop {
            // SAFETY: the pointer and the size are those of one vector, and all are borrowed for the call alone.
            let status = unsafe {
                raw::jx_lines_take_non_null(
                    self.raw.get_mut(),
                    room.as_mut_ptr(),
                    room.len(),
                    &mut count,
                )
            };
            if status != raw::NO_ROOM {
                LineError::of(status)?;
                return Ok(room.iter().filter_map(Line::of).collect());
            }
            room.try_reserve_exact(count)
                .map_err(|_| LineError::OutOfMemory)?;
            room.resize(count, raw::Line::default());
        }
    }

    /// The report that is left if the input ends here: the last line, if no line feed ends it and it is not valid JSON, and the number of
    /// lines. That counts the last one and those that wait. More may be fed.
    ///
    /// # Errors
    ///
    /// [`LineError::OutOfMemory`]: an allocation failed before.
    pub fn end(&self) -> Result<(Option<Line>, LineCounts), LineError> {
        let mut last = raw::Line::default();
        let mut counts = raw::LineCounts::default();
        // SAFETY: all are borrowed for the call alone. No other call uses the reader, as it is not `Sync`.
        LineError::of(unsafe {
            raw::jx_lines_end_non_null(self.raw.get(), &mut last, &mut counts)
        })?;
        let counts = LineCounts {
            accepted: counts.accepted,
            refused: counts.refused,
            blank: counts.blank,
        };
        Ok((Line::of(&last), counts))
    }
}

/// The lines of an input that are no JSON texts, in their order, and how many lines there are.
///
/// # Errors
///
/// [`LineError`]: an allocation failed, or the settings ask for unique names.
///
/// ```
/// let (bad, counts) = jx::lines(b"[1]\r\n[1,]\n{}", jx::DEPTH)?;
/// assert_eq!(bad[0].to_string(), "2 5..9 stopped at 8");
/// assert_eq!((bad.len(), counts.accepted, counts.refused), (1, 2, 1));
/// # Ok::<(), jx::LineError>(())
/// ```
pub fn lines(
    input: &[u8],
    settings: impl Into<Settings>,
) -> Result<(Vec<Line>, LineCounts), LineError> {
    let mut lines = Lines::new(settings)?;
    lines.feed(input)?;
    let mut bad = lines.take()?;
    let (last, counts) = lines.end()?;
    bad.extend(last);
    Ok((bad, counts))
}

/// How many bytes are read at a time, at most.
const STEP: usize = 64 * 1024;

/// The lines of what is read that are no JSON texts, each before the next read may wait. After the first error there is nothing.
///
/// ```
/// use jx::BadLines;
///
/// let log = &b"{\"n\":1}\n{\"n\":\n{\"n\":3}\n"[..];
/// let mut bad = BadLines::new(log, jx::DEPTH)?;
/// for line in bad.by_ref() {
///     assert_eq!(line?.number, 2);
/// }
/// assert_eq!(bad.counts()?.accepted, 2);
/// # Ok::<(), std::io::Error>(())
/// ```
#[derive(Debug)]
pub struct BadLines<R> {
    lines: Lines,
    // None behind the end of the input, or an error
    input: Option<R>,
    buffer: Vec<u8>,
    waiting: VecDeque<Line>,
}

impl<R: io::Read> BadLines<R> {
    /// The lines of an input by settings, from where it stands on.
    ///
    /// # Errors
    ///
    /// [`LineError`]: an allocation failed, or the settings ask for unique names.
    pub fn new(input: R, settings: impl Into<Settings>) -> Result<BadLines<R>, LineError> {
        let mut buffer = Vec::new();
        buffer
            .try_reserve_exact(STEP)
            .map_err(|_| LineError::OutOfMemory)?;
        buffer.resize(STEP, 0);
        Ok(BadLines {
            lines: Lines::new(settings)?,
            input: Some(input),
            buffer,
            waiting: VecDeque::new(),
        })
    }

    /// How many lines were read so far, as if the input ended there.
    ///
    /// # Errors
    ///
    /// [`LineError::OutOfMemory`]: an allocation failed before.
    pub fn counts(&self) -> Result<LineCounts, LineError> {
        Ok(self.lines.end()?.1)
    }

    /// Reads once, and answers whether there may be more to read.
    fn read(&mut self) -> io::Result<bool> {
        let Some(input) = &mut self.input else {
            return Ok(false);
        };
        match input.read(&mut self.buffer) {
            Ok(0) => {
                self.input = None;
                self.waiting.extend(self.lines.end()?.0);
            }
            Ok(count) => {
                self.lines.feed(&self.buffer[..count])?;
                self.waiting.extend(self.lines.take()?);
            }
            Err(error) if error.kind() == io::ErrorKind::Interrupted => {}
            Err(error) => return Err(error),
        }
        Ok(true)
    }
}

impl<R: io::Read> Iterator for BadLines<R> {
    type Item = io::Result<Line>;

    fn next(&mut self) -> Option<io::Result<Line>> {
        loop {
            if let Some(line) = self.waiting.pop_front() {
                return Some(Ok(line));
            }
            match self.read() {
                Ok(true) => {}
                Ok(false) => return None,
                Err(error) => {
                    self.input = None;
                    return Some(Err(error));
                }
            }
        }
    }
}
