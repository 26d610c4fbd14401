use crate::raw;
use crate::refusal::Refusal;
use std::error::Error;
use std::fmt;
use std::ops::Range;

/// So much room is tried first; few runs have more bytes.
const ROOM: usize = 8192;

/// The partial result (run) of a part of a text, as bytes: so the parts of a text may be read on many machines, in any order.
///
/// ```
/// use jx::{Refusal, Run};
///
/// let left = Run::of(br#"{"a":[1"#, Some(0), jx::DEPTH)?;
/// let right = Run::of(b"2]}", Some(7), jx::DEPTH)?;
/// // What one machine sends another.
/// let sent = right.as_bytes().to_vec();
/// let whole = left.join(&Run::try_from(&sent[..])?)?;
/// assert_eq!(whole.verdict(0..10)?, Ok(()));
/// assert_eq!(left.verdict(0..7)?, Err(Refusal::Truncated));
/// # Ok::<(), jx::RunError>(())
/// ```
#[derive(Clone, Debug, PartialEq, Eq, Hash)]
pub struct Run {
    bytes: Vec<u8>,
}

/// Why there is no run, or no verdict on one.
#[derive(Clone, Copy, Debug, PartialEq, Eq, Hash)]
pub enum RunError {
    /// An allocation failed.
    OutOfMemory,
    /// The bytes are no run that this version of the library writes.
    NotARun,
    /// The runs were made with different depths.
    OtherDepth,
    /// The right run does not begin where the left one ends, or the run is not of the bytes that were asked about.
    NotNeighbours,
    /// The part would end at 2^64 or behind.
    TooManyBytes,
}

impl fmt::Display for RunError {
    fn fmt(&self, f: &mut fmt::Formatter<'_>) -> fmt::Result {
        f.write_str(match self {
            RunError::OutOfMemory => "out of memory",
            RunError::NotARun => "not a run",
            RunError::OtherDepth => "a run of another depth",
            RunError::NotNeighbours => "a run of other bytes",
            RunError::TooManyBytes => "too many bytes",
        })
    }
}

impl Error for RunError {}

impl RunError {
    fn of(status: u32) -> RunError {
        match status {
            raw::NO_MEMORY => RunError::OutOfMemory,
            raw::NOT_A_RUN => RunError::NotARun,
            raw::OTHER_DEPTH => RunError::OtherDepth,
            raw::NOT_NEIGHBOURS => RunError::NotNeighbours,
            status => {
                debug_assert_eq!(status, raw::TOO_MANY_BYTES);
                RunError::TooManyBytes
            }
        }
    }
}

/// The bytes that a call writes into a buffer, which is made larger where the call asks for it.
fn written(call: impl Fn(&mut [u8], &mut usize) -> u32) -> Result<Run, RunError> {
    let mut bytes = Vec::new();
    let mut size = ROOM;
    loop {
        bytes
            .try_reserve_exact(size)
            .map_err(|_| RunError::OutOfMemory)?;
        bytes.resize(size, 0);
        match call(&mut bytes, &mut size) {
            raw::OK => {
                bytes.truncate(size);
                return Ok(Run { bytes });
            }
            raw::NO_ROOM => bytes.clear(),
            status => return Err(RunError::of(status)),
        }
    }
}

impl Run {
    /// Reads a part of a text, which may be cut at any byte. `from` is the offset of its first byte in the text; where none
    /// is given, runs are joined in the order in which they are given.
    ///
    /// # Errors
    ///
    /// [`RunError::OutOfMemory`], and [`RunError::TooManyBytes`] for a part that would end at 2^64 or behind.
    pub fn of(part: &[u8], from: Option<u64>, depth: u16) -> Result<Run, RunError> {
        if from == Some(raw::NO_FROM) {
            return Err(RunError::TooManyBytes);
        }
        // SAFETY: pointers and sizes are those of slices, and all are borrowed for the call alone.
        written(|run, size| unsafe {
            raw::jx_run_of(
                part.as_ptr(),
                part.len(),
                from.unwrap_or(raw::NO_FROM),
                depth.into(),
                run.as_mut_ptr(),
                run.len(),
                size,
            )
        })
    }

    /// The run of both parts' bytes, of which the right begin where the left end. Joins may be made in any order.
    ///
    /// # Errors
    ///
    /// [`RunError`]: the right run does not begin where this one ends, was made with another depth, or an allocation
    /// failed.
    ///
    /// ```
    /// use jx::{Run, RunError};
    ///
    /// let left = Run::of(b"[1,", Some(0), jx::DEPTH)?;
    /// let lost = Run::of(b"3]", Some(5), jx::DEPTH)?;
    /// assert_eq!(left.join(&lost), Err(RunError::NotNeighbours));
    /// # Ok::<(), RunError>(())
    /// ```
    pub fn join(&self, right: &Run) -> Result<Run, RunError> {
        // SAFETY: pointers and sizes are those of slices, and all are borrowed for the call alone.
        written(|run, size| unsafe {
            raw::jx_run_join(
                self.bytes.as_ptr(),
                self.bytes.len(),
                right.bytes.as_ptr(),
                right.bytes.len(),
                run.as_mut_ptr(),
                run.len(),
                size,
            )
        })
    }

    /// The verdict on the run's bytes as a whole text, which must be those in the range. Offsets count from the text's start.
    ///
    /// # Errors
    ///
    /// [`RunError`]: the run is of other bytes than those in the range, or an allocation failed.
    pub fn verdict(&self, covered: Range<usize>) -> Result<Result<(), Refusal>, RunError> {
        let mut verdict = raw::Verdict {
            offset: 0,
            kind: raw::TRUNCATED,
        };
        match self.told(covered.start, covered.end, &mut verdict) {
            raw::OK => Ok(Refusal::of(verdict)),
            status => Err(RunError::of(status)),
        }
    }

    /// Its bytes, to be kept or sent.
    #[must_use]
    pub fn as_bytes(&self) -> &[u8] {
        &self.bytes
    }

    fn told(&self, start: usize, end: usize, verdict: &mut raw::Verdict) -> u32 {
        // SAFETY: the pointer and the size are those of one slice, and the verdict is borrowed for the call alone.
        unsafe { raw::jx_run_verdict(self.bytes.as_ptr(), self.bytes.len(), start, end, verdict) }
    }
}

impl TryFrom<&[u8]> for Run {
    type Error = RunError;

    /// The run whose bytes these are.
    ///
    /// # Errors
    ///
    /// [`RunError::NotARun`], or [`RunError::OutOfMemory`].
    fn try_from(bytes: &[u8]) -> Result<Run, RunError> {
        let mut copy = Vec::new();
        copy.try_reserve_exact(bytes.len())
            .map_err(|_| RunError::OutOfMemory)?;
        copy.extend_from_slice(bytes);
        let run = Run { bytes: copy };
        // No part ends before it starts, so a run is told to be of other bytes.
        match run.told(1, 0, &mut raw::Verdict::default()) {
            raw::NOT_NEIGHBOURS => Ok(run),
            status => Err(RunError::of(status)),
        }
    }
}
