use crate::fault::Fault;
use crate::raw;
use crate::refusal::Refusal;
use crate::settings::Settings;
use std::cell::UnsafeCell;
use std::error::Error;
use std::fmt;
use std::ops::{Bound, RangeBounds};

/// A text that is edited, with the verdict on all of it after each edit.
///
/// ```
/// use jx::{Document, Fault, Refusal, Settings};
///
/// let mut document = Document::new(br#"{"a":1}"#, Settings::default())?;
/// document.verdict()?;
/// document.edit(5..6, b"tru")?;
/// assert_eq!(document.verdict(), Err(Fault::Refused(Refusal::Stopped { at: 8 })));
/// document.edit(8..8, b"e")?;
/// document.verdict()?;
/// assert_eq!(document.copy(..)?, br#"{"a":true}"#);
/// # Ok::<(), Box<dyn std::error::Error>>(())
/// ```
///
/// It may go to another thread:
///
/// ```
/// let mut document = jx::Document::new(b"[1,2]", jx::DEPTH)?;
/// let verdict = std::thread::spawn(move || document.verdict()).join().unwrap();
/// assert_eq!(verdict, Ok(()));
/// # Ok::<(), jx::OpenError>(())
/// ```
pub struct Document {
    // The library writes to the struct in each call, and leaves it as it was where it only reads.
    raw: UnsafeCell<raw::Document>,
}

// SAFETY: nobody else leads to the memory of a document, and the library keeps nothing of a thread.
unsafe impl Send for Document {}

impl Drop for Document {
    fn drop(&mut self) {
        // SAFETY: the document was made by the library, or is none, and nobody uses it afterwards.
        unsafe { raw::jx_document_free_non_null(self.raw.get_mut()) }
    }
}

impl fmt::Debug for Document {
    fn fmt(&self, f: &mut fmt::Formatter<'_>) -> fmt::Result {
        f.debug_struct("Document")
            .field("len", &self.len())
            .finish_non_exhaustive()
    }
}

/// Why no document was made.
#[derive(Clone, Copy, Debug, PartialEq, Eq, Hash)]
pub enum OpenError {
    /// An allocation failed.
    OutOfMemory,
    /// The settings ask for unique names, and a document keeps no names.
    NoUniqueNames,
}

impl fmt::Display for OpenError {
    fn fmt(&self, f: &mut fmt::Formatter<'_>) -> fmt::Result {
        f.write_str(match self {
            OpenError::OutOfMemory => "out of memory",
            OpenError::NoUniqueNames => "a document keeps no names",
        })
    }
}

impl Error for OpenError {}

/// Why a document was not edited, or its bytes not copied. It is as it was.
#[derive(Clone, Copy, Debug, PartialEq, Eq, Hash)]
pub enum EditError {
    /// An allocation failed.
    OutOfMemory,
    /// The range ends before it starts, or after the last byte.
    OutOfBounds,
}

impl fmt::Display for EditError {
    fn fmt(&self, f: &mut fmt::Formatter<'_>) -> fmt::Result {
        f.write_str(match self {
            EditError::OutOfMemory => "out of memory",
            EditError::OutOfBounds => "out of bounds",
        })
    }
}

impl Error for EditError {}

impl EditError {
    fn of(status: u32) -> Result<(), EditError> {
        match status {
            raw::NO_MEMORY => Err(EditError::OutOfMemory),
            raw::OUT_OF_BOUNDS => Err(EditError::OutOfBounds),
            status => {
                debug_assert_eq!(status, raw::OK);
                Ok(())
            }
        }
    }
}

impl Document {
    /// A document of a copy of the bytes, read by these settings. Names can't have to be unique, since it keeps none.
    ///
    /// # Errors
    ///
    /// [`OpenError`]: an allocation failed, or the settings ask for unique names.
    pub fn new(text: &[u8], settings: impl Into<Settings>) -> Result<Document, OpenError> {
        let document = Document {
            raw: UnsafeCell::new(raw::Document::default()),
        };
        // SAFETY: the pointer and the size are those of one slice, and the others are borrowed for the call alone.
        let status = unsafe {
            raw::jx_document_new_non_null(
                text.as_ptr(),
                text.len(),
                &settings.into().raw(),
                document.raw.get(),
            )
        };
        match status {
            raw::NO_MEMORY => Err(OpenError::OutOfMemory),
            raw::NO_UNIQUE_NAMES => Err(OpenError::NoUniqueNames),
            status => {
                debug_assert_eq!(status, raw::OK);
                Ok(document)
            }
        }
    }

    /// Puts other bytes in the place of those in the range. It may cut a character, an escape or a byte order mark.
    ///
    /// # Errors
    ///
    /// [`EditError`]: an allocation failed, or the range ends before it starts or after the last byte. Then the document
    /// is as it was.
    ///
    /// ```
    /// use jx::{Document, EditError, Settings};
    ///
    /// let mut document = Document::new(b"[1]", Settings::default())?;
    /// document.edit(2..2, b",2")?;
    /// assert_eq!(document.edit(5..6, b""), Err(EditError::OutOfBounds));
    /// assert_eq!(document.copy(..)?, b"[1,2]");
    /// # Ok::<(), Box<dyn std::error::Error>>(())
    /// ```
    pub fn edit(
        &mut self,
        range: impl RangeBounds<usize>,
        replacement: &[u8],
    ) -> Result<(), EditError> {
        let (start, end) = self.bounds(range)?;
        // SAFETY: the pointer and the size are those of one slice, and both are borrowed for the call alone.
        EditError::of(unsafe {
            raw::jx_document_edit_non_null(
                self.raw.get_mut(),
                start,
                end,
                replacement.as_ptr(),
                replacement.len(),
            )
        })
    }

    /// The verdict on all bytes as one text: the same as [`check`](crate::check) gives by the settings that it was made with. It
    /// takes up what edits changed since the last one, so there may be several edits before.
    ///
    /// # Errors
    ///
    /// [`Fault`]: the bytes are not valid by the settings, or an allocation failed.
    pub fn verdict(&mut self) -> Result<(), Fault> {
        let mut verdict = raw::Verdict {
            offset: 0,
            kind: raw::TRUNCATED,
        };
        // SAFETY: both are borrowed for the call alone.
        match unsafe { raw::jx_document_verdict_non_null(self.raw.get_mut(), &mut verdict) } {
            raw::NO_MEMORY => Err(Fault::OutOfMemory),
            status => {
                debug_assert_eq!(status, raw::OK);
                Refusal::of(verdict).map_err(Fault::Refused)
            }
        }
    }

    /// How many bytes there are.
    pub fn len(&self) -> usize {
        let mut size = 0;
        // SAFETY: both are borrowed for the call alone. No other call uses the document, as it is not `Sync`.
        let status = unsafe { raw::jx_document_size_non_null(self.raw.get(), &mut size) };
        debug_assert_eq!(status, raw::OK);
        size
    }

    /// Whether there are none.
    pub fn is_empty(&self) -> bool {
        self.len() == 0
    }

    /// A copy of the bytes in the range.
    ///
    /// # Errors
    ///
    /// [`EditError`]: an allocation failed, or the range ends before it starts or after the last byte.
    pub fn copy(&self, range: impl RangeBounds<usize>) -> Result<Vec<u8>, EditError> {
        let (start, end) = self.bounds(range)?;
        if end < start || self.len() < end {
            return Err(EditError::OutOfBounds);
        }
        let mut bytes = Vec::new();
        bytes
            .try_reserve_exact(end - start)
            .map_err(|_| EditError::OutOfMemory)?;
        bytes.resize(end - start, 0);
        // SAFETY: the pointer and the size are those of one slice, and both are borrowed for the call alone. No other call
        // uses the document, as it is not `Sync`.
        EditError::of(unsafe {
            raw::jx_document_copy_non_null(self.raw.get(), start, bytes.as_mut_ptr(), bytes.len())
        })?;
        Ok(bytes)
    }

    /// Where a range starts and ends.
    fn bounds(&self, range: impl RangeBounds<usize>) -> Result<(usize, usize), EditError> {
        let behind = |at: &usize| at.checked_add(1).ok_or(EditError::OutOfBounds);
        let start = match range.start_bound() {
            Bound::Included(at) => *at,
            Bound::Excluded(at) => behind(at)?,
            Bound::Unbounded => 0,
        };
        let end = match range.end_bound() {
            Bound::Included(at) => behind(at)?,
            Bound::Excluded(at) => *at,
            Bound::Unbounded => self.len(),
        };
        Ok((start, end))
    }
}
