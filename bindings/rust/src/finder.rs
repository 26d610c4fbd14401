use crate::elements::OutOfMemory;
use crate::find::{collected, FindError, Found};
use crate::raw;
use crate::settings::Settings;
use std::error::Error;
use std::fmt;
use std::io;

/// Why a look-up was not begun, or a slice not read.
#[derive(Clone, Copy, Debug, PartialEq, Eq, Hash)]
pub enum FeedError {
    /// An allocation failed. The look-up is lost, and each later call says so again.
    OutOfMemory,
    /// The settings ask for unique names, and a look-up that is fed keeps no names.
    NoUniqueNames,
    /// It would have been fed 2^64 bytes or more. It was left as it was.
    TooManyBytes,
}

impl fmt::Display for FeedError {
    fn fmt(&self, f: &mut fmt::Formatter<'_>) -> fmt::Result {
        f.write_str(match self {
            FeedError::OutOfMemory => "out of memory",
            FeedError::NoUniqueNames => "a look-up that is fed keeps no names",
            FeedError::TooManyBytes => "too many bytes",
        })
    }
}

impl Error for FeedError {}

impl FeedError {
    fn of(status: u32) -> Result<(), FeedError> {
        match status {
            raw::NO_MEMORY | raw::NO_FINDER => Err(FeedError::OutOfMemory),
            raw::NO_UNIQUE_NAMES => Err(FeedError::NoUniqueNames),
            raw::TOO_MANY_BYTES => Err(FeedError::TooManyBytes),
            status => {
                debug_assert_eq!(status, raw::OK);
                Ok(())
            }
        }
    }
}

impl From<FeedError> for io::Error {
    fn from(error: FeedError) -> io::Error {
        match error {
            FeedError::OutOfMemory => io::ErrorKind::OutOfMemory.into(),
            FeedError::NoUniqueNames | FeedError::TooManyBytes => {
                io::Error::new(io::ErrorKind::InvalidInput, error)
            }
        }
    }
}

/// A look-up of pointers (RFC 6901) in a text that comes slice by slice. No byte of the text is kept but those of a name that a
/// slice cuts.
///
/// ```
/// let mut finder = jx::Finder::new(&["/users/1", "/b"], jx::DEPTH)?;
/// std::io::copy(&mut &br#"{"users":[{},"Bo"]}"#[..], &mut finder)?;
/// let found = finder.end()?;
/// assert_eq!(found[0].as_ref().unwrap().span, 13..17);
/// assert_eq!(found[1], Err(jx::FindError::NoSuchMember { token: 0 }));
/// # Ok::<(), Box<dyn std::error::Error>>(())
/// ```
pub struct Finder {
    raw: raw::Finder,
    // The pointers that the library reads until the look-up ends: the list leads to the bytes. Neither is touched before that.
    spelt: Vec<raw::Pointer>,
    _bytes: Vec<u8>,
}

// SAFETY: nobody else leads to the memory of a look-up, and the library keeps nothing of a thread.
unsafe impl Send for Finder {}

impl Drop for Finder {
    fn drop(&mut self) {
        // SAFETY: the look-up was made by the library, or is none, and nobody uses it afterwards.
        unsafe { raw::jx_finder_free_non_null(&mut self.raw) }
    }
}

impl fmt::Debug for Finder {
    fn fmt(&self, f: &mut fmt::Formatter<'_>) -> fmt::Result {
        f.debug_struct("Finder")
            .field("pointers", &self.spelt.len())
            .finish_non_exhaustive()
    }
}

impl Finder {
    /// A look-up of pointers at the start of a text by settings. It copies the pointers. Names can't have to be unique, since it
    /// keeps none.
    ///
    /// # Errors
    ///
    /// [`FeedError`]: an allocation failed, or the settings ask for unique names.
    pub fn new(pointers: &[&str], settings: impl Into<Settings>) -> Result<Finder, FeedError> {
        let mut bytes = Vec::new();
        bytes
            .try_reserve_exact(pointers.iter().map(|pointer| pointer.len()).sum())
            .map_err(|_| FeedError::OutOfMemory)?;
        for pointer in pointers {
            bytes.extend_from_slice(pointer.as_bytes());
        }
        let mut rest = bytes.as_slice();
        let spelt = collected(pointers.iter().map(|pointer| {
            let (first, behind) = rest.split_at(pointer.len());
            rest = behind;
            raw::Pointer {
                bytes: first.as_ptr(),
                size: first.len(),
            }
        }))
        .map_err(|OutOfMemory| FeedError::OutOfMemory)?;
        let mut finder = Finder {
            raw: raw::Finder::default(),
            spelt,
            _bytes: bytes,
        };
        let settings = settings.into().raw();
        // SAFETY: the list and the bytes that it leads to stay as they are until the look-up is freed, which `drop` does first.
        FeedError::of(unsafe {
            raw::jx_finder_new_non_null(
                finder.spelt.as_ptr(),
                finder.spelt.len(),
                &settings,
                &mut finder.raw,
            )
        })?;
        Ok(finder)
    }

    /// Reads the bytes after all that it was fed. A slice may end anywhere, also inside a character.
    ///
    /// # Errors
    ///
    /// [`FeedError`]: an allocation failed, now or before, or it would have been fed 2^64 bytes or more.
    pub fn feed(&mut self, bytes: &[u8]) -> Result<(), FeedError> {
        // SAFETY: the pointer and the size are those of one slice, and the look-up is borrowed for the call alone.
        FeedError::of(unsafe {
            raw::jx_finder_feed_non_null(&mut self.raw, bytes.as_ptr(), bytes.len())
        })
    }

    /// The answer to each pointer in the text of all bytes that it was fed, in their order, as [`crate::find`] gives it.
    ///
    /// # Errors
    ///
    /// [`OutOfMemory`]: an allocation failed, now or before.
    pub fn end(mut self) -> Result<Vec<Result<Found, FindError>>, OutOfMemory> {
        let mut answers = collected(self.spelt.iter().map(|_| raw::Answer::default()))?;
        // SAFETY: the pointer and the size are those of one vector, and all are borrowed for the call alone.
        let status = unsafe {
            raw::jx_finder_end_non_null(&mut self.raw, answers.as_mut_ptr(), answers.len())
        };
        FeedError::of(status).map_err(|_| OutOfMemory)?;
        collected(answers.iter().map(Found::of))
    }
}

impl io::Write for Finder {
    /// Takes all of the bytes, or none.
    fn write(&mut self, bytes: &[u8]) -> io::Result<usize> {
        self.feed(bytes)?;
        Ok(bytes.len())
    }

    fn flush(&mut self) -> io::Result<()> {
        Ok(())
    }
}
