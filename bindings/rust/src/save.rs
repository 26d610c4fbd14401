use crate::fault::Fault;
use crate::raw;
use crate::refusal::Refusal;
use crate::settings::Settings;
use std::error::Error;
use std::fmt;
use std::io;

/// The size of a chunk that the program `jx` takes. It changes no answer.
pub const CHUNK: usize = 32768;

/// How many bytes are read at a time, at most.
const STEP: usize = 64 * 1024;

/// Why no index of a text is made.
#[derive(Debug)]
pub enum SaveError {
    /// The bytes are not valid by the settings, or an allocation failed.
    Fault(Fault),
    /// The settings ask for unique names, and a save keeps no names.
    NoUniqueNames,
    /// The size of a chunk is no power of two from 64 to 1,048,576.
    NotAChunk,
    /// The text could not be read.
    Read(io::Error),
}

impl fmt::Display for SaveError {
    fn fmt(&self, f: &mut fmt::Formatter<'_>) -> fmt::Result {
        match self {
            SaveError::Fault(fault) => fault.fmt(f),
            SaveError::NoUniqueNames => f.write_str("a save keeps no names"),
            SaveError::NotAChunk => f.write_str("not the size of a chunk"),
            SaveError::Read(error) => error.fmt(f),
        }
    }
}

impl Error for SaveError {
    fn source(&self) -> Option<&(dyn Error + 'static)> {
        match self {
            SaveError::Fault(fault) => Some(fault),
            SaveError::Read(error) => Some(error),
            SaveError::NoUniqueNames | SaveError::NotAChunk => None,
        }
    }
}

impl SaveError {
    fn of(status: u32) -> Result<(), SaveError> {
        match status {
            raw::NO_MEMORY | raw::NO_SAVE => Err(SaveError::Fault(Fault::OutOfMemory)),
            raw::NO_UNIQUE_NAMES => Err(SaveError::NoUniqueNames),
            raw::NOT_A_CHUNK => Err(SaveError::NotAChunk),
            status => {
                debug_assert_eq!(status, raw::OK);
                Ok(())
            }
        }
    }
}

/// A text of which the library makes the index, freed in the end.
#[derive(Default)]
struct Saving(raw::Save);

impl Drop for Saving {
    fn drop(&mut self) {
        // SAFETY: the text was made by the library, or is none, and nobody uses it afterwards.
        unsafe { raw::jx_save_free_non_null(&mut self.0) }
    }
}

/// Reads a text to its end and gives the bytes of its index, to be kept beside it: [`File::open`](crate::File::open) takes them. With
/// chunks of [`CHUNK`] bytes they are 0.075 % of the text's.
///
/// # Errors
///
/// [`SaveError`]: what was read is not valid JSON, the reader failed, an allocation failed, or the settings or the chunk are wrong.
///
/// ```
/// let index = jx::save(&b"[1, 2]"[..], jx::DEPTH, 64)?;
/// assert_eq!(index.len(), 64);
/// # Ok::<(), jx::SaveError>(())
/// ```
pub fn save(
    text: impl io::Read,
    settings: impl Into<Settings>,
    chunk: usize,
) -> Result<Vec<u8>, SaveError> {
    let mut saving = Saving::default();
    let settings = settings.into().raw();
    // SAFETY: both are borrowed for the call alone.
    SaveError::of(unsafe { raw::jx_save_new_non_null(&settings, chunk, &mut saving.0) })?;
    saved(saving, text)
}

/// The same with tables of the text's names after the index. By these a look-up reads only the chunks of an object that may have the
/// name. The answers are the same. A name takes at most four bytes of the tables.
///
/// # Errors
///
/// Those of [`save`].
///
/// ```
/// let text = br#"{"a": 1, "b": [2]}"#;
/// let index = jx::save_with_names(&text[..], jx::DEPTH, 64)?;
/// assert_eq!(jx::File::open(&text[..], &index).unwrap().get("/b/0").unwrap(), b"2");
/// # Ok::<(), jx::SaveError>(())
/// ```
pub fn save_with_names(
    text: impl io::Read,
    settings: impl Into<Settings>,
    chunk: usize,
) -> Result<Vec<u8>, SaveError> {
    let mut saving = Saving::default();
    let settings = settings.into().raw();
    // SAFETY: both are borrowed for the call alone.
    SaveError::of(unsafe {
        raw::jx_save_new_with_names_non_null(&settings, chunk, &mut saving.0)
    })?;
    saved(saving, text)
}

/// Reads a text to its end, which was fed no byte.
fn saved(mut saving: Saving, mut text: impl io::Read) -> Result<Vec<u8>, SaveError> {
    let mut buffer = Vec::new();
    buffer
        .try_reserve_exact(STEP)
        .map_err(|_| SaveError::Fault(Fault::OutOfMemory))?;
    buffer.resize(STEP, 0);
    loop {
        let count = match text.read(&mut buffer) {
            Ok(0) => return ended(&mut saving),
            Ok(count) => count,
            Err(error) if error.kind() == io::ErrorKind::Interrupted => continue,
            Err(error) => return Err(SaveError::Read(error)),
        };
        let bytes = &buffer[..count];
        // SAFETY: the pointer and the size are those of one slice, and the text is borrowed for the call alone.
        SaveError::of(unsafe {
            raw::jx_save_feed_non_null(&mut saving.0, bytes.as_ptr(), bytes.len())
        })?;
    }
}

/// The bytes of the index of all that was fed.
fn ended(saving: &mut Saving) -> Result<Vec<u8>, SaveError> {
    let mut size = 0;
    let mut verdict = raw::Verdict::default();
    // SAFETY: all are borrowed for the call alone.
    SaveError::of(unsafe { raw::jx_save_end_non_null(&mut saving.0, &mut size, &mut verdict) })?;
    Refusal::of(verdict).map_err(|refusal| SaveError::Fault(Fault::Refused(refusal)))?;
    let mut index = Vec::new();
    index
        .try_reserve_exact(size)
        .map_err(|_| SaveError::Fault(Fault::OutOfMemory))?;
    index.resize(size, 0);
    // SAFETY: the pointer and the size are those of one vector, and all are borrowed for the call alone.
    SaveError::of(unsafe {
        raw::jx_save_take_non_null(&mut saving.0, index.as_mut_ptr(), index.len(), &mut size)
    })?;
    Ok(index)
}
