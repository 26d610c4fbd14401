use crate::fault::Fault;
use crate::find::{FindError, Found};
use crate::raw;
use crate::refusal::Refusal;
use crate::rows::{Kind, Row};
use crate::settings::Settings;
use std::cell::UnsafeCell;
use std::fmt;
use std::ops::Range;

/// The index of a JSON text, for many look-ups over it. It borrows the text.
///
/// ```
/// use jx::{FindError, Index, Settings};
///
/// let text = br#"{"users":[{"name":"Ann"},{"name":"Bo"}]}"#;
/// let index = Index::new(text, Settings::default())?;
/// assert_eq!(index.find("/users/1/name")?.bytes, br#""Bo""#);
/// assert_eq!(index.find("/users/2").unwrap_err(), FindError::PastEnd { token: 1 });
/// assert_eq!(index.rows().count(), 6);
/// assert_eq!(index.row(1).unwrap().span, 9..39);
/// # Ok::<(), Box<dyn std::error::Error>>(())
/// ```
///
/// The text outlives it:
///
/// ```compile_fail
/// let index = {
///     let text = b"[1,2]".to_vec();
///     jx::Index::new(&text, jx::DEPTH).unwrap()
/// };
/// index.find("/1").unwrap();
/// ```
pub struct Index<'a> {
    text: &'a [u8],
    // The library writes to the struct in each call, and leaves it as it was where it only reads.
    raw: UnsafeCell<raw::Index>,
}

/// The value that a pointer leads to in an index.
#[derive(Clone, Debug, PartialEq, Eq, Hash)]
pub struct Value<'a> {
    /// The kind of the value.
    pub kind: Kind,
    /// Where it stands in the text.
    pub span: Range<usize>,
    /// Its bytes: a string with its quotation marks, a container with its brackets.
    pub bytes: &'a [u8],
}

// SAFETY: nobody else leads to the memory of an index but the text, which any thread may read, and the library keeps nothing
// of a thread.
unsafe impl Send for Index<'_> {}

impl Drop for Index<'_> {
    fn drop(&mut self) {
        // SAFETY: the index was made by the library, or is none, and nobody uses it afterwards.
        unsafe { raw::jx_index_free_non_null(self.raw.get_mut()) }
    }
}

impl fmt::Debug for Index<'_> {
    fn fmt(&self, f: &mut fmt::Formatter<'_>) -> fmt::Result {
        f.debug_struct("Index")
            .field("len", &self.text.len())
            .finish_non_exhaustive()
    }
}

impl<'a> Index<'a> {
    /// Reads a text by settings and indexes it.
    ///
    /// # Errors
    ///
    /// [`Fault`]: the bytes are not valid by the settings, or an allocation failed.
    pub fn new(text: &'a [u8], settings: impl Into<Settings>) -> Result<Index<'a>, Fault> {
        let index = Index {
            text,
            raw: UnsafeCell::new(raw::Index::default()),
        };
        let mut verdict = raw::Verdict {
            offset: 0,
            kind: raw::TRUNCATED,
        };
        // SAFETY: the pointer and the size are those of one slice, which is borrowed until the index is freed, as it is when it
        // is dropped. The others are borrowed for the call alone.
        let status = unsafe {
            raw::jx_index_new_non_null(
                text.as_ptr(),
                text.len(),
                &settings.into().raw(),
                index.raw.get(),
                &mut verdict,
            )
        };
        if status == raw::NO_MEMORY {
            return Err(Fault::OutOfMemory);
        }
        debug_assert_eq!(status, raw::OK);
        Refusal::of(verdict).map_err(Fault::Refused)?;
        Ok(index)
    }

    /// The struct that the library writes to, for a call that may take the index.
    pub(crate) fn raw(&mut self) -> &mut raw::Index {
        self.raw.get_mut()
    }

    /// The text.
    pub fn text(&self) -> &'a [u8] {
        self.text
    }

    /// The value that a pointer (RFC 6901) leads to. It takes no memory.
    ///
    /// # Errors
    ///
    /// [`FindError`]: the string is not a pointer, or leads to no value.
    pub fn find(&self, pointer: &str) -> Result<Value<'a>, FindError> {
        let mut answer = raw::Answer::default();
        // SAFETY: the pointer and the size are those of one slice, and all are borrowed for the call alone. No other call uses
        // the index, as it is not `Sync`.
        let status = unsafe {
            raw::jx_index_find_non_null(
                self.raw.get(),
                pointer.as_ptr(),
                pointer.len(),
                &mut answer,
            )
        };
        debug_assert_eq!(status, raw::OK);
        let Found { kind, span } = Found::of(&answer)?;
        Ok(Value {
            kind,
            bytes: &self.text[span.clone()],
            span,
        })
    }

    /// The row with a number, counted from 0 in the order of the values' starts; none after the last one.
    pub fn row(&self, number: usize) -> Option<Row> {
        let mut row = raw::Row::default();
        // SAFETY: both are borrowed for the call alone. No other call uses the index, as it is not `Sync`.
        let status = unsafe { raw::jx_index_row_non_null(self.raw.get(), number, &mut row) };
        (status == raw::OK).then(|| Row::of(&row))
    }

    /// All rows, in the order of their values' starts.
    pub fn rows(&self) -> impl Iterator<Item = Row> + '_ {
        (0..).map_while(|number| self.row(number))
    }
}
