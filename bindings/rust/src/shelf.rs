use crate::elements::OutOfMemory;
use crate::find::{FindError, Found};
use crate::index::{Index, Value};
use crate::raw;
use crate::rows::Row;
use std::cell::UnsafeCell;
use std::error::Error;
use std::fmt;
use std::marker::PhantomData;
use std::slice;
use std::sync::{Mutex, PoisonError};

/// A place for one index, on which many threads look things up at once. One of them puts it there, at any time.
///
/// Each thread takes a reader. No call of a reader waits for another thread, and one that saw an index sees that one from then on.
///
/// ```
/// use jx::{Index, Settings, Shelf};
/// use std::thread;
///
/// let text = br#"{"users":[{"name":"Ann"},{"name":"Bo"}]}"#;
/// let shelf = Shelf::new()?;
/// thread::scope(|scope| {
///     for _ in 0..8 {
///         let reader = shelf.reader().unwrap();
///         scope.spawn(move || loop {
///             if let Some(found) = reader.find("/users/1/name") {
///                 break assert_eq!(found.unwrap().bytes, br#""Bo""#);
///             }
///         });
///     }
///     shelf.put(Index::new(text, Settings::default()).unwrap()).unwrap();
/// });
/// assert_eq!(shelf.reader()?.text(), Some(&text[..]));
/// # Ok::<(), jx::OutOfMemory>(())
/// ```
///
/// The text of an index outlives the shelf on which it stands:
///
/// ```compile_fail
/// let shelf = jx::Shelf::new().unwrap();
/// {
///     let text = b"[1,2]".to_vec();
///     shelf.put(jx::Index::new(&text, jx::DEPTH).unwrap()).unwrap();
/// }
/// shelf.reader().unwrap().find("/1");
/// ```
pub struct Shelf<'a> {
    // Locked while a reader is made, and while an index is put by the shelf itself.
    handle: Mutex<Handle>,
    text: Lasting<'a>,
}

/// A thread's handle of a shelf. It may be sent to another thread.
pub struct ShelfReader<'a> {
    // The library writes to the struct in each call.
    handle: UnsafeCell<Handle>,
    text: Lasting<'a>,
}

/// Why an index was not put on a shelf.
#[derive(Debug)]
#[non_exhaustive]
pub enum PutError<'a> {
    /// Another index stands there. This one is handed back.
    Taken(Index<'a>),
    /// An allocation failed.
    OutOfMemory,
}

// An index on a shelf lives exactly as long as what is read there.
type Lasting<'a> = PhantomData<fn(&'a [u8]) -> &'a [u8]>;

#[repr(transparent)]
struct Handle(raw::Shelf);

// SAFETY: the shelf is the library's, which lets handles of one be used and freed on any threads, and keeps nothing of a thread. The
// index on it may be sent, too.
unsafe impl Send for Handle {}

impl Drop for Handle {
    fn drop(&mut self) {
        // SAFETY: the handle was made by the library, or is none, and nobody uses it afterwards.
        unsafe { raw::jx_shelf_free_non_null(&mut self.0) }
    }
}

impl Handle {
    fn another(&mut self) -> Result<Handle, OutOfMemory> {
        let mut other = Handle(raw::Shelf::default());
        // SAFETY: both are borrowed for the call alone.
        let status = unsafe { raw::jx_shelf_share_non_null(&mut self.0, &mut other.0) };
        if status == raw::OK {
            Ok(other)
        } else {
            debug_assert_eq!(status, raw::NO_MEMORY);
            Err(OutOfMemory)
        }
    }

    fn put<'a>(&mut self, mut index: Index<'a>) -> Result<(), PutError<'a>> {
        // SAFETY: both are borrowed for the call alone. The text is borrowed for longer than the shelf may be used.
        match unsafe { raw::jx_shelf_put_non_null(&mut self.0, index.raw()) } {
            raw::OK => Ok(()),
            raw::TAKEN => Err(PutError::Taken(index)),
            status => {
                debug_assert_eq!(status, raw::NO_MEMORY);
                Err(PutError::OutOfMemory)
            }
        }
    }
}

impl<'a> Shelf<'a> {
    /// A shelf on which no index stands.
    ///
    /// # Errors
    ///
    /// [`OutOfMemory`]: an allocation failed.
    pub fn new() -> Result<Shelf<'a>, OutOfMemory> {
        let mut handle = Handle(raw::Shelf::default());
        // SAFETY: the struct is borrowed for the call alone.
        let status = unsafe { raw::jx_shelf_new_non_null(&mut handle.0) };
        if status != raw::OK {
            debug_assert_eq!(status, raw::NO_MEMORY);
            return Err(OutOfMemory);
        }
        Ok(Shelf {
            handle: Mutex::new(handle),
            text: PhantomData,
        })
    }

    /// A reader of this shelf, for a thread. It may outlive the shelf.
    ///
    /// # Errors
    ///
    /// [`OutOfMemory`]: an allocation failed.
    pub fn reader(&self) -> Result<ShelfReader<'a>, OutOfMemory> {
        let mut handle = self.handle.lock().unwrap_or_else(PoisonError::into_inner);
        Ok(ShelfReader {
            handle: UnsafeCell::new(handle.another()?),
            text: PhantomData,
        })
    }

    /// Puts an index on the shelf, if none stands there.
    ///
    /// # Errors
    ///
    /// [`PutError`]: another index stands there, or an allocation failed.
    pub fn put(&self, index: Index<'a>) -> Result<(), PutError<'a>> {
        let mut handle = self.handle.lock().unwrap_or_else(PoisonError::into_inner);
        handle.put(index)
    }
}

impl<'a> ShelfReader<'a> {
    /// Puts an index on the shelf, if none stands there.
    ///
    /// # Errors
    ///
    /// [`PutError`]: another index stands there, or an allocation failed.
    pub fn put(&self, index: Index<'a>) -> Result<(), PutError<'a>> {
        // SAFETY: no other call uses the handle, as the reader is not `Sync`, and no call calls back.
        unsafe { &mut *self.handle.get() }.put(index)
    }

    /// The text of the index on the shelf; none where no index stands there.
    pub fn text(&self) -> Option<&'a [u8]> {
        let mut text = raw::Text {
            bytes: [].as_ptr(),
            size: 0,
        };
        // SAFETY: both are borrowed for the call alone. No other call uses the handle, as the reader is not `Sync`.
        let status = unsafe { raw::jx_shelf_text_non_null(self.raw(), &mut text) };
        // SAFETY: those are the pointer and the size of a slice that an index was made of, which is borrowed as long as the shelf.
        (status == raw::OK).then(|| unsafe { slice::from_raw_parts(text.bytes, text.size) })
    }

    /// The value that a pointer (RFC 6901) leads to by the index on the shelf; none where no index stands there. It takes no memory.
    ///
    /// # Errors
    ///
    /// [`FindError`]: the pointer is not a JSON Pointer, or leads to no value.
    pub fn find(&self, pointer: &str) -> Option<Result<Value<'a>, FindError>> {
        let text = self.text()?;
        let mut answer = raw::Answer::default();
        // SAFETY: the pointer and the size are those of one slice, and all are borrowed for the call alone. No other call uses the
        // handle, as the reader is not `Sync`.
        let status = unsafe {
            raw::jx_shelf_find_non_null(self.raw(), pointer.as_ptr(), pointer.len(), &mut answer)
        };
        debug_assert_eq!(status, raw::OK);
        Some(Found::of(&answer).map(|Found { kind, span }| Value {
            kind,
            bytes: &text[span.clone()],
            span,
        }))
    }

    /// The row with a number in the index on the shelf; none after the last one, or where no index stands there.
    pub fn row(&self, number: usize) -> Option<Row> {
        let mut row = raw::Row::default();
        // SAFETY: both are borrowed for the call alone. No other call uses the handle, as the reader is not `Sync`.
        let status = unsafe { raw::jx_shelf_row_non_null(self.raw(), number, &mut row) };
        (status == raw::OK).then(|| Row::of(&row))
    }

    fn raw(&self) -> *mut raw::Shelf {
        // `Handle` is this struct alone.
        self.handle.get().cast()
    }
}

impl fmt::Debug for Shelf<'_> {
    fn fmt(&self, f: &mut fmt::Formatter<'_>) -> fmt::Result {
        f.debug_struct("Shelf").finish_non_exhaustive()
    }
}

impl fmt::Debug for ShelfReader<'_> {
    fn fmt(&self, f: &mut fmt::Formatter<'_>) -> fmt::Result {
        f.debug_struct("ShelfReader")
            .field("len", &self.text().map(<[u8]>::len))
            .finish_non_exhaustive()
    }
}

impl fmt::Display for PutError<'_> {
    fn fmt(&self, f: &mut fmt::Formatter<'_>) -> fmt::Result {
        f.write_str(match self {
            PutError::Taken(_) => "another index stands on the shelf",
            PutError::OutOfMemory => "out of memory",
        })
    }
}

impl Error for PutError<'_> {}
