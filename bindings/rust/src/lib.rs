//! Whether bytes are a JSON text (RFC 8259), and at which byte they stop being one.
//!
//! ```
//! use jx::Refusal;
//!
//! assert_eq!(jx::check(br#"{"a":[1,2]}"#, jx::DEPTH), Ok(()));
//! assert_eq!(jx::check(b"nulx", jx::DEPTH), Err(Refusal::Stopped { at: 3 }.into()));
//! ```
//!
//! Offsets count bytes from the text's start. Each call takes [`Settings`], or a depth in their place: how many containers may
//! stand open at once. The depth of a scalar is 0, and that of a container one more than that of its deepest child.
//! [`Reader`] takes no memory, nor does [`check`] where names need not be unique; nothing starts a thread.

#![deny(missing_docs, unsafe_op_in_unsafe_fn)]

mod compact;
mod document;
mod elements;
mod fault;
mod file;
mod find;
mod finder;
mod index;
mod lines;
mod raw;
mod reader;
mod refusal;
mod rows;
mod run;
mod save;
mod sentence;
mod settings;
mod shelf;
mod values;

pub use compact::compact;
pub use document::{Document, EditError, OpenError};
pub use elements::{elements, Element, ElementVerdict, OutOfMemory};
pub use fault::Fault;
pub use file::{File, FileError, IndexFault, Part, ReadAt, PARTS_MAX};
pub use find::{find, find_all, FindError, Found};
pub use finder::{FeedError, Finder};
pub use index::{Index, Value};
pub use lines::{lines, BadLines, Line, LineCounts, LineError, LineVerdict, Lines};
pub use reader::{Reader, TooManyBytes};
pub use refusal::Refusal;
pub use rows::{rows, Kind, Row};
pub use run::{Run, RunError};
pub use save::{save, save_with_names, SaveError, CHUNK};
pub use settings::{NoUniqueNames, Settings};
pub use shelf::{PutError, Shelf, ShelfReader};
pub use values::{each, Each, EachError, Values};

/// The depth that the program `jx` takes where none is named.
pub const DEPTH: u16 = 512;

/// Checks whether the bytes are a JSON text (RFC 8259, section 2) by settings, and if not, where they stop being one. It takes
/// memory only where names have to be unique.
///
/// # Errors
///
/// [`Fault`]: the bytes are not valid by the settings, or an allocation failed.
///
/// ```
/// use jx::{Refusal, Settings};
///
/// assert_eq!(jx::check(b"[[]]", 2), Ok(()));
/// assert_eq!(jx::check(b"[[]]", 1), Err(Refusal::TooDeep { at: 1 }.into()));
/// assert_eq!(jx::check(b"[1", Settings::default()), Err(Refusal::Truncated.into()));
/// ```
pub fn check(text: &[u8], settings: impl Into<Settings>) -> Result<(), Fault> {
    let mut verdict = raw::Verdict {
        offset: 0,
        kind: raw::TRUNCATED,
    };
    let settings = settings.into().raw();
    // SAFETY: the pointer and the size are those of one slice, and the others are borrowed for the call alone.
    let status =
        unsafe { raw::jx_check_non_null(text.as_ptr(), text.len(), &settings, &mut verdict) };
    if status == raw::NO_MEMORY {
        return Err(Fault::OutOfMemory);
    }
    debug_assert_eq!(status, raw::OK);
    Refusal::of(verdict).map_err(Fault::Refused)
}

/// The library's version: its three numbers.
///
/// ```
/// assert_eq!(jx::version(), (0, 3, 0));
/// ```
#[must_use]
pub fn version() -> (u32, u32, u32) {
    // SAFETY: the call takes nothing.
    let all = unsafe { raw::jx_version() };
    (all / 10_000, all / 100 % 100, all % 100)
}
