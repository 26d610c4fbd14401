use crate::raw;
use std::error::Error;
use std::fmt;

/// The settings of a reading: what a text has to meet besides the grammar. A depth in their place stands for it and the
/// default of the others.
///
/// ```
/// use jx::{check, Fault, Refusal, Settings};
///
/// let settings = Settings { ignore_mark: true, unique_names: true, ..Settings::default() };
/// assert_eq!(check(b"\xEF\xBB\xBF{\"a\":1}", settings), Ok(()));
/// assert_eq!(
///     check(b"\xEF\xBB\xBF{\"a\":1,\"\\u0061\":2}", settings),
///     Err(Fault::Refused(Refusal::RepeatedName { at: 10 }))
/// );
/// ```
#[derive(Clone, Copy, Debug, PartialEq, Eq, Hash)]
pub struct Settings {
    /// How many containers may stand open at once.
    pub depth: u16,
    /// Whether a byte order mark, the bytes EF BB BF, may stand in front of a text and is ignored (RFC 8259, section 8.1).
    /// Offsets count its bytes. Before the first record separator of a sequence one may stand alone.
    pub ignore_mark: bool,
    /// Whether a text is refused in which an object has two members of one name (RFC 8259, section 4). Names are equal where
    /// their values are, as lists of UTF-16 code units.
    pub unique_names: bool,
}

impl Default for Settings {
    /// [`DEPTH`](crate::DEPTH), a byte order mark is refused, and any names are accepted.
    fn default() -> Settings {
        Settings::from(crate::DEPTH)
    }
}

impl From<u16> for Settings {
    /// This depth, a byte order mark is refused, and any names are accepted.
    fn from(depth: u16) -> Settings {
        Settings {
            depth,
            ignore_mark: false,
            unique_names: false,
        }
    }
}

impl From<&Settings> for Settings {
    fn from(settings: &Settings) -> Settings {
        *settings
    }
}

/// Settings ask for unique names, and a reader keeps none.
#[derive(Clone, Copy, Debug, PartialEq, Eq, Hash)]
pub struct NoUniqueNames;

impl fmt::Display for NoUniqueNames {
    fn fmt(&self, f: &mut fmt::Formatter<'_>) -> fmt::Result {
        f.write_str("a reader keeps no names")
    }
}

impl Error for NoUniqueNames {}

impl Settings {
    pub(crate) fn raw(&self) -> raw::Settings {
        let mark = if self.ignore_mark {
            raw::IGNORE_MARK
        } else {
            0
        };
        let names = if self.unique_names {
            raw::UNIQUE_NAMES
        } else {
            0
        };
        raw::Settings {
            depth: self.depth.into(),
            flags: mark | names,
        }
    }
}
