use crate::elements::OutOfMemory;
use crate::raw;
use crate::refusal::Refusal;
use crate::rows::Kind;
use crate::settings::Settings;
use std::error::Error;
use std::fmt;
use std::ops::Range;

/// The value that a pointer leads to.
#[derive(Clone, Debug, PartialEq, Eq, Hash)]
pub struct Found {
    /// The kind of the value.
    pub kind: Kind,
    /// Where it stands: a string with its quotation marks, a container with its brackets.
    pub span: Range<usize>,
}

impl Found {
    /// The answer of the library.
    pub(crate) fn of(answer: &raw::Answer) -> Result<Found, FindError> {
        FindError::of(answer.outcome, answer.at)?;
        Ok(Found {
            kind: Kind::of(answer.kind),
            span: answer.span.start..answer.span.end,
        })
    }
}

/// Why a pointer (RFC 6901, sections 3 and 4) leads to no value. Tokens are counted from 0.
#[derive(Clone, Copy, Debug, PartialEq, Eq, Hash)]
pub enum FindError {
    /// An allocation failed.
    OutOfMemory,
    /// The object has no member of that name.
    NoSuchMember {
        /// The number of the token.
        token: usize,
    },
    /// The object has two or more members of that name.
    NameRepeated {
        /// The number of the token.
        token: usize,
    },
    /// In an array the token is neither `-` nor a number: `0`, or digits without a leading `0`.
    NotAnIndex {
        /// The number of the token.
        token: usize,
    },
    /// The number is not below the count of the array's elements.
    PastEnd {
        /// The number of the token.
        token: usize,
    },
    /// The token is `-`, which names what would stand after an array's last element.
    AfterLast {
        /// The number of the token.
        token: usize,
    },
    /// The value is neither an object nor an array.
    NotAContainer {
        /// The number of the token.
        token: usize,
    },
    /// The pointer is not empty and does not begin with `/`.
    NoSlash,
    /// The pointer's first `~` without `0` or `1` after it.
    BadEscape {
        /// Its offset in the pointer.
        at: usize,
    },
    /// The bytes are not valid JSON.
    Refused(Refusal),
}

impl FindError {
    /// The outcome of the library.
    pub(crate) fn of(outcome: u32, at: usize) -> Result<(), FindError> {
        let token = at;
        Err(match outcome {
            0 => return Ok(()),
            1 => FindError::NoSuchMember { token },
            2 => FindError::NameRepeated { token },
            3 => FindError::NotAnIndex { token },
            4 => FindError::PastEnd { token },
            5 => FindError::AfterLast { token },
            6 => FindError::NotAContainer { token },
            7 => FindError::NoSlash,
            8 => FindError::BadEscape { at },
            9 => unreachable!("a str is in UTF-8"),
            10 => FindError::Refused(Refusal::Stopped { at }),
            11 => FindError::Refused(Refusal::Truncated),
            12 => FindError::Refused(Refusal::TooDeep { at }),
            _ => FindError::Refused(Refusal::RepeatedName { at }),
        })
    }
}

impl fmt::Display for FindError {
    fn fmt(&self, f: &mut fmt::Formatter<'_>) -> fmt::Result {
        match self {
            FindError::OutOfMemory => f.write_str("out of memory"),
            FindError::NoSuchMember { token } => write!(f, "no such member at token {token}"),
            FindError::NameRepeated { token } => write!(f, "name repeated at token {token}"),
            FindError::NotAnIndex { token } => write!(f, "not an index at token {token}"),
            FindError::PastEnd { token } => write!(f, "past end at token {token}"),
            FindError::AfterLast { token } => write!(f, "after last at token {token}"),
            FindError::NotAContainer { token } => write!(f, "not a container at token {token}"),
            FindError::NoSlash => f.write_str("no slash"),
            FindError::BadEscape { at } => write!(f, "bad escape at {at}"),
            FindError::Refused(refusal) => refusal.fmt(f),
        }
    }
}

impl Error for FindError {
    fn source(&self) -> Option<&(dyn Error + 'static)> {
        match self {
            FindError::Refused(refusal) => Some(refusal),
            _ => None,
        }
    }
}

/// The value that a pointer (RFC 6901) leads to in a JSON text by settings.
///
/// # Errors
///
/// [`FindError`]: the bytes are not valid JSON, the string is not a pointer or leads to no value, or an allocation failed.
///
/// ```
/// use jx::{find, FindError};
///
/// let text = br#"{"users":[{"name":"Ann"},{"name":"Bo"}]}"#;
/// let found = find(text, "/users/1/name", jx::DEPTH)?;
/// assert_eq!(&text[found.span], br#""Bo""#);
/// assert_eq!(find(text, "/users/2", jx::DEPTH), Err(FindError::PastEnd { token: 1 }));
/// assert_eq!(find(text, "users", jx::DEPTH), Err(FindError::NoSlash));
/// # Ok::<(), FindError>(())
/// ```
pub fn find(text: &[u8], pointer: &str, settings: impl Into<Settings>) -> Result<Found, FindError> {
    let mut answer = raw::Answer::default();
    // SAFETY: each pointer and size are those of one slice, and all are borrowed for the call alone.
    let status = unsafe {
        raw::jx_at_non_null(
            text.as_ptr(),
            text.len(),
            pointer.as_ptr(),
            pointer.len(),
            &settings.into().raw(),
            &mut answer,
        )
    };
    if status == raw::NO_MEMORY {
        return Err(FindError::OutOfMemory);
    }
    debug_assert_eq!(status, raw::OK);
    Found::of(&answer)
}

/// The answers to many pointers, in their order. The text is read once for all of them, and twice where names have to be
/// unique.
///
/// # Errors
///
/// [`OutOfMemory`]: an allocation failed. The answer to each pointer says where it leads.
///
/// ```
/// use jx::{find_all, FindError};
///
/// let text = br#"{"a":1,"b":[true]}"#;
/// let found = find_all(text, &["/b/0", "/c"], jx::DEPTH)?;
/// assert_eq!(&text[found[0].clone().unwrap().span], b"true");
/// assert_eq!(found[1], Err(FindError::NoSuchMember { token: 0 }));
/// # Ok::<(), jx::OutOfMemory>(())
/// ```
pub fn find_all(
    text: &[u8],
    pointers: &[&str],
    settings: impl Into<Settings>,
) -> Result<Vec<Result<Found, FindError>>, OutOfMemory> {
    let spelt = collected(pointers.iter().map(|pointer| raw::Pointer {
        bytes: pointer.as_ptr(),
        size: pointer.len(),
    }))?;
    let mut answers = collected(pointers.iter().map(|_| raw::Answer::default()))?;
    // SAFETY: each pointer and size are those of one slice, and all are borrowed for the call alone.
    let status = unsafe {
        raw::jx_at_all_non_null(
            text.as_ptr(),
            text.len(),
            &settings.into().raw(),
            spelt.as_ptr(),
            spelt.len(),
            answers.as_mut_ptr(),
            answers.len(),
        )
    };
    if status == raw::NO_MEMORY {
        return Err(OutOfMemory);
    }
    debug_assert_eq!(status, raw::OK);
    collected(answers.iter().map(Found::of))
}

/// A list of these, for which memory may be refused.
pub(crate) fn collected<T>(items: impl ExactSizeIterator<Item = T>) -> Result<Vec<T>, OutOfMemory> {
    let mut all = Vec::new();
    all.try_reserve_exact(items.len())
        .map_err(|_| OutOfMemory)?;
    all.extend(items);
    Ok(all)
}
