use crate::raw;
use std::error::Error;
use std::fmt;

/// Why bytes are no JSON text. Offsets count bytes from the text's start.
#[derive(Clone, Copy, Debug, PartialEq, Eq, Hash)]
pub enum Refusal {
    /// With the byte there the text can't go on.
    Stopped {
        /// The offset of the byte.
        at: usize,
    },
    /// The text ends too early: bytes can be added that make a text of it.
    Truncated,
    /// Only a greater depth would let the text go on with the byte there.
    TooDeep {
        /// The offset of the byte.
        at: usize,
    },
    /// The name there is that of an earlier member of its object. Only [`Settings`](crate::Settings) that ask for unique names
    /// refuse a text for one.
    RepeatedName {
        /// The offset of the name's quotation mark.
        at: usize,
    },
}

impl Refusal {
    pub(crate) fn of(verdict: raw::Verdict) -> Result<(), Refusal> {
        match verdict.kind {
            raw::ACCEPTED => Ok(()),
            raw::STOPPED => Err(Refusal::Stopped { at: verdict.offset }),
            raw::TOO_DEEP => Err(Refusal::TooDeep { at: verdict.offset }),
            raw::REPEATED_NAME => Err(Refusal::RepeatedName { at: verdict.offset }),
            _ => Err(Refusal::Truncated),
        }
    }

    pub(crate) fn raw(self) -> raw::Verdict {
        let (kind, offset) = match self {
            Refusal::Stopped { at } => (raw::STOPPED, at),
            Refusal::Truncated => (raw::TRUNCATED, 0),
            Refusal::TooDeep { at } => (raw::TOO_DEEP, at),
            Refusal::RepeatedName { at } => (raw::REPEATED_NAME, at),
        };
        raw::Verdict { offset, kind }
    }
}

impl fmt::Display for Refusal {
    fn fmt(&self, f: &mut fmt::Formatter<'_>) -> fmt::Result {
        match self {
            Refusal::Stopped { at } => write!(f, "stopped at {at}"),
            Refusal::Truncated => f.write_str("truncated"),
            Refusal::TooDeep { at } => write!(f, "too deep at {at}"),
            Refusal::RepeatedName { at } => write!(f, "repeated name at {at}"),
        }
    }
}

impl Error for Refusal {}
