use crate::raw;
use crate::refusal::Refusal;
use crate::settings::Settings;
use std::error::Error;
use std::fmt;
use std::ops::Range;

/// The verdict on an element of a JSON text sequence (RFC 7464, sections 2.1 and 2.4).
#[derive(Clone, Copy, Debug, PartialEq, Eq, Hash)]
pub enum ElementVerdict {
    /// It is a text.
    Accepted,
    /// It is not valid JSON. Offsets count from the sequence's start.
    Refused(Refusal),
    /// Its value is a number, `true`, `false` or `null` with nothing after it, so it may be the beginning of a longer one
    /// that was cut.
    MayBeCut,
    /// It is before the first record separator.
    Unmarked,
}

impl ElementVerdict {
    fn of(verdict: raw::Verdict) -> ElementVerdict {
        match verdict.kind {
            raw::MAY_BE_CUT => ElementVerdict::MayBeCut,
            raw::UNMARKED => ElementVerdict::Unmarked,
            _ => match Refusal::of(verdict) {
                Ok(()) => ElementVerdict::Accepted,
                Err(refusal) => ElementVerdict::Refused(refusal),
            },
        }
    }
}

/// An element of a JSON text sequence. Spans are byte offsets in the sequence.
#[derive(Clone, Debug, PartialEq, Eq, Hash)]
pub struct Element {
    /// Where it stands: from after its record separator up to the next one or the end.
    pub span: Range<usize>,
    /// The verdict on it.
    pub verdict: ElementVerdict,
}

/// An allocation failed.
#[derive(Clone, Copy, Debug, PartialEq, Eq, Hash)]
pub struct OutOfMemory;

impl fmt::Display for OutOfMemory {
    fn fmt(&self, f: &mut fmt::Formatter<'_>) -> fmt::Result {
        f.write_str("out of memory")
    }
}

impl Error for OutOfMemory {}

/// Fills a buffer; gives how many elements there are.
fn fill(
    sequence: &[u8],
    settings: &raw::Settings,
    buffer: &mut [raw::Element],
) -> Result<usize, OutOfMemory> {
    let mut count = 0;
    // SAFETY: each pointer and size are those of one slice, and all are borrowed for the call alone.
    let status = unsafe {
        raw::jx_elements_non_null(
            sequence.as_ptr(),
            sequence.len(),
            settings,
            buffer.as_mut_ptr(),
            buffer.len(),
            &mut count,
        )
    };
    if status == raw::NO_MEMORY {
        return Err(OutOfMemory);
    }
    debug_assert_eq!(status, raw::OK);
    Ok(count)
}

/// The elements of a JSON text sequence (RFC 7464) by settings, in order, each with its span and its verdict. Between record
/// separators in a row stands none, and none after one at the end.
///
/// # Errors
///
/// [`OutOfMemory`]: an allocation failed.
///
/// ```
/// use jx::{elements, ElementVerdict, Refusal};
///
/// let all = elements(b"\x1E{\"a\":1}\n\x1E12\x1E[1}\n", jx::DEPTH)?;
/// assert_eq!(all[0].verdict, ElementVerdict::Accepted);
/// assert_eq!(all[1].span, 10..12);
/// assert_eq!(all[1].verdict, ElementVerdict::MayBeCut);
/// assert_eq!(all[2].verdict, ElementVerdict::Refused(Refusal::Stopped { at: 15 }));
/// # Ok::<(), jx::OutOfMemory>(())
/// ```
pub fn elements(
    sequence: &[u8],
    settings: impl Into<Settings>,
) -> Result<Vec<Element>, OutOfMemory> {
    let settings = settings.into().raw();
    // An element needs a record separator, but for one: there is room for all of them.
    let marks = sequence.iter().filter(|byte| **byte == 0x1E).count();
    let mut buffer = Vec::new();
    buffer
        .try_reserve_exact(marks + 1)
        .map_err(|_| OutOfMemory)?;
    buffer.resize(marks + 1, raw::Element::default());
    let count = fill(sequence, &settings, &mut buffer)?;
    let found = buffer[..count].iter();
    Ok(found
        .map(|element| Element {
            span: element.span.start..element.span.end,
            verdict: ElementVerdict::of(element.verdict),
        })
        .collect())
}
