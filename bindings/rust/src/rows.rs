use crate::fault::Fault;
use crate::raw;
use crate::refusal::Refusal;
use crate::settings::Settings;
use std::ops::Range;

/// The kind of a value (RFC 8259, section 3).
#[derive(Clone, Copy, Debug, PartialEq, Eq, Hash)]
#[allow(missing_docs)]
pub enum Kind {
    Object,
    Array,
    String,
    Number,
    True,
    False,
    Null,
}

impl Kind {
    pub(crate) fn of(kind: u32) -> Kind {
        match kind {
            0 => Kind::Object,
            1 => Kind::Array,
            2 => Kind::String,
            3 => Kind::Number,
            4 => Kind::True,
            5 => Kind::False,
            _ => Kind::Null,
        }
    }
}

/// A value of a text. Spans are byte offsets in the text.
#[derive(Clone, Debug, PartialEq, Eq, Hash)]
pub struct Row {
    /// The kind of the value.
    pub kind: Kind,
    /// Where it stands: a string with its quotation marks, a container with its brackets.
    pub span: Range<usize>,
    /// Where its name stands, with the quotation marks, if its parent is an object.
    pub name: Option<Range<usize>>,
    /// The place among all rows of the array or object that it stands in; none for the root.
    pub parent: Option<usize>,
    /// How many values are before it in its parent.
    pub place: usize,
}

impl Row {
    pub(crate) fn of(row: &raw::Row) -> Row {
        Row {
            kind: Kind::of(row.kind),
            span: row.span.start..row.span.end,
            name: (row.name.start < row.name.end).then_some(row.name.start..row.name.end),
            parent: (row.parent != usize::MAX).then_some(row.parent),
            place: row.place,
        }
    }
}

/// Fills a buffer; gives how many rows there are.
fn fill(text: &[u8], settings: &raw::Settings, buffer: &mut [raw::Row]) -> Result<usize, Fault> {
    let mut count = 0;
    let mut verdict = raw::Verdict {
        offset: 0,
        kind: raw::TRUNCATED,
    };
    // SAFETY: each pointer and size are those of one slice, and all are borrowed for the call alone.
    let status = unsafe {
        raw::jx_rows_non_null(
            text.as_ptr(),
            text.len(),
            settings,
            buffer.as_mut_ptr(),
            buffer.len(),
            &mut count,
            &mut verdict,
        )
    };
    match status {
        raw::NO_MEMORY => Err(Fault::OutOfMemory),
        status => {
            debug_assert_eq!(status, raw::OK);
            Refusal::of(verdict).map_err(Fault::Refused)?;
            Ok(count)
        }
    }
}

/// All values of a JSON text (RFC 8259) by settings, in the order of their starts, so that each is before its children.
///
/// # Errors
///
/// [`Fault`]: the bytes are not valid by the settings, or an allocation failed.
///
/// ```
/// use jx::{rows, Kind};
///
/// let text = br#"{"a":[1,2]}"#;
/// let all = rows(text, jx::DEPTH)?;
/// assert_eq!(all.len(), 4);
/// assert_eq!(all[1].kind, Kind::Array);
/// assert_eq!(&text[all[1].span.clone()], b"[1,2]");
/// assert_eq!(all[1].name, Some(1..4));
/// assert_eq!(all[3].parent, Some(1));
/// # Ok::<(), jx::Fault>(())
/// ```
pub fn rows(text: &[u8], settings: impl Into<Settings>) -> Result<Vec<Row>, Fault> {
    let settings = settings.into().raw();
    // The text is read again where there are more rows than room: in most texts a value takes eight bytes and more.
    let mut buffer = Vec::new();
    let mut room = text.len() / 8 + 1;
    loop {
        buffer
            .try_reserve_exact(room)
            .map_err(|_| Fault::OutOfMemory)?;
        buffer.resize(room, raw::Row::default());
        let count = fill(text, &settings, &mut buffer)?;
        if count <= room {
            return Ok(buffer[..count].iter().map(Row::of).collect());
        }
        buffer.clear();
        room = count;
    }
}
