//! The exports of the library, as `jx.h` declares them: for pointers of which none is null.

use std::ffi::c_void;
use std::ptr;

#[repr(C)]
#[derive(Clone, Copy, Default)]
pub struct Verdict {
    pub offset: usize,
    pub kind: u32,
}

#[repr(C)]
#[derive(Clone, Copy, Default)]
pub struct Place {
    pub line: usize,
    pub column: usize,
}

#[repr(C)]
#[derive(Clone, Copy)]
pub struct Settings {
    pub depth: u32,
    pub flags: u32,
}

/// The words are the library's alone.
#[repr(C)]
#[derive(Clone)]
pub struct Reader {
    pub words: [u64; 1031],
}

/// The pointer is the library's alone; null where it holds no document.
#[repr(C)]
pub struct Document {
    pub inside: *mut c_void,
}

impl Default for Document {
    fn default() -> Document {
        Document {
            inside: ptr::null_mut(),
        }
    }
}

/// The pointer is the library's alone; null where it holds no index.
#[repr(C)]
pub struct Index {
    pub inside: *mut c_void,
}

impl Default for Index {
    fn default() -> Index {
        Index {
            inside: ptr::null_mut(),
        }
    }
}

/// The pointer is the library's alone; null where it holds no handle of a shelf.
#[repr(C)]
pub struct Shelf {
    pub inside: *mut c_void,
}

impl Default for Shelf {
    fn default() -> Shelf {
        Shelf {
            inside: ptr::null_mut(),
        }
    }
}

/// The bytes of a text.
#[repr(C)]
pub struct Text {
    pub bytes: *const u8,
    pub size: usize,
}

/// The pointer is the library's alone; null where it holds no reader of lines.
#[repr(C)]
pub struct Lines {
    pub inside: *mut c_void,
}

impl Default for Lines {
    fn default() -> Lines {
        Lines {
            inside: ptr::null_mut(),
        }
    }
}

/// The pointer is the library's alone; null where it holds no look-up.
#[repr(C)]
pub struct Finder {
    pub inside: *mut c_void,
}

impl Default for Finder {
    fn default() -> Finder {
        Finder {
            inside: ptr::null_mut(),
        }
    }
}

/// The pointer is the library's alone; null where it holds no stream of values.
#[repr(C)]
pub struct Values {
    pub inside: *mut c_void,
}

impl Default for Values {
    fn default() -> Values {
        Values {
            inside: ptr::null_mut(),
        }
    }
}

/// The pointer is the library's alone; null where no index is being made.
#[repr(C)]
pub struct Save {
    pub inside: *mut c_void,
}

impl Default for Save {
    fn default() -> Save {
        Save {
            inside: ptr::null_mut(),
        }
    }
}

/// The pointer is the library's alone; null where it holds no saved index.
#[repr(C)]
pub struct Saved {
    pub inside: *mut c_void,
}

impl Default for Saved {
    fn default() -> Saved {
        Saved {
            inside: ptr::null_mut(),
        }
    }
}

/// The bytes of a pointer.
#[repr(C)]
#[derive(Clone, Copy)]
pub struct Pointer {
    pub bytes: *const u8,
    pub size: usize,
}

#[repr(C)]
#[derive(Clone, Copy, Default)]
pub struct Span {
    pub start: usize,
    pub end: usize,
}

#[repr(C)]
#[derive(Clone, Copy, Default)]
pub struct Answer {
    pub span: Span,
    pub at: usize,
    pub outcome: u32,
    pub kind: u32,
}

#[repr(C)]
#[derive(Clone, Copy, Default)]
pub struct Outcome {
    pub at: usize,
    pub kind: u32,
}

#[repr(C)]
#[derive(Clone, Copy, Default)]
pub struct Row {
    pub span: Span,
    pub name: Span,
    pub parent: usize,
    pub place: usize,
    pub kind: u32,
}

#[repr(C)]
#[derive(Clone, Copy, Default)]
pub struct Element {
    pub span: Span,
    pub verdict: Verdict,
}

#[repr(C)]
#[derive(Clone, Copy, Default)]
pub struct Line {
    pub number: usize,
    pub span: Span,
    pub verdict: Verdict,
}

#[repr(C)]
#[derive(Clone, Copy, Default)]
pub struct LineCounts {
    pub accepted: usize,
    pub refused: usize,
    pub blank: usize,
}

#[repr(C)]
#[derive(Clone, Copy, Default)]
pub struct SavedText {
    pub size: usize,
    pub chunk: usize,
    pub depth: u32,
    pub flags: u32,
}

#[repr(C)]
#[derive(Clone, Copy, Default)]
pub struct Part {
    pub span: Span,
    pub number: usize,
    pub first: usize,
    pub end: usize,
}

pub const OK: u32 = 0;
pub const NO_MEMORY: u32 = 1;
pub const TOO_MANY_BYTES: u32 = 4;
pub const NO_UNIQUE_NAMES: u32 = 6;
pub const OUT_OF_BOUNDS: u32 = 7;
pub const NO_ROOM: u32 = 11;
pub const NOT_A_RUN: u32 = 12;
pub const OTHER_DEPTH: u32 = 13;
pub const NOT_NEIGHBOURS: u32 = 14;
pub const NO_LINES: u32 = 15;
pub const NO_FINDER: u32 = 17;
pub const NO_VALUES: u32 = 18;
pub const NOT_A_POINTER: u32 = 19;
pub const NOT_SAVED: u32 = 20;
pub const OTHER_VERSION: u32 = 21;
pub const CUT_SHORT: u32 = 22;
pub const DAMAGED: u32 = 23;
pub const MALFORMED: u32 = 24;
pub const MORE_BYTES: u32 = 25;
pub const OTHER_SIZE: u32 = 26;
pub const CHANGED: u32 = 27;
pub const NO_SAVE: u32 = 29;
pub const NOT_A_CHUNK: u32 = 30;
pub const TAKEN: u32 = 35;

pub const NO_FROM: u64 = u64::MAX;

pub const IGNORE_MARK: u32 = 1;
pub const UNIQUE_NAMES: u32 = 2;

pub const ACCEPTED: u32 = 0;
pub const STOPPED: u32 = 1;
pub const TRUNCATED: u32 = 2;
pub const TOO_DEEP: u32 = 3;
pub const MAY_BE_CUT: u32 = 4;
pub const UNMARKED: u32 = 5;
pub const REPEATED_NAME: u32 = 6;
pub const BLANK: u32 = 7;

extern "C" {
    pub fn jx_check_non_null(
        text: *const u8,
        size: usize,
        settings: *const Settings,
        verdict: *mut Verdict,
    ) -> u32;
    pub fn jx_explain_non_null(
        text: *const u8,
        size: usize,
        settings: *const Settings,
        verdict: *const Verdict,
        sentence: *mut u8,
        room: usize,
        sentence_size: *mut usize,
        place: *mut Place,
    ) -> u32;
    pub fn jx_compact_non_null(
        text: *const u8,
        size: usize,
        settings: *const Settings,
        compact: *mut u8,
        room: usize,
        compact_size: *mut usize,
        verdict: *mut Verdict,
    ) -> u32;
    pub fn jx_at_non_null(
        text: *const u8,
        size: usize,
        pointer: *const u8,
        pointer_size: usize,
        settings: *const Settings,
        answer: *mut Answer,
    ) -> u32;
    pub fn jx_at_all_non_null(
        text: *const u8,
        size: usize,
        settings: *const Settings,
        pointers: *const Pointer,
        count: usize,
        answers: *mut Answer,
        room: usize,
    ) -> u32;
    pub fn jx_index_new_non_null(
        text: *const u8,
        size: usize,
        settings: *const Settings,
        index: *mut Index,
        verdict: *mut Verdict,
    ) -> u32;
    pub fn jx_index_find_non_null(
        index: *mut Index,
        pointer: *const u8,
        pointer_size: usize,
        answer: *mut Answer,
    ) -> u32;
    pub fn jx_index_row_non_null(index: *mut Index, number: usize, row: *mut Row) -> u32;
    pub fn jx_index_free_non_null(index: *mut Index);
    pub fn jx_shelf_new_non_null(shelf: *mut Shelf) -> u32;
    pub fn jx_shelf_share_non_null(shelf: *mut Shelf, other: *mut Shelf) -> u32;
    pub fn jx_shelf_put_non_null(shelf: *mut Shelf, index: *mut Index) -> u32;
    pub fn jx_shelf_text_non_null(shelf: *mut Shelf, text: *mut Text) -> u32;
    pub fn jx_shelf_find_non_null(
        shelf: *mut Shelf,
        pointer: *const u8,
        pointer_size: usize,
        answer: *mut Answer,
    ) -> u32;
    pub fn jx_shelf_row_non_null(shelf: *mut Shelf, number: usize, row: *mut Row) -> u32;
    pub fn jx_shelf_free_non_null(shelf: *mut Shelf);
    pub fn jx_rows_non_null(
        text: *const u8,
        size: usize,
        settings: *const Settings,
        rows: *mut Row,
        room: usize,
        count: *mut usize,
        verdict: *mut Verdict,
    ) -> u32;
    pub fn jx_elements_non_null(
        sequence: *const u8,
        size: usize,
        settings: *const Settings,
        elements: *mut Element,
        room: usize,
        count: *mut usize,
    ) -> u32;
    pub fn jx_finder_new_non_null(
        pointers: *const Pointer,
        count: usize,
        settings: *const Settings,
        finder: *mut Finder,
    ) -> u32;
    pub fn jx_finder_feed_non_null(finder: *mut Finder, bytes: *const u8, size: usize) -> u32;
    pub fn jx_finder_end_non_null(finder: *mut Finder, answers: *mut Answer, room: usize) -> u32;
    pub fn jx_finder_free_non_null(finder: *mut Finder);
    pub fn jx_values_new_non_null(
        pointer: *const u8,
        pointer_size: usize,
        settings: *const Settings,
        values: *mut Values,
    ) -> u32;
    pub fn jx_values_feed_non_null(values: *mut Values, bytes: *const u8, size: usize) -> u32;
    pub fn jx_values_take_non_null(
        values: *mut Values,
        lines: *mut u8,
        room: usize,
        size: *mut usize,
    ) -> u32;
    pub fn jx_values_end_non_null(values: *mut Values, outcome: *mut Outcome) -> u32;
    pub fn jx_values_free_non_null(values: *mut Values);
    pub fn jx_save_new_non_null(settings: *const Settings, chunk: usize, save: *mut Save) -> u32;
    pub fn jx_save_new_with_names_non_null(
        settings: *const Settings,
        chunk: usize,
        save: *mut Save,
    ) -> u32;
    pub fn jx_save_feed_non_null(save: *mut Save, bytes: *const u8, size: usize) -> u32;
    pub fn jx_save_end_non_null(
        save: *mut Save,
        index_size: *mut usize,
        verdict: *mut Verdict,
    ) -> u32;
    pub fn jx_save_take_non_null(
        save: *mut Save,
        index: *mut u8,
        room: usize,
        index_size: *mut usize,
    ) -> u32;
    pub fn jx_save_free_non_null(save: *mut Save);
    pub fn jx_saved_open_non_null(
        index: *const u8,
        index_size: usize,
        text_size: usize,
        saved: *mut Saved,
    ) -> u32;
    pub fn jx_saved_about_non_null(saved: *mut Saved, text: *mut SavedText) -> u32;
    pub fn jx_saved_seek_non_null(saved: *mut Saved, pointers: *const Pointer, count: usize)
        -> u32;
    pub fn jx_saved_split_non_null(saved: *mut Saved, container: *const Span, parts: usize) -> u32;
    pub fn jx_saved_needs_non_null(saved: *mut Saved, need: *mut Span) -> u32;
    pub fn jx_saved_give_non_null(saved: *mut Saved, bytes: *const u8, size: usize) -> u32;
    pub fn jx_saved_answers_non_null(saved: *mut Saved, answers: *mut Answer, room: usize) -> u32;
    pub fn jx_saved_parts_non_null(
        saved: *mut Saved,
        parts: *mut Part,
        room: usize,
        count: *mut usize,
    ) -> u32;
    pub fn jx_saved_chunk_non_null(saved: *mut Saved, at: usize, chunk: *mut Span) -> u32;
    pub fn jx_saved_check_non_null(
        saved: *mut Saved,
        at: usize,
        bytes: *const u8,
        size: usize,
    ) -> u32;
    pub fn jx_saved_free_non_null(saved: *mut Saved);
    pub fn jx_lines_new_non_null(settings: *const Settings, lines: *mut Lines) -> u32;
    pub fn jx_lines_feed_non_null(lines: *mut Lines, bytes: *const u8, size: usize) -> u32;
    pub fn jx_lines_take_non_null(
        lines: *mut Lines,
        bad: *mut Line,
        room: usize,
        count: *mut usize,
    ) -> u32;
    pub fn jx_lines_end_non_null(
        lines: *mut Lines,
        last: *mut Line,
        counts: *mut LineCounts,
    ) -> u32;
    pub fn jx_lines_free_non_null(lines: *mut Lines);
    pub fn jx_version() -> u32;
    pub fn jx_reader_start_non_null(reader: *mut Reader, settings: *const Settings) -> u32;
    pub fn jx_reader_feed(reader: *mut Reader, bytes: *const u8, size: usize) -> u32;
    pub fn jx_reader_verdict(reader: *const Reader, verdict: *mut Verdict) -> u32;
    pub fn jx_document_new_non_null(
        text: *const u8,
        size: usize,
        settings: *const Settings,
        document: *mut Document,
    ) -> u32;
    pub fn jx_document_edit_non_null(
        document: *mut Document,
        start: usize,
        end: usize,
        replacement: *const u8,
        size: usize,
    ) -> u32;
    pub fn jx_document_verdict_non_null(document: *mut Document, verdict: *mut Verdict) -> u32;
    pub fn jx_document_size_non_null(document: *mut Document, size: *mut usize) -> u32;
    pub fn jx_document_copy_non_null(
        document: *mut Document,
        start: usize,
        bytes: *mut u8,
        size: usize,
    ) -> u32;
    pub fn jx_document_free_non_null(document: *mut Document);
    pub fn jx_run_of(
        part: *const u8,
        size: usize,
        from: u64,
        depth: u32,
        run: *mut u8,
        room: usize,
        run_size: *mut usize,
    ) -> u32;
    pub fn jx_run_join(
        left: *const u8,
        left_size: usize,
        right: *const u8,
        right_size: usize,
        run: *mut u8,
        room: usize,
        run_size: *mut usize,
    ) -> u32;
    pub fn jx_run_verdict(
        run: *const u8,
        run_size: usize,
        start: usize,
        end: usize,
        verdict: *mut Verdict,
    ) -> u32;
}
