use crate::elements::OutOfMemory;
use crate::find::{collected, FindError, Found};
use crate::raw;
use std::error::Error;
use std::fmt;
use std::io;
use std::ops::Range;

/// Into at most so many parts a container is split.
pub const PARTS_MAX: usize = 65536;

/// Bytes that are read at offsets: a file, a slice, or what a server gives by ranges.
pub trait ReadAt {
    /// How many bytes there are.
    ///
    /// # Errors
    ///
    /// The size that the source has.
    fn size(&self) -> io::Result<u64>;

    /// Fills the buffer with the bytes from an offset on.
    ///
    /// # Errors
    ///
    /// The error of the source, and [`io::ErrorKind::UnexpectedEof`] where there are fewer bytes.
    fn read_exact_at(&self, buffer: &mut [u8], from: u64) -> io::Result<()>;
}

impl ReadAt for [u8] {
    fn size(&self) -> io::Result<u64> {
        Ok(self.len() as u64)
    }

    fn read_exact_at(&self, buffer: &mut [u8], from: u64) -> io::Result<()> {
        let bytes = usize::try_from(from)
            .ok()
            .and_then(|from| self.get(from..from.checked_add(buffer.len())?))
            .ok_or(io::ErrorKind::UnexpectedEof)?;
        buffer.copy_from_slice(bytes);
        Ok(())
    }
}

impl ReadAt for Vec<u8> {
    fn size(&self) -> io::Result<u64> {
        self.as_slice().size()
    }

    fn read_exact_at(&self, buffer: &mut [u8], from: u64) -> io::Result<()> {
        self.as_slice().read_exact_at(buffer, from)
    }
}

#[cfg(unix)]
impl ReadAt for std::fs::File {
    fn size(&self) -> io::Result<u64> {
        Ok(self.metadata()?.len())
    }

    fn read_exact_at(&self, buffer: &mut [u8], from: u64) -> io::Result<()> {
        std::os::unix::fs::FileExt::read_exact_at(self, buffer, from)
    }
}

impl<R: ReadAt + ?Sized> ReadAt for &R {
    fn size(&self) -> io::Result<u64> {
        (**self).size()
    }

    fn read_exact_at(&self, buffer: &mut [u8], from: u64) -> io::Result<()> {
        (**self).read_exact_at(buffer, from)
    }
}

/// Why bytes are no saved index.
#[derive(Clone, Copy, Debug, PartialEq, Eq, Hash)]
pub enum IndexFault {
    /// They do not begin as an index does.
    NotAnIndex,
    /// They are of another version of the format.
    OtherVersion,
    /// They end too early.
    CutShort,
    /// They are not those of any text.
    Damaged,
    /// They have a field that no index has.
    Malformed,
    /// They go on after the last entry.
    Longer,
}

/// Why there is no answer by a saved index.
#[derive(Debug)]
pub enum FileError {
    /// An allocation failed.
    OutOfMemory,
    /// The text could not be read.
    Read(io::Error),
    /// The bytes given as an index are not an index.
    Index(IndexFault),
    /// The text has another size than the one that was indexed. Nothing of it was read.
    OtherSize,
    /// The bytes there are not those of the text that was indexed.
    Changed(Range<usize>),
    /// The string is not a pointer, or leads to no value.
    Find(FindError),
    /// The span is empty or ends after the text, or there is no such number of parts.
    OutOfBounds,
}

impl fmt::Display for FileError {
    fn fmt(&self, f: &mut fmt::Formatter<'_>) -> fmt::Result {
        match self {
            FileError::OutOfMemory => f.write_str("out of memory"),
            FileError::Read(error) => error.fmt(f),
            FileError::Index(IndexFault::NotAnIndex) => f.write_str("not a saved index"),
            FileError::Index(IndexFault::OtherVersion) => f.write_str("another version"),
            FileError::Index(IndexFault::CutShort) => f.write_str("cut short"),
            FileError::Index(IndexFault::Damaged) => f.write_str("damaged"),
            FileError::Index(IndexFault::Malformed) => f.write_str("malformed"),
            FileError::Index(IndexFault::Longer) => f.write_str("more bytes than an index has"),
            FileError::OtherSize => f.write_str("the index is of a text of another size"),
            FileError::Changed(span) => write!(f, "changed in {}..{}", span.start, span.end),
            FileError::Find(error) => error.fmt(f),
            FileError::OutOfBounds => f.write_str("out of bounds"),
        }
    }
}

impl Error for FileError {
    fn source(&self) -> Option<&(dyn Error + 'static)> {
        match self {
            FileError::Read(error) => Some(error),
            FileError::Find(error) => Some(error),
            _ => None,
        }
    }
}

impl From<OutOfMemory> for FileError {
    fn from(OutOfMemory: OutOfMemory) -> FileError {
        FileError::OutOfMemory
    }
}

impl FileError {
    /// The fault by the status of a call on the bytes there.
    fn of(status: u32, bytes: Range<usize>) -> Result<(), FileError> {
        Err(match status {
            raw::NO_MEMORY => FileError::OutOfMemory,
            raw::OUT_OF_BOUNDS => FileError::OutOfBounds,
            raw::NOT_SAVED => FileError::Index(IndexFault::NotAnIndex),
            raw::OTHER_VERSION => FileError::Index(IndexFault::OtherVersion),
            raw::CUT_SHORT => FileError::Index(IndexFault::CutShort),
            raw::DAMAGED => FileError::Index(IndexFault::Damaged),
            raw::MALFORMED => FileError::Index(IndexFault::Malformed),
            raw::MORE_BYTES => FileError::Index(IndexFault::Longer),
            raw::OTHER_SIZE => FileError::OtherSize,
            raw::CHANGED => FileError::Changed(bytes),
            status => {
                debug_assert_eq!(status, raw::OK);
                return Ok(());
            }
        })
    }
}

/// Whole children of an array or an object, one after another, for one of several loaders.
#[derive(Clone, Debug, PartialEq, Eq, Hash)]
pub struct Part {
    /// From after the comma or bracket before its first child, up to the one after its last. With brackets around them, these
    /// bytes are a JSON text.
    pub span: Range<usize>,
    /// Which of its container's children it has, counted from 0.
    pub children: Range<usize>,
    /// Which part of the container's bytes it is, counted from 0.
    pub number: usize,
}

/// A text that stays where it is, and its saved index: values by pointers (RFC 6901) and parts of containers, of which a few chunks
/// of the text are read.
///
/// An answer is that of the text that was indexed, unless a chunk that is read has the kept digest and other bytes. A changed chunk
/// that is read is reported. Chunks that are not read are not looked at.
///
/// ```
/// let text = br#"{"users":[{"name":"Ann"},{"name":"Bo"}]}"#;
/// let index = jx::save(&text[..], jx::DEPTH, 64)?;
/// let mut file = jx::File::open(&text[..], &index)?;
/// assert_eq!(file.get("/users/1/name")?, br#""Bo""#);
/// let users = file.find("/users")?;
/// assert_eq!(file.split(users.span, 2)?[1].children, 1..2);
/// # Ok::<(), Box<dyn std::error::Error>>(())
/// ```
pub struct File<R> {
    raw: raw::Saved,
    text: R,
    about: raw::SavedText,
    buffer: Vec<u8>,
}

// SAFETY: nobody else leads to the memory of an index, and the library keeps nothing of a thread.
unsafe impl<R: Send> Send for File<R> {}

impl<R> Drop for File<R> {
    fn drop(&mut self) {
        // SAFETY: the index was made by the library, or is none, and nobody uses it afterwards.
        unsafe { raw::jx_saved_free_non_null(&mut self.raw) }
    }
}

impl<R> fmt::Debug for File<R> {
    fn fmt(&self, f: &mut fmt::Formatter<'_>) -> fmt::Result {
        f.debug_struct("File")
            .field("size", &self.about.size)
            .field("chunk", &self.about.chunk)
            .finish_non_exhaustive()
    }
}

impl<R: ReadAt> File<R> {
    /// Opens a text by the bytes of its index, which are copied. They are looked at before they are used. Where tables of names stand
    /// after the index, look-ups go by them.
    ///
    /// # Errors
    ///
    /// [`FileError`]: the bytes are no index, or that of a text of another size; the size could not be read, or an allocation failed.
    pub fn open(text: R, index: &[u8]) -> Result<File<R>, FileError> {
        let size = text.size().map_err(FileError::Read)?;
        let size = usize::try_from(size).map_err(|_| FileError::OtherSize)?;
        let mut file = File {
            raw: raw::Saved::default(),
            text,
            about: raw::SavedText::default(),
            buffer: Vec::new(),
        };
        // SAFETY: the pointer and the size are those of one slice, and all are borrowed for the call alone.
        let status = unsafe {
            raw::jx_saved_open_non_null(index.as_ptr(), index.len(), size, &mut file.raw)
        };
        FileError::of(status, 0..0)?;
        // SAFETY: both are borrowed for the call alone.
        let status = unsafe { raw::jx_saved_about_non_null(&mut file.raw, &mut file.about) };
        FileError::of(status, 0..0)?;
        Ok(file)
    }

    /// The value that a pointer leads to: its kind, and where it stands.
    ///
    /// # Errors
    ///
    /// [`FileError`]: the pointer leads to no value, a chunk is changed or could not be read, or an allocation failed.
    pub fn find(&mut self, pointer: &str) -> Result<Found, FileError> {
        let mut all = self.find_all(&[pointer])?;
        all.remove(0).map_err(FileError::Find)
    }

    /// The answers to many pointers, in their order. Each chunk that has to be read is read once.
    ///
    /// # Errors
    ///
    /// [`FileError`]: a chunk is changed or could not be read, or an allocation failed. The answer to each pointer says where it leads.
    pub fn find_all(
        &mut self,
        pointers: &[&str],
    ) -> Result<Vec<Result<Found, FindError>>, FileError> {
        let spelt = collected(pointers.iter().map(|pointer| raw::Pointer {
            bytes: pointer.as_ptr(),
            size: pointer.len(),
        }))?;
        let mut answers = collected(pointers.iter().map(|_| raw::Answer::default()))?;
        // SAFETY: the list and the pointers outlive this look-up, which ends below or is not gone on with: what begins next takes its
        // place, and reads neither.
        let status =
            unsafe { raw::jx_saved_seek_non_null(&mut self.raw, spelt.as_ptr(), spelt.len()) };
        FileError::of(status, 0..0)?;
        self.give_all()?;
        // SAFETY: the pointer and the size are those of one vector, and all are borrowed for the call alone.
        let status = unsafe {
            raw::jx_saved_answers_non_null(&mut self.raw, answers.as_mut_ptr(), answers.len())
        };
        FileError::of(status, 0..0)?;
        Ok(collected(answers.iter().map(Found::of))?)
    }

    /// The bytes of the value that a pointer leads to: a string with its quotation marks.
    ///
    /// # Errors
    ///
    /// [`FileError`]: as of [`File::find`] and [`File::read`].
    pub fn get(&mut self, pointer: &str) -> Result<Vec<u8>, FileError> {
        let found = self.find(pointer)?;
        self.read(found.span)
    }

    /// The parts that have a child, of so many into which the array or object with this span is cut: from 1 to [`PARTS_MAX`]. Which
    /// child stands in which part depends on the text and the count alone. Of the span of no container the parts are of no use.
    ///
    /// # Errors
    ///
    /// [`FileError`]: a chunk is changed or could not be read, an allocation failed, or the span or the count is out of bounds.
    pub fn split(&mut self, container: Range<usize>, parts: usize) -> Result<Vec<Part>, FileError> {
        let whole = raw::Span {
            start: container.start,
            end: container.end,
        };
        // SAFETY: both are borrowed for the call alone.
        let status = unsafe { raw::jx_saved_split_non_null(&mut self.raw, &whole, parts) };
        FileError::of(status, 0..0)?;
        self.give_all()?;
        let mut told = collected((0..parts).map(|_| raw::Part::default()))?;
        let mut count = 0;
        // SAFETY: the pointer and the size are those of one vector, and all are borrowed for the call alone.
        let status = unsafe {
            raw::jx_saved_parts_non_null(&mut self.raw, told.as_mut_ptr(), told.len(), &mut count)
        };
        FileError::of(status, 0..0)?;
        Ok(collected(told[..count.min(parts)].iter().map(|part| {
            Part {
                span: part.span.start..part.span.end,
                children: part.first..part.end,
                number: part.number,
            }
        }))?)
    }

    /// The bytes of a part of the text, as they were indexed: the chunks in which they stand are read, and checked against their checksums.
    ///
    /// # Errors
    ///
    /// [`FileError`]: a chunk is changed or could not be read, an allocation failed, or the span ends after the text.
    pub fn read(&mut self, span: Range<usize>) -> Result<Vec<u8>, FileError> {
        if span.start > span.end || span.end > self.about.size {
            return Err(FileError::OutOfBounds);
        }
        let mut bytes = Vec::new();
        bytes
            .try_reserve_exact(span.len())
            .map_err(|_| FileError::OutOfMemory)?;
        let mut at = span.start;
        while at < span.end {
            let chunk = self.read_chunk(at)?;
            let end = chunk.end.min(span.end);
            bytes.extend_from_slice(&self.buffer[at - chunk.start..end - chunk.start]);
            at = end;
        }
        Ok(bytes)
    }

    /// Reads the chunk with the byte at an offset into the buffer, and holds it to its digest.
    fn read_chunk(&mut self, at: usize) -> Result<Range<usize>, FileError> {
        let mut chunk = raw::Span::default();
        // SAFETY: both are borrowed for the call alone.
        let status = unsafe { raw::jx_saved_chunk_non_null(&mut self.raw, at, &mut chunk) };
        FileError::of(status, 0..0)?;
        self.read_text(chunk)?;
        // SAFETY: the pointer and the size are those of one vector, and all are borrowed for the call alone.
        let status = unsafe {
            raw::jx_saved_check_non_null(&mut self.raw, at, self.buffer.as_ptr(), self.buffer.len())
        };
        FileError::of(status, chunk.start..chunk.end)?;
        Ok(chunk.start..chunk.end)
    }

    /// Reads a part of the text into the buffer, which has it alone.
    fn read_text(&mut self, span: raw::Span) -> Result<(), FileError> {
        let len = span.end - span.start;
        self.buffer.clear();
        self.buffer
            .try_reserve_exact(len)
            .map_err(|_| FileError::OutOfMemory)?;
        self.buffer.resize(len, 0);
        self.text
            .read_exact_at(&mut self.buffer, span.start as u64)
            .map_err(FileError::Read)
    }

    /// Reads what the library needs, and gives it.
    fn give_all(&mut self) -> Result<(), FileError> {
        loop {
            let mut need = raw::Span::default();
            // SAFETY: both are borrowed for the call alone.
            let status = unsafe { raw::jx_saved_needs_non_null(&mut self.raw, &mut need) };
            FileError::of(status, 0..0)?;
            if need.end == 0 {
                return Ok(());
            }
            self.read_text(need)?;
            // SAFETY: the pointer and the size are those of one vector, and the index is borrowed for the call alone.
            let status = unsafe {
                raw::jx_saved_give_non_null(&mut self.raw, self.buffer.as_ptr(), self.buffer.len())
            };
            FileError::of(status, need.start..need.end)?;
        }
    }
}
