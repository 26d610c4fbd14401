//! Sentences that say what is wrong with a refused text, and where.

use crate::raw;
use crate::refusal::Refusal;
use crate::settings::Settings;

/// Most sentences are shorter: only one with a long name is not.
const USUAL_ROOM: usize = 256;

impl Refusal {
    /// The sentence on the text that was refused by these settings, in the words of the program `jx explain`.
    ///
    /// It reads the text up to the place once more, and all of it for a repeated name. Without memory for that it says the verdict
    /// alone, as it does of a place that the text does not have.
    ///
    /// ```
    /// let said = |text: &[u8]| match jx::check(text, jx::DEPTH) {
    ///     Err(jx::Fault::Refused(refusal)) => refusal.sentence(text, jx::DEPTH),
    ///     other => format!("{other:?}"),
    /// };
    /// assert_eq!(said(b"[1 2]"), "expected a comma or ], found 2");
    /// assert_eq!(said(b"{\"a\":tru,"), "expected e, as in true, found a comma");
    /// assert_eq!(said(b"[01]"), "no digit may follow a 0 that begins a number");
    /// assert_eq!(said(b"[1,"), "the text ends where a value is expected");
    /// assert_eq!(said(b"[\"a"), "the text ends inside a string that began at line 1, column 2");
    /// ```
    #[must_use]
    pub fn sentence(self, text: &[u8], settings: impl Into<Settings>) -> String {
        let settings = settings.into().raw();
        let mut sentence = vec![0; USUAL_ROOM];
        let mut size = self.explain(text, &settings, &mut sentence);
        if let Some(more) = size.filter(|size| *size > sentence.len()) {
            sentence.resize(more, 0);
            size = self.explain(text, &settings, &mut sentence);
        }
        match size {
            Some(size) => String::from_utf8_lossy(&sentence[..size]).into_owned(),
            None => self.to_string(),
        }
    }

    /// Writes the sentence, as many bytes as there is room for, and gives how many it has.
    fn explain(self, text: &[u8], settings: &raw::Settings, sentence: &mut [u8]) -> Option<usize> {
        let mut size = 0;
        let mut place = raw::Place::default();
        // SAFETY: pointers and sizes are those of one slice each, and the others are borrowed for the call alone.
        let status = unsafe {
            raw::jx_explain_non_null(
                text.as_ptr(),
                text.len(),
                settings,
                &self.raw(),
                sentence.as_mut_ptr(),
                sentence.len(),
                &mut size,
                &mut place,
            )
        };
        (status == raw::OK).then_some(size)
    }
}
