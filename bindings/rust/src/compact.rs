use crate::fault::Fault;
use crate::raw;
use crate::refusal::Refusal;
use crate::settings::Settings;

/// The compact form of a JSON text: its tokens one after another, without the white space between them (RFC 8259, section 2). Each
/// token keeps its bytes: no number, name or string is written anew. A byte order mark that the settings ignore is left out.
///
/// It takes as much memory as the text has bytes, and reads the text three times: first to check it.
///
/// # Errors
///
/// [`Fault`]: the bytes are not valid by the settings, as by [`check`](crate::check), or an allocation failed.
///
/// ```
/// use jx::Refusal;
///
/// assert_eq!(jx::compact(b" [1.0 , \"a b\"]\n", jx::DEPTH)?, b"[1.0,\"a b\"]");
/// assert_eq!(jx::compact(b"[1 2]", jx::DEPTH), Err(Refusal::Stopped { at: 3 }.into()));
/// # Ok::<(), jx::Fault>(())
/// ```
pub fn compact(text: &[u8], settings: impl Into<Settings>) -> Result<Vec<u8>, Fault> {
    let settings = settings.into().raw();
    let mut form = Vec::new();
    form.try_reserve_exact(text.len())
        .map_err(|_| Fault::OutOfMemory)?;
    form.resize(text.len(), 0);
    let mut size = 0;
    let mut verdict = raw::Verdict::default();
    // SAFETY: pointers and sizes are those of one slice each, and the others are borrowed for the call alone.
    let status = unsafe {
        raw::jx_compact_non_null(
            text.as_ptr(),
            text.len(),
            &settings,
            form.as_mut_ptr(),
            form.len(),
            &mut size,
            &mut verdict,
        )
    };
    if status == raw::NO_MEMORY {
        return Err(Fault::OutOfMemory);
    }
    debug_assert_eq!(status, raw::OK);
    Refusal::of(verdict)?;
    form.truncate(size);
    Ok(form)
}
