//! The word that a form begins with.

/// The word after the bracket that a line or an answer begins with.
pub fn word(form: &[u8]) -> Option<&[u8]> {
    let rest = form.strip_prefix(b"(")?;
    let end = rest.iter().position(|byte| !byte.is_ascii_lowercase())?;
    Some(&rest[..end])
}
