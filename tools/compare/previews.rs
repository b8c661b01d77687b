// Previews. The Rust has none: that of an edit must tell the length of what the edit gives, or its number.
use jsonb::Edit;

use crate::port;
use crate::port::Refusal;

/// What the preview of an edit tells, where it has one.
pub fn preview_of(edit: Edit, first: &[u8], second: &[u8]) -> Option<Result<usize, Refusal>> {
    match edit {
        Edit::Get => None,
        Edit::Delete => Some(port::preview_delete(first, second)),
        Edit::Concat => Some(port::preview_concat(first, second)),
        Edit::Strip => Some(port::preview_strip(first)),
        Edit::Append => Some(port::preview_append(first, second)),
        Edit::Build => Some(port::preview_build(first, second)),
    }
}
