// Look-up by a pointer. The Rust has none: the pointer that means what a path means must find what the path finds.
use jsonb::{get, steps, Answer, KeyPath};

/// The first byte of an array's header: a count that a record has room for leaves it as it is.
const ARRAY: u8 = 0x80;

/// Whether a pointer has such a step on what a path has found so far. On an array it has no index that counts back, and a name that
/// a path finds nothing by may be an index.
fn has_token(found: &[u8], step: &KeyPath) -> bool {
    found[0] != ARRAY || matches!(step, KeyPath::Index(0..))
}

/// A step as a token. On an object an index stands for its decimal text, in a path as in a pointer.
fn token(step: &KeyPath) -> String {
    match step {
        KeyPath::Index(i) => i.to_string(),
        KeyPath::Name(name) | KeyPath::QuotedName(name) => name.replace('~', "~0").replace('/', "~1"),
    }
}

/// The pointer that means what a path means in a readable record, where there is one.
pub fn pointer_of(record: &[u8], path: &[u8]) -> Option<String> {
    let steps = steps(path, false)?;
    for (i, step) in steps.iter().enumerate() {
        // Behind a step that finds nothing any other will do.
        match get(record, &steps[..i]) {
            Ok(Answer::Result(found)) if !has_token(&found, step) => return None,
            _ => {}
        }
    }
    Some(steps.iter().map(|step| format!("/{}", token(step))).collect())
}
