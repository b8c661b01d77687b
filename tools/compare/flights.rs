// Flight records: document 02 §5. The Rust has none: a flight edit must give the bytes that the plain edit gives, where it takes and
// gives flight records, and 12 where not. Which those are is told here by the document's sentences, apart from the port.
use jsonb::Edit;

use crate::port::{flight, Refusal};
use crate::reading::{depth, parts, CONTAINER, EXTENSION, NUMBER};

/// "At most 8 deep".
pub const DEEPEST: usize = 8;

/// "Names of 1 to 32 characters".
pub const LONGEST: usize = 32;

/// What the flight edit ends with. An absence, which none of them has, stands for an edit that has no flight edit.
pub fn flight_of<'a>(edit: Edit, first: &[u8], second: &[u8], out: &'a mut [u8]) -> Result<Option<&'a [u8]>, Refusal> {
    match edit {
        Edit::Delete => flight::delete(first, second, out).map(Some),
        Edit::Concat => flight::concat(first, second, out).map(Some),
        Edit::Strip => flight::strip(first, out).map(Some),
        Edit::Get | Edit::Append | Edit::Build => Ok(None),
    }
}

/// Whether a readable record is a flight record.
pub fn is_flight(record: &[u8]) -> bool {
    depth(record) <= DEEPEST && holds(record)
}

fn holds(record: &[u8]) -> bool {
    let (names, items) = parts(record);
    let rise = names.windows(2).all(|pair| pair[0] < pair[1]);
    rise && names.into_iter().all(is_name) && items.into_iter().all(|(code, payload)| may_hold(code, payload))
}

fn is_name(name: &[u8]) -> bool {
    std::str::from_utf8(name).is_ok_and(|text| (1..=LONGEST).contains(&text.chars().count()))
}

/// "No extension, float, decimal, NaN or infinity": of the numbers integers, whose first bytes these are.
fn may_hold(code: u32, payload: &[u8]) -> bool {
    match code {
        NUMBER => matches!(payload[0], 0x00 | 0x40 | 0x50),
        CONTAINER => holds(payload),
        EXTENSION => false,
        _ => true,
    }
}
