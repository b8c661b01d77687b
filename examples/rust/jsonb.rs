//! A safe wrapper over the functions of include/jsonb.h: slices in, slices out.
//!
//! What the header asks of a C caller is kept by the types: a slice's pointer is never null and has as many bytes as its length
//! says, and a buffer that is lent `&mut` overlaps nothing else. So nothing here can be called wrongly; any bytes at all will do.
//!
//! A result is the front part of the buffer that was lent. A refusal and an absence leave the buffer as it was.

/// A buffer of this length serves every call: no result is longer.
pub const ROOM: usize = 65_536;

/// Why a call was refused: a number, and who can cause it.
#[derive(Clone, Copy, PartialEq, Eq, Debug)]
pub enum Refusal {
    /// The sender of a record: it is cut short.
    Short = 1,
    /// The sender of a record: its layout is damaged.
    Layout = 2,
    /// The sender of a record, or of a text by itself: it is not UTF-8, or a text or a name in it is not.
    Text = 3,
    /// The sender of a record: a number is of no listed form.
    Number = 4,
    /// The sender of a record: it is over 65,536 bytes, or nested deeper than 64.
    Limit = 5,
    /// The writer of a path: it is unreadable, no array, or holds what is neither a name nor an index.
    Path = 6,
    /// The author of an edit: the record is of a kind that the edit does not take.
    Kind = 7,
    /// The author of an edit: a repeated name.
    Repeated = 8,
    /// The author of an edit: the result would be over 65,536 bytes or deeper than 64.
    Result = 9,
    /// The lender of the buffer: it is shorter than the result.
    Buffer = 10,
    /// The writer of a pointer: it is not empty and does not start with a slash, or has a `~` not followed by 0 or 1.
    Pointer = 11,
    /// The sender of a record: it is readable and no flight record. The author of an edit: the result would be none. See [`flight`].
    Profile = 12,
}

/// By their numbers, from 1 on.
const REFUSALS: &[Refusal] = &[
    Refusal::Short,
    Refusal::Layout,
    Refusal::Text,
    Refusal::Number,
    Refusal::Limit,
    Refusal::Path,
    Refusal::Kind,
    Refusal::Repeated,
    Refusal::Result,
    Refusal::Buffer,
    Refusal::Pointer,
    Refusal::Profile,
];

impl Refusal {
    pub fn number(self) -> u32 {
        self as u32
    }
}

impl std::fmt::Display for Refusal {
    fn fmt(&self, f: &mut std::fmt::Formatter) -> std::fmt::Result {
        let words = match self {
            Refusal::Short => "short",
            Refusal::Layout => "layout",
            Refusal::Text => "text",
            Refusal::Number => "number",
            Refusal::Limit => "too long or deep",
            Refusal::Path => "path",
            Refusal::Kind => "kind",
            Refusal::Repeated => "repeated name",
            Refusal::Result => "result too long or deep",
            Refusal::Buffer => "buffer too short",
            Refusal::Pointer => "pointer",
            Refusal::Profile => "outside the flight profile",
        };
        write!(f, "{} {}", self.number(), words)
    }
}

impl std::error::Error for Refusal {}

/// The functions of include/jsonb.h.
mod c {
    extern "C" {
        pub fn jsonb_check(record: *const u8, record_length: usize) -> u64;
        pub fn jsonb_check_text(text: *const u8, text_length: usize) -> u64;
        pub fn jsonb_flight_check(record: *const u8, record_length: usize) -> u64;
        pub fn jsonb_strip_nulls(target: *const u8, target_length: usize, out: *mut u8, out_length: usize) -> u64;
        pub fn jsonb_flight_strip(target: *const u8, target_length: usize, out: *mut u8, out_length: usize) -> u64;
    }

    /// A check takes a record.
    pub type Check = unsafe extern "C" fn(*const u8, usize) -> u64;

    /// Strip takes a record and a buffer.
    pub type Strip = unsafe extern "C" fn(*const u8, usize, *mut u8, usize) -> u64;

    /// The other edits take two records, or a record and a path or a pointer, and a buffer.
    pub type Edit = unsafe extern "C" fn(*const u8, usize, *const u8, usize, *mut u8, usize) -> u64;

    macro_rules! edits {
        ($($name:ident)*) => {
            extern "C" {
                $(pub fn $name(first: *const u8, first_length: usize, second: *const u8, second_length: usize,
                               out: *mut u8, out_length: usize) -> u64;)*
            }
        };
    }

    edits! {
        jsonb_get_by_keypath jsonb_get_by_pointer jsonb_delete_by_keypath jsonb_concat jsonb_append jsonb_build_object
        jsonb_flight_delete jsonb_flight_concat
    }

    extern "C" {
        pub fn jsonb_preview_delete(target: *const u8, target_length: usize, path: *const u8, path_length: usize) -> u64;
        pub fn jsonb_preview_concat(left: *const u8, left_length: usize, right: *const u8, right_length: usize) -> u64;
        pub fn jsonb_preview_strip(target: *const u8, target_length: usize) -> u64;
        pub fn jsonb_preview_append(array: *const u8, array_length: usize, item: *const u8, item_length: usize) -> u64;
        pub fn jsonb_preview_build(names: *const u8, names_length: usize, values: *const u8, values_length: usize) -> u64;
    }

    /// A preview of two records, or of a record and a path.
    pub type Preview = unsafe extern "C" fn(*const u8, usize, *const u8, usize) -> u64;
}

/// JSONB_ABSENT: below it an answer is a length, above it 2^32 and the number of a refusal.
const ABSENT: u64 = 1 << 32;

/// The length of the result, or `None` for an absence.
fn ending(answer: u64) -> Result<Option<usize>, Refusal> {
    if answer < ABSENT {
        return Ok(Some(answer as usize));
    }
    if answer == ABSENT {
        return Ok(None);
    }
    Err(REFUSALS[(answer - ABSENT) as usize - 1])
}

/// The same of a call that has no absence.
fn told(answer: u64) -> Result<usize, Refusal> {
    Ok(ending(answer)?.expect("only a look-up has an absence"))
}

/// An edit of two records, or of a record and a path or a pointer.
fn edit<'a>(call: c::Edit, first: &[u8], second: &[u8], out: &'a mut [u8]) -> Result<Option<&'a [u8]>, Refusal> {
    // Each pointer comes with the length of its slice, and `out` is borrowed for writing, so that it overlaps neither of them.
    let answer = unsafe { call(first.as_ptr(), first.len(), second.as_ptr(), second.len(), out.as_mut_ptr(), out.len()) };
    Ok(ending(answer)?.map(move |length| &out[..length]))
}

/// An edit that has no absence.
fn edit_always<'a>(call: c::Edit, first: &[u8], second: &[u8], out: &'a mut [u8]) -> Result<&'a [u8], Refusal> {
    Ok(edit(call, first, second, out)?.expect("only a look-up has an absence"))
}

/// An edit of one record, which has no absence.
fn edit_one<'a>(call: c::Strip, target: &[u8], out: &'a mut [u8]) -> Result<&'a [u8], Refusal> {
    let answer = unsafe { call(target.as_ptr(), target.len(), out.as_mut_ptr(), out.len()) };
    Ok(&out[..told(answer)?])
}

/// A check of one record.
fn pass(call: c::Check, record: &[u8]) -> Result<(), Refusal> {
    ending(unsafe { call(record.as_ptr(), record.len()) }).map(|_| ())
}

/// Whether a record is readable, or why it is not.
pub fn check(record: &[u8]) -> Result<(), Refusal> {
    pass(c::jsonb_check, record)
}

/// The number of code points of a text by RFC 3629, or [`Refusal::Text`] where the bytes are not UTF-8. A text of 2^32 − 1 code
/// points, or of more, has 2^32 − 1 here.
pub fn check_text(text: &[u8]) -> Result<usize, Refusal> {
    told(unsafe { c::jsonb_check_text(text.as_ptr(), text.len()) })
}

/// What a path finds in a record, as a record of its own; `None` where it finds nothing. A path is an array record of names and
/// indexes.
pub fn get_by_keypath<'a>(target: &[u8], path: &[u8], out: &'a mut [u8]) -> Result<Option<&'a [u8]>, Refusal> {
    edit(c::jsonb_get_by_keypath, target, path, out)
}

/// What a JSON Pointer (RFC 6901), as `/heater/0`, finds in a record, as a record of its own; `None` where it finds nothing. On an
/// object a token is a name, with `~1` for a slash and `~0` for a `~`; on an array it is an index. The empty pointer finds the
/// record. A `&str` is UTF-8, so that of the causes of [`Refusal::Pointer`] two are left: a slash that lacks in front, and a `~`
/// without 0 or 1 behind it.
pub fn get_by_pointer<'a>(target: &[u8], pointer: &str, out: &'a mut [u8]) -> Result<Option<&'a [u8]>, Refusal> {
    edit(c::jsonb_get_by_pointer, target, pointer.as_bytes(), out)
}

/// The record without what a path finds in it; the record itself where it finds nothing.
pub fn delete_by_keypath<'a>(target: &[u8], path: &[u8], out: &'a mut [u8]) -> Result<&'a [u8], Refusal> {
    edit_always(c::jsonb_delete_by_keypath, target, path, out)
}

/// The left record overlaid with the right one: two objects become one, anything else an array of both.
pub fn concat<'a>(left: &[u8], right: &[u8], out: &'a mut [u8]) -> Result<&'a [u8], Refusal> {
    edit_always(c::jsonb_concat, left, right, out)
}

/// The record without the members whose value is null, at every level.
pub fn strip_nulls<'a>(target: &[u8], out: &'a mut [u8]) -> Result<&'a [u8], Refusal> {
    edit_one(c::jsonb_strip_nulls, target, out)
}

/// The array with the record as one more item.
pub fn append<'a>(array: &[u8], item: &[u8], out: &'a mut [u8]) -> Result<&'a [u8], Refusal> {
    edit_always(c::jsonb_append, array, item, out)
}

/// The object of the names in one array with the values in the other.
pub fn build_object<'a>(names: &[u8], values: &[u8], out: &'a mut [u8]) -> Result<&'a [u8], Refusal> {
    edit_always(c::jsonb_build_object, names, values, out)
}

fn preview(call: c::Preview, first: &[u8], second: &[u8]) -> Result<usize, Refusal> {
    told(unsafe { call(first.as_ptr(), first.len(), second.as_ptr(), second.len()) })
}

/// The length of what [`delete_by_keypath`] would give, or why it would be refused, whatever the buffer. A buffer of that length
/// serves; a shorter one is [`Refusal::Buffer`], which no preview is.
pub fn preview_delete(target: &[u8], path: &[u8]) -> Result<usize, Refusal> {
    preview(c::jsonb_preview_delete, target, path)
}

/// The same of [`concat`].
pub fn preview_concat(left: &[u8], right: &[u8]) -> Result<usize, Refusal> {
    preview(c::jsonb_preview_concat, left, right)
}

/// The same of [`strip_nulls`].
pub fn preview_strip(target: &[u8]) -> Result<usize, Refusal> {
    told(unsafe { c::jsonb_preview_strip(target.as_ptr(), target.len()) })
}

/// The same of [`append`].
pub fn preview_append(array: &[u8], item: &[u8]) -> Result<usize, Refusal> {
    preview(c::jsonb_preview_append, array, item)
}

/// The same of [`build_object`].
pub fn preview_build(names: &[u8], values: &[u8]) -> Result<usize, Refusal> {
    preview(c::jsonb_preview_build, names, values)
}

/// Flight records, which are what the board's loader takes: at most 8 levels deep, with names that rise and have 1 to 32 characters,
/// and without extensions, floats, decimals, NaN and infinities. The edits take flight records and give flight records, with the bytes
/// of the plain edits; what is readable and no flight record is [`Refusal::Profile`].
pub mod flight {
    use super::{c, edit_always, edit_one, pass, Refusal};

    /// Whether a record is a flight record, or why it is not.
    pub fn check(record: &[u8]) -> Result<(), Refusal> {
        pass(c::jsonb_flight_check, record)
    }

    /// [`delete_by_keypath`](super::delete_by_keypath) of a flight record.
    pub fn delete<'a>(target: &[u8], path: &[u8], out: &'a mut [u8]) -> Result<&'a [u8], Refusal> {
        edit_always(c::jsonb_flight_delete, target, path, out)
    }

    /// [`concat`](super::concat) of two flight records. The result is no flight record, so that this is refused, where an object of 8
    /// levels stands beside a record that is no object.
    pub fn concat<'a>(left: &[u8], right: &[u8], out: &'a mut [u8]) -> Result<&'a [u8], Refusal> {
        edit_always(c::jsonb_flight_concat, left, right, out)
    }

    /// [`strip_nulls`](super::strip_nulls) of a flight record.
    pub fn strip<'a>(target: &[u8], out: &'a mut [u8]) -> Result<&'a [u8], Refusal> {
        edit_one(c::jsonb_flight_strip, target, out)
    }
}
