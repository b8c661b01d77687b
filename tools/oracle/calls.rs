// What the Rust answers to a call. It calls the crate's own functions; its own part is reading path records, taking array records
// apart for the builders, and telling panics from answers.
use std::borrow::Cow;
use std::fmt;
use std::panic::{catch_unwind, AssertUnwindSafe};

use crate::core::{ArrayBuilder, ArrayIterator, JsonbItem, ObjectBuilder};
use crate::{to_hex, Edit, Error, KeyPath, Memory, Number, RawJsonb, Request};

/// `NoCall`: the Rust has no such call, since what is given is no path, no array or no list of names. `Memory`: it asked for more
/// than 1 GiB at once, which ends the process where it is refused. `StandIn`: a stand-in was reached, so this is no answer of the
/// Rust's.
#[derive(Clone, PartialEq, Debug)]
pub enum Answer {
    Result(Vec<u8>),
    Absent,
    Error(Error),
    NoCall(&'static str),
    Panic,
    Memory,
    StandIn,
}

impl fmt::Display for Answer {
    fn fmt(&self, f: &mut fmt::Formatter) -> fmt::Result {
        match self {
            Answer::Result(bytes) => write!(f, "result {}", to_hex(bytes)),
            Answer::Absent => write!(f, "absent"),
            Answer::Error(Error::Message(_)) => write!(f, "error Message"),
            Answer::Error(error) => write!(f, "error {error:?}"),
            Answer::NoCall(why) => write!(f, "no call: {why}"),
            Answer::Panic => write!(f, "panic"),
            Answer::Memory => write!(f, "memory"),
            Answer::StandIn => write!(f, "stand-in"),
        }
    }
}

type Answered = Result<Answer, Error>;

// ---- the calls

pub fn get(record: &[u8], path: &[KeyPath]) -> Answered {
    Ok(match RawJsonb::new(record).get_by_keypath(path.iter())? {
        Some(found) => Answer::Result(found.to_vec()),
        None => Answer::Absent,
    })
}

pub fn delete(record: &[u8], path: &[KeyPath]) -> Answered {
    Ok(Answer::Result(RawJsonb::new(record).delete_by_keypath(path.iter())?.to_vec()))
}

pub fn concat(left: &[u8], right: &[u8]) -> Answered {
    Ok(Answer::Result(RawJsonb::new(left).concat(&RawJsonb::new(right))?.to_vec()))
}

pub fn strip(record: &[u8]) -> Answered {
    Ok(Answer::Result(RawJsonb::new(record).strip_nulls()?.to_vec()))
}

/// The array's items and then the record, through the Rust's `ArrayBuilder`.
pub fn append(array: &[u8], record: &[u8]) -> Answered {
    let Some(items) = ArrayIterator::new(RawJsonb::new(array))? else {
        return Ok(Answer::NoCall("not an array"));
    };
    let mut builder = ArrayBuilder::new();
    for item in items {
        builder.push_jsonb_item(item?);
    }
    builder.push_raw_jsonb(RawJsonb::new(record));
    Ok(Answer::Result(builder.build()?.to_vec()))
}

/// The names with the values, through the Rust's `ObjectBuilder`.
pub fn build(names: &[u8], values: &[u8]) -> Answered {
    let (Some(names), Some(values)) = (ArrayIterator::new(RawJsonb::new(names))?, ArrayIterator::new(RawJsonb::new(values))?)
    else {
        return Ok(Answer::NoCall("not an array"));
    };
    if names.len() != values.len() {
        return Ok(Answer::NoCall("unequal counts"));
    }
    let mut keys = Vec::new();
    for name in names {
        let JsonbItem::String(Cow::Borrowed(key)) = name? else {
            return Ok(Answer::NoCall("a name that is no string"));
        };
        keys.push(key);
    }
    let mut builder = ObjectBuilder::new();
    for (key, value) in keys.into_iter().zip(values) {
        builder.push_jsonb_item(key, value?)?;
    }
    Ok(Answer::Result(builder.build()?.to_vec()))
}

/// A request to the Rust, which has no buffer to be lent. With `quoted` the path's names are given as `QuotedName`.
pub fn answer(request: &Request, quoted: bool) -> Answer {
    let (first, second) = (&request.first[..], &request.second[..]);
    let path = if request.edit.has_path() { steps(second, quoted) } else { Some(Vec::new()) };
    let Some(path) = path else {
        return Answer::NoCall("not a path");
    };
    guarded(|| match request.edit {
        Edit::Get => get(first, &path),
        Edit::Delete => delete(first, &path),
        Edit::Concat => concat(first, second),
        Edit::Strip => strip(first),
        Edit::Append => append(first, second),
        Edit::Build => build(first, second),
    })
}

/// Runs the Rust and tells its panics, and what it asks of the memory, from its answers.
pub fn guarded(call: impl FnOnce() -> Answered) -> Answer {
    Memory::was_large();
    let ended = catch_unwind(AssertUnwindSafe(call));
    if Memory::was_large() {
        return Answer::Memory;
    }
    match ended {
        Ok(answered) => answered.unwrap_or_else(Answer::Error),
        Err(panic) => {
            let text = panic.downcast_ref::<String>().map(String::as_str).or(panic.downcast_ref::<&str>().copied());
            match text {
                Some(text) if text.contains("stand-in: ") => Answer::StandIn,
                _ => Answer::Panic,
            }
        }
    }
}

/// The Rust's deep reader, which no edit calls.
pub fn read(record: &[u8]) -> Answer {
    guarded(|| RawJsonb::new(record).to_value().map(|_| Answer::Result(Vec::new())))
}

// ---- numbers

/// `Number::decode` of a payload: the number, or how else it ended.
pub fn decode_number(payload: &[u8]) -> Result<Number, Answer> {
    let mut decoded = None;
    let ended = guarded(|| {
        decoded = Some(Number::decode(payload)?);
        Ok(Answer::Absent)
    });
    decoded.ok_or(ended)
}

/// `compact_encode` of a number into a buffer of so many bytes. Where it is too short the Rust has the error of its writer.
pub fn encode_number(number: &Number, room: usize) -> Answer {
    guarded(|| {
        let mut buffer = vec![0; room];
        let length = number.compact_encode(&mut buffer[..])?;
        Ok(Answer::Result(buffer[..length].to_vec()))
    })
}

/// The longest payload, a decimal's of 256 bits: its first byte, the value and the scale.
pub const NUMBER_ROOM: usize = 34;

/// What a payload stands for, as a payload again.
pub fn number(payload: &[u8]) -> Answer {
    match decode_number(payload) {
        Ok(number) => encode_number(&number, NUMBER_ROOM),
        Err(ended) => ended,
    }
}

// ---- paths

/// The steps of a path record: its strings are names, its integers of any listed width within 32 bits are indexes. Written apart
/// from the Rust, which has no path records.
pub fn steps(record: &[u8], quoted: bool) -> Option<Vec<KeyPath<'_>>> {
    let word = |at: usize| Some(u32::from_be_bytes(record.get(at..at + 4)?.try_into().unwrap()));
    let header = word(0)?;
    let count = (header & 0x1fff_ffff) as usize;
    if header >> 29 != 4 || record.len() < 4 + 4 * count {
        return None;
    }
    let mut at = 4 + 4 * count;
    let mut steps = Vec::with_capacity(count);
    for i in 0..count {
        let entry = word(4 + 4 * i)?;
        let end = at + (entry & 0x0fff_ffff) as usize;
        let payload = record.get(at..end)?;
        at = end;
        steps.push(match entry >> 28 {
            1 => name(std::str::from_utf8(payload).ok()?, quoted),
            2 => KeyPath::Index(index(payload)?),
            _ => return None,
        });
    }
    (at == record.len()).then_some(steps)
}

fn name(text: &str, quoted: bool) -> KeyPath<'_> {
    if quoted {
        return KeyPath::QuotedName(Cow::Borrowed(text));
    }
    KeyPath::Name(Cow::Borrowed(text))
}

fn index(payload: &[u8]) -> Option<i32> {
    let (kind, bytes) = payload.split_first()?;
    match (*kind, bytes.len()) {
        (0x00, 0) => Some(0),
        (0x40 | 0x50, 1 | 2 | 4 | 8) => {
            let fill = if *kind == 0x40 && bytes[0] >= 0x80 { -1 } else { 0 };
            let value = bytes.iter().fold(fill, |v: i128, b| v << 8 | *b as i128);
            value.try_into().ok()
        }
        _ => None,
    }
}
