// One request to both sides, and what their answers are to each other.
use std::fmt;

use jsonb::{answer, Answer, Edit, Error, Request};

use crate::flights::{flight_of, is_flight};
use crate::pointers::pointer_of;
use crate::port;
use crate::port::Refusal;
use crate::previews::preview_of;
use crate::reading::{depth, faults, Fault, DEPTH_LIMIT, RECORD_LIMIT};

/// What the port answers.
#[derive(Clone, PartialEq, Debug)]
pub enum Ours {
    Result(Vec<u8>),
    Absent,
    Refused(Refusal),
}

impl fmt::Display for Ours {
    fn fmt(&self, f: &mut fmt::Formatter) -> fmt::Result {
        match self {
            Ours::Result(bytes) => write!(f, "result {}", jsonb::to_hex(bytes)),
            Ours::Absent => write!(f, "absent"),
            Ours::Refused(refusal) => write!(f, "refused {refusal}"),
        }
    }
}

/// How two answers stand to each other. `Alike`: they say the same. `Listed`: a difference of a kind that docs/DIFFERENCES.md must
/// have. `NoCall`: the Rust has no such call. `Wrong`: what should never be.
#[derive(Clone, PartialEq, Eq, PartialOrd, Ord, Debug)]
pub enum Verdict {
    Alike(&'static str),
    Listed(String),
    NoCall(&'static str),
    Wrong(&'static str),
}

// ---- the port

/// What a buffer is filled with, so that a byte that is written is seen.
const FILL: u8 = 0xa5;

/// Bytes that were not written. A buffer is held against these part by part, which is faster than byte by byte.
static UNWRITTEN: [u8; 4096] = [FILL; 4096];

type Ended<'a> = Result<Option<&'a [u8]>, Refusal>;

/// Calls with a request's buffer, and makes sure that no byte was written that should not be.
fn watched(
    request: &Request,
    buffer: &mut Vec<u8>,
    call: impl for<'a> FnOnce(&'a mut [u8]) -> Ended<'a>,
) -> Result<Ours, &'static str> {
    buffer.clear();
    buffer.resize(request.room.unwrap_or(port::ROOM), FILL);
    let ours = match call(buffer) {
        Ok(Some(result)) => Ours::Result(result.to_vec()),
        Ok(None) => Ours::Absent,
        Err(refusal) => Ours::Refused(refusal),
    };
    let filled = if let Ours::Result(result) = &ours { result.len() } else { 0 };
    if buffer[filled..].chunks(UNWRITTEN.len()).any(|part| part != &UNWRITTEN[..part.len()]) {
        return Err("the port wrote behind its result");
    }
    Ok(ours)
}

pub fn ask_port(request: &Request, buffer: &mut Vec<u8>) -> Result<Ours, &'static str> {
    let (first, second) = (&request.first[..], &request.second[..]);
    watched(request, buffer, |out| match request.edit {
        Edit::Get => port::get_by_keypath(first, second, out),
        Edit::Delete => port::delete_by_keypath(first, second, out).map(Some),
        Edit::Concat => port::concat(first, second, out).map(Some),
        Edit::Strip => port::strip_nulls(first, out).map(Some),
        Edit::Append => port::append(first, second, out).map(Some),
        Edit::Build => port::build_object(first, second, out).map(Some),
    })
}

// ---- both

/// Why document 01 refuses the records: the faults of the first and then those of the second.
fn faults_of(request: &Request) -> Vec<Fault> {
    let mut all = faults(&request.first);
    if !request.edit.has_path() && request.edit != Edit::Strip {
        all.extend(faults(&request.second));
    }
    all
}

/// The cause of a difference. Of several faults the Rust may meet any, or none.
fn cause_of(faults: &[Fault]) -> &'static str {
    if faults.len() > 1 {
        return "several faults";
    }
    faults[0].cause
}

/// What the Rust did, as a row of docs/DIFFERENCES.md says it.
pub fn did(theirs: &Answer) -> &'static str {
    match theirs {
        Answer::Result(_) | Answer::Absent => "the Rust answers",
        Answer::Error(_) => "the Rust has another error",
        Answer::Panic => "the Rust panics",
        Answer::Memory => "the Rust asks for more than 1 GiB",
        Answer::NoCall(_) | Answer::StandIn => "no answer of the Rust's",
    }
}

/// Whether an error of the Rust's is a number's.
pub fn is_number(error: &Error, number: u32) -> bool {
    match error {
        Error::InvalidEOF => number == 1,
        Error::InvalidJsonb => number == 2,
        Error::InvalidJsonbNumber => number == 4,
        Error::InvalidJsonType => number == 7,
        Error::ObjectDuplicateKey => number == 8,
        _ => false,
    }
}

fn judge_refused(request: &Request, refusal: Refusal, faults: &[Fault], theirs: &Answer) -> Verdict {
    let listed = |cause: &str| match faults.len() {
        0 | 1 => Verdict::Listed(format!("{} {cause}: {}", refusal.number(), did(theirs))),
        _ => Verdict::Listed(format!("{cause}: {}", did(theirs))),
    };
    match (refusal, theirs) {
        (_, Answer::StandIn) => Verdict::Wrong("a stand-in was reached"),
        (_, Answer::Error(error)) if is_number(error, refusal.number()) => Verdict::Alike("the same refusal"),
        (_, Answer::NoCall(why)) if !faults.is_empty() => Verdict::NoCall(why),
        (_, _) if !faults.is_empty() => listed(cause_of(faults)),
        (Refusal::Path | Refusal::Kind, Answer::NoCall(why)) => Verdict::NoCall(why),
        (Refusal::Result, Answer::Result(result)) if result.len() > RECORD_LIMIT => listed("result over 65,536 bytes"),
        (Refusal::Result, Answer::Result(result)) if depth(result) > DEPTH_LIMIT => listed("result deeper than 64"),
        // 9 stands before 10: of a result that no buffer serves, 10 would be wrong.
        (Refusal::Buffer, Answer::Result(result)) if result.len() > RECORD_LIMIT || depth(result) > DEPTH_LIMIT => {
            Verdict::Wrong("10 in the place of 9")
        }
        (Refusal::Buffer, Answer::Result(result)) if result.len() > request.room.unwrap_or(port::ROOM) => {
            listed("buffer too short")
        }
        _ => Verdict::Wrong("the port refuses and the Rust does not"),
    }
}

/// The verdict on the answers to a request.
pub fn judge(request: &Request, ours: &Ours, theirs: &Answer) -> Verdict {
    let number = if let Ours::Refused(refusal) = ours { refusal.number() } else { 0 };
    let faults = faults_of(request);
    if faults.is_empty() && (1..=5).contains(&number) {
        return Verdict::Wrong("the port refuses a readable record");
    }
    if !faults.is_empty() && faults[0].number != number {
        return Verdict::Wrong("document 01 has another number for the record");
    }
    match (ours, theirs) {
        (Ours::Result(ours), Answer::Result(theirs)) if ours == theirs => Verdict::Alike("the same result"),
        (Ours::Result(_), Answer::Result(_)) => Verdict::Wrong("other bytes"),
        (Ours::Absent, Answer::Absent) => Verdict::Alike("an absence"),
        (Ours::Refused(refusal), _) => judge_refused(request, *refusal, &faults, theirs),
        _ => Verdict::Wrong("the Rust has another ending"),
    }
}

/// The verdict on a look-up in a readable record, which a pointer that means the same must end as the path does.
fn judge_pointer(request: &Request, ours: &Ours, verdict: Verdict, buffer: &mut Vec<u8>) -> Verdict {
    let Some(pointer) = pointer_of(&request.first, &request.second) else {
        return verdict;
    };
    match watched(request, buffer, |out| port::get_by_pointer(&request.first, &pointer, out)) {
        Err(why) => Verdict::Wrong(why),
        Ok(ended) if ended != *ours => Verdict::Wrong("the pointer ends otherwise than the path"),
        Ok(_) => match verdict {
            Verdict::Alike("the same result") => Verdict::Alike("the same result, by a pointer too"),
            Verdict::Alike("an absence") => Verdict::Alike("an absence, by a pointer too"),
            other => other,
        },
    }
}

/// The result of an edit, the Rust's where the port's buffer was too short.
fn result_of<'a>(ours: &'a Ours, theirs: &'a Answer) -> Option<&'a [u8]> {
    match (ours, theirs) {
        (Ours::Result(result), _) | (Ours::Refused(Refusal::Buffer), Answer::Result(result)) => Some(result),
        _ => None,
    }
}

/// The verdict on an edit, whose preview must tell the length of its result, or its number.
fn judge_preview(request: &Request, ours: &Ours, theirs: &Answer, verdict: Verdict) -> Verdict {
    let Some(told) = preview_of(request.edit, &request.first, &request.second) else {
        return verdict;
    };
    let wanted = match (result_of(ours, theirs), ours) {
        (Some(result), _) => Some(Ok(result.len())),
        (None, Ours::Refused(refusal)) => Some(Err(*refusal)),
        (None, _) => None,
    };
    if Some(told) != wanted {
        return Verdict::Wrong("the preview tells something else");
    }
    verdict
}

/// What the flight edit must end with. 1 to 6 stand before 12 of a record, and that before what else refuses the plain edit; 12 of a
/// result stands before 10.
fn end_aboard(request: &Request, ours: &Ours, theirs: &Answer) -> Ours {
    let takes_flights = || is_flight(&request.first) && (request.edit != Edit::Concat || is_flight(&request.second));
    let gives_flight = || result_of(ours, theirs).map_or(true, |result| is_flight(result));
    match ours {
        Ours::Refused(refusal) if refusal.number() <= Refusal::Path.number() => ours.clone(),
        _ if takes_flights() && gives_flight() => ours.clone(),
        _ => Ours::Refused(Refusal::Profile),
    }
}

/// The verdict on an edit that may have a flight edit.
fn judge_flight(request: &Request, ours: &Ours, theirs: &Answer, verdict: Verdict, buffer: &mut Vec<u8>) -> Verdict {
    match watched(request, buffer, |out| flight_of(request.edit, &request.first, &request.second, out)) {
        Err(why) => Verdict::Wrong(why),
        Ok(Ours::Absent) => verdict,
        Ok(ended) if ended != end_aboard(request, ours, theirs) => Verdict::Wrong("the flight edit ends otherwise"),
        Ok(Ours::Result(_)) if verdict == Verdict::Alike("the same result") => {
            Verdict::Alike("the same result, by a flight edit too")
        }
        Ok(_) => verdict,
    }
}

/// Asks both and judges. `QuotedName` must act as `Name`, a pointer as the path that means the same, the check must say what the
/// reading of document 01 says, the flight check what is said of flight records, a preview what the edit gives, and a flight edit must
/// end as the plain one where it takes and gives flight records.
pub fn compare(request: &Request, buffer: &mut Vec<u8>) -> (Ours, Answer, Verdict) {
    let theirs = answer(request, false);
    let ours = match ask_port(request, buffer) {
        Ok(ours) => ours,
        Err(why) => return (Ours::Absent, theirs, Verdict::Wrong(why)),
    };
    let verdict = judge(request, &ours, &theirs);
    if request.edit.has_path() && answer(request, true) != theirs {
        return (ours, theirs, Verdict::Wrong("QuotedName does not act as Name"));
    }
    let fault = faults(&request.first).first().map(|fault| fault.number);
    if port::check(&request.first).err().map(Refusal::number) != fault {
        return (ours, theirs, Verdict::Wrong("the check is not document 01's"));
    }
    let outside = || (!is_flight(&request.first)).then_some(Refusal::Profile.number());
    if port::flight::check(&request.first).err().map(Refusal::number) != fault.or_else(outside) {
        return (ours, theirs, Verdict::Wrong("the flight check is not document 02's"));
    }
    if request.edit == Edit::Get && fault.is_none() && faults(&request.second).is_empty() {
        let verdict = judge_pointer(request, &ours, verdict, buffer);
        return (ours, theirs, verdict);
    }
    let verdict = judge_preview(request, &ours, &theirs, verdict);
    let verdict = judge_flight(request, &ours, &theirs, verdict, buffer);
    (ours, theirs, verdict)
}
