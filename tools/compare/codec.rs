// The number codec: the console's `make` and `number` beside `compact_encode` and `decode` of the Rust's util.rs. The functions for
// C have no codec, so that this side is asked through the console, a line for a line.
use std::io::{BufRead, BufReader, BufWriter, Error, ErrorKind, Result, Write};
use std::process::{ChildStdin, Command, Stdio};

use jsonb::{decode_number, encode_number, Answer, Number, NUMBER_ROOM};

use crate::list::List;
use crate::numbers::{Call, Calls, Making};
use crate::reading::is_listed;
use crate::sides::{did, is_number, Verdict};
use crate::tally::{spaced, Answered, Tally};

const REFUSED: &str = "refused 4 number";

const TOO_SHORT: &str = "refused 10 buffer too short";

// The differences that docs/DIFFERENCES.md says in words.
const ALONE: &str = "10, 20 and 30 are floats there, and kinds of their own here";

// Such a payload, the bits of the float, and the word here.
const FLOATS: [(u8, u64, &str); 3] = [
    (0x10, 0x7ff8_0000_0000_0000, "nan"),
    (0x20, 0x7ff0_0000_0000_0000, "infinity"),
    (0x30, 0xfff0_0000_0000_0000, "-infinity"),
];

const WIDE: &str = "a wider decimal is its value and scale there, its length here";

// ---- verdicts

/// Why document 01 does not list a payload.
fn cause(payload: &[u8]) -> &'static str {
    let Some((first, rest)) = payload.split_first() else {
        return "a payload of no bytes";
    };
    match (first, rest.len()) {
        (0x00 | 0x10 | 0x20 | 0x30, _) => "bytes behind 00, 10, 20 or 30",
        (0x40 | 0x50, _) => "an integer of another width",
        (0x60, _) => "a float that is not of 8 bytes",
        (0x70, 18) => "a decimal of 18 bytes",
        (0x70, 34) => "a decimal of 34 bytes",
        (0x70, _) => "a decimal of another width",
        _ => "another first byte",
    }
}

/// The Rust's number in the console's words.
fn words(number: &Number) -> String {
    match number {
        Number::Int64(v) => format!("signed {v}"),
        Number::UInt64(v) => format!("unsigned {v}"),
        Number::Float64(v) => format!("float {:016x}", v.to_bits()),
        Number::Decimal64(v) => format!("decimal {} {}", v.value, v.scale),
        Number::Decimal128(v) => format!("decimal {} {} of 128 bits", v.value, v.scale),
        Number::Decimal256(v) => format!("decimal of 256 bits, scale {}", v.scale),
    }
}

/// The verdict on the number of a listed payload.
fn judge_number(payload: &[u8], number: &Number, ours: &str) -> Verdict {
    let (meant, is_meant) = match number {
        Number::Float64(v) if payload.len() == 1 => (ALONE, FLOATS.contains(&(payload[0], v.to_bits(), ours))),
        Number::Decimal128(_) => (WIDE, ours == "wide 17"),
        Number::Decimal256(_) => (WIDE, ours == "wide 33"),
        _ if ours == words(number) => return Verdict::Alike("the same number"),
        _ => ("", false),
    };
    if is_meant {
        return Verdict::Listed(meant.to_string());
    }
    Verdict::Wrong("neither the same number nor a difference that is meant")
}

/// The verdict on what a payload is read as.
pub fn judge_read(payload: &[u8], theirs: &std::result::Result<Number, Answer>, ours: &str) -> Verdict {
    match (is_listed(payload), theirs) {
        (true, _) if ours == REFUSED => Verdict::Wrong("document 01 lists the payload"),
        (true, Ok(number)) => judge_number(payload, number, ours),
        (true, Err(_)) => Verdict::Wrong("the Rust does not read a listed payload"),
        (false, _) if ours != REFUSED => Verdict::Wrong("document 01 does not list the payload"),
        (false, Err(Answer::Error(error))) if is_number(error, 4) => Verdict::Alike("the same refusal of a payload"),
        (false, Err(ended)) => Verdict::Listed(format!("4 {}: {}", cause(payload), did(ended))),
        (false, Ok(_)) => Verdict::Listed(format!("4 {}: the Rust answers", cause(payload))),
    }
}

/// The Rust's answer to a making, in the console's words. It writes into a slice as long as the buffer, and the slice refuses
/// what does not fit.
fn make(making: &Making) -> String {
    match encode_number(&making.number, making.room.unwrap_or(NUMBER_ROOM)) {
        Answer::Error(jsonb::Error::Message(_)) => TOO_SHORT.to_string(),
        answer => answer.to_string(),
    }
}

fn judge_made(theirs: &str, ours: &str) -> Verdict {
    match ours {
        _ if ours != theirs => Verdict::Wrong("another payload"),
        TOO_SHORT => Verdict::Alike("no payload, for a buffer too short"),
        _ => Verdict::Alike("the same payload"),
    }
}

/// The Rust's answer to a call, and the verdict.
fn judge(call: &Call, ours: &str) -> (String, Verdict) {
    match call {
        Call::Make(making) => {
            let theirs = make(making);
            let verdict = judge_made(&theirs, ours);
            (theirs, verdict)
        }
        Call::Read(payload) => {
            let theirs = decode_number(payload);
            let verdict = judge_read(payload, &theirs, ours);
            (theirs.map_or_else(|ended| ended.to_string(), |number| words(&number)), verdict)
        }
    }
}

// ---- the console

fn failure(why: String) -> Error {
    Error::new(ErrorKind::Other, why)
}

fn write_lines(calls: &Calls, console: ChildStdin) -> Result<()> {
    let mut console = BufWriter::new(console);
    for call in calls.iter() {
        writeln!(console, "{call}")?;
    }
    console.flush()
}

/// Takes an answer for each call, and no more.
fn take_answers(calls: &Calls, console: impl BufRead, tally: &mut Tally) -> Result<()> {
    let mut answers = console.lines();
    for call in calls.iter() {
        let ours = answers.next().ok_or_else(|| failure(format!("no answer to {call}")))??;
        let (theirs, verdict) = judge(&call, &ours);
        tally.note(Answered { call: &call, size: call.size(), theirs: &theirs, ours: &ours }, verdict);
    }
    match answers.next() {
        Some(answer) => Err(failure(format!("more answers than lines: {}", answer?))),
        None => Ok(()),
    }
}

/// Puts all calls to one run of the console. It is written to and read from at once, since it answers before it has read all.
fn ask_console(console: &str, calls: &Calls, tally: &mut Tally) -> Result<()> {
    let mut child = Command::new(console).stdin(Stdio::piped()).stdout(Stdio::piped()).spawn()?;
    let (Some(input), Some(output)) = (child.stdin.take(), child.stdout.take()) else { unreachable!("both are piped") };
    let (written, taken) = std::thread::scope(|scope| {
        let writer = scope.spawn(|| write_lines(calls, input));
        let taken = take_answers(calls, BufReader::new(output), tally);
        (writer.join().expect("the writer does not panic"), taken)
    });
    let status = child.wait()?;
    taken.and(written)?;
    if !status.success() {
        return Err(failure(status.to_string()));
    }
    Ok(())
}

/// Puts numbers and payloads, so many of the numbers random, to the console and to the Rust; whether every answer is as it should
/// be.
pub fn compare_codec(list: &mut List, console: &str, random: usize, seed: u64) -> bool {
    list.kinds.extend([ALONE, WIDE].map(String::from));
    let calls = Calls::new(random, seed);
    let mut tally = Tally::new(list, calls.len());
    let asked = ask_console(console, &calls, &mut tally);
    let rooms = calls.makings.iter().filter(|making| making.room.is_some()).count();
    println!(
        "{} numbers, {} calls with a buffer's length beside them, and {} payloads, seed {seed}",
        spaced(calls.makings.len() - rooms),
        spaced(rooms),
        spaced(calls.payloads.len()),
    );
    let alike = tally.sum_up();
    if let Err(error) = &asked {
        println!("{console}: {error}");
    }
    asked.is_ok() && alike
}
