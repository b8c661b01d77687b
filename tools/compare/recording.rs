// The recorded list: calls on readable records within the limits, and what the Rust answers to each, for a test that has no Rust at
// hand. The port is not asked.
use std::fs::File;
use std::io::{BufWriter, Result, Write};

use jsonb::{answer, Answer, Edit, Error, Request};

use crate::random::{some_request, Random};
use crate::reading::{depth, faults, DEPTH_LIMIT, RECORD_LIMIT};
use crate::tree::{nested, request, Tree};

// A random call of more bytes is left out, so that the list stays short; the longest records are among the limits.
const SIZE: usize = 1_000;

/// The Rust's answer in the console's words, without those of a number; none where the Rust has no such call, or the result is over
/// the limits.
fn words(request: &Request) -> Option<String> {
    let readable = faults(&request.first).is_empty() && (request.edit == Edit::Strip || faults(&request.second).is_empty());
    if !readable {
        return None;
    }
    match answer(request, false) {
        Answer::Result(result) if result.len() > RECORD_LIMIT || depth(&result) > DEPTH_LIMIT => None,
        Answer::Error(Error::InvalidJsonType) => Some("refused 7".to_string()),
        Answer::Error(Error::ObjectDuplicateKey) => Some("refused 8".to_string()),
        theirs @ (Answer::Result(_) | Answer::Absent) => Some(theirs.to_string()),
        _ => None,
    }
}

/// Records of 64 levels and of 65,536 bytes, and results that are as long.
fn limit_requests() -> Vec<Request> {
    let nulls = |count: usize| Tree::Array(vec![Tree::Null; count]);
    let most = RECORD_LIMIT / 4 - 1;
    let first = Tree::Array(vec![Tree::Number(vec![0])]);
    let deep = nested(DEPTH_LIMIT, Tree::Object(Vec::new()));
    let inward = Tree::Array(vec![Tree::Number(vec![0]); DEPTH_LIMIT - 1]);
    vec![
        request(Edit::Strip, &deep, &Tree::Null),
        request(Edit::Get, &deep, &inward),
        request(Edit::Delete, &deep, &inward),
        request(Edit::Concat, &deep, &Tree::Null),
        request(Edit::Append, &nulls(0), &nested(DEPTH_LIMIT - 1, nulls(1))),
        request(Edit::Append, &nulls(most - 1), &Tree::Null),
        request(Edit::Concat, &nulls(most / 2), &nulls(most - most / 2)),
        request(Edit::Get, &nulls(most), &first),
        request(Edit::Delete, &nulls(most), &first),
    ]
}

/// Writes the calls to answers.in of a folder and the Rust's answers to answers.out, a line for a line.
pub fn record_calls(folder: &str, count: usize, seed: u64) -> Result<()> {
    let mut calls = BufWriter::new(File::create(format!("{folder}/answers.in"))?);
    let mut answers = BufWriter::new(File::create(format!("{folder}/answers.out"))?);
    let mut r = Random::new(seed);
    let mut made = 0;
    let mut limits = limit_requests().into_iter();
    while made < count {
        let limit = limits.next();
        let is_limit = limit.is_some();
        let request = limit.unwrap_or_else(|| some_request(&mut r, false, false));
        if let (true, Some(words)) = (is_limit || request.size() <= SIZE, words(&request)) {
            writeln!(calls, "{request}")?;
            writeln!(answers, "{words}")?;
            made += 1;
        }
    }
    calls.flush()?;
    answers.flush()
}
