// The list of differences: docs/DIFFERENCES.md. In a table whose first column is `call`, a row that starts with a call in
// backquotes is put to both sides: the third cell has the Rust's answer and the fourth ours. A row that starts with words is for
// the reader. What kind of difference it is, is worked out from the answers, so that the list of kinds is the document itself.
use std::collections::BTreeSet;

use jsonb::{decode_number, from_hex, number, read, Answer, Request};

use crate::codec::judge_read;
use crate::port;
use crate::sides::{compare, Ours, Verdict};

pub struct List {
    pub kinds: BTreeSet<String>,
    pub rows: usize,
    pub wrong: usize,
}

/// The first text in backquotes of a cell that starts with one.
fn quoted(cell: &str) -> Option<&str> {
    cell.trim().strip_prefix('`')?.split('`').next()
}

fn cells(line: &str) -> Option<Vec<&str>> {
    Some(line.trim().strip_prefix('|')?.strip_suffix('|')?.split('|').collect())
}

/// A scalar record of a number's payload.
fn number_record(payload: &[u8]) -> Vec<u8> {
    let mut record = vec![0x20, 0, 0, 0, 0x20, 0, 0, payload.len() as u8];
    record.extend(payload);
    record
}

fn checked(record: &[u8]) -> String {
    match port::check(record) {
        Ok(()) => "ok".to_string(),
        Err(refusal) => format!("refused {refusal}"),
    }
}

impl List {
    /// Both answers to the call of a row, in words.
    fn ask(&mut self, call: &str, buffer: &mut Vec<u8>) -> Option<(String, String)> {
        let bytes = |text: &str| from_hex(text.trim());
        if let Some(payload) = call.strip_prefix("number ") {
            let payload = bytes(payload)?;
            let ours = checked(&number_record(&payload));
            if let Verdict::Listed(kind) = judge_read(&payload, &decode_number(&payload), &ours) {
                self.kinds.insert(kind);
            }
            return Some((number(&payload).to_string(), ours));
        }
        if let Some(record) = call.strip_prefix("read ") {
            let record = bytes(record)?;
            return Some((read(&record).to_string(), checked(&record)));
        }
        let request = Request::from_line(call).ok()?;
        let (ours, theirs, verdict) = compare(&request, buffer);
        Some(self.take(&request, ours, theirs, verdict))
    }

    /// Notes the kind of difference, where there is one; gives both answers in words.
    fn take(&mut self, request: &Request, ours: Ours, theirs: Answer, verdict: Verdict) -> (String, String) {
        if let Verdict::Wrong(why) = verdict {
            self.wrong += 1;
            println!("{request}\n  {why}");
        }
        if let Verdict::Listed(kind) = verdict {
            self.kinds.insert(kind);
        }
        (theirs.to_string(), ours.to_string())
    }

    /// A difference that is too long to be written out.
    pub fn take_long(&mut self, request: &Request, buffer: &mut Vec<u8>) {
        let (ours, theirs, verdict) = compare(request, buffer);
        self.rows += 1;
        if !matches!(verdict, Verdict::Listed(_)) {
            self.wrong += 1;
            println!("{} of {} bytes is no difference", request.edit.word(), request.size());
        }
        self.take(request, ours, theirs, verdict);
    }

    /// One row with a call.
    fn read_row(&mut self, call: &str, cells: &[&str], buffer: &mut Vec<u8>) {
        self.rows += 1;
        let Some((theirs, ours)) = self.ask(call, buffer) else {
            self.wrong += 1;
            println!("{call}\n  is no call");
            return;
        };
        let said = (cells.get(2).and_then(|c| quoted(c)), cells.get(3).and_then(|c| quoted(c)));
        if said != (Some(&theirs[..]), Some(&ours[..])) {
            self.wrong += 1;
            println!("{call}\n  the Rust: {theirs}\n  here:     {ours}\n  the list says {said:?}");
        }
    }

    pub fn read(text: &str, buffer: &mut Vec<u8>) -> List {
        let mut list = List { kinds: BTreeSet::new(), rows: 0, wrong: 0 };
        let mut has_calls = false;
        for line in text.lines() {
            let Some(cells) = cells(line) else {
                has_calls = false;
                continue;
            };
            has_calls = has_calls || cells[0].trim() == "call";
            if let (true, Some(call)) = (has_calls, quoted(cells[0])) {
                list.read_row(call, &cells, buffer);
            }
        }
        list
    }
}
