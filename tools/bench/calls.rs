// One call, to the port and to the client's Rust.
use jsonb::{Answer, Edit, Error, KeyPath};

use crate::flights::flight_of;
use crate::pointers::pointer_of;
use crate::port;
use crate::port::Refusal;
use crate::previews::preview_of;
use crate::tree::{record, Tree};

pub struct Call {
    pub edit: Edit,
    pub first: Vec<u8>,
    pub second: Vec<u8>,
}

impl Call {
    pub fn new(edit: Edit, first: &Tree, second: &Tree) -> Call {
        let second = if edit == Edit::Strip { Vec::new() } else { record(second) };
        Call { edit, first: record(first), second }
    }

    pub fn ask_port<'a>(&self, out: &'a mut [u8]) -> Result<Option<&'a [u8]>, Refusal> {
        let (first, second) = (&self.first[..], &self.second[..]);
        match self.edit {
            Edit::Get => port::get_by_keypath(first, second, out),
            Edit::Delete => port::delete_by_keypath(first, second, out).map(Some),
            Edit::Concat => port::concat(first, second, out).map(Some),
            Edit::Strip => port::strip_nulls(first, out).map(Some),
            Edit::Append => port::append(first, second, out).map(Some),
            Edit::Build => port::build_object(first, second, out).map(Some),
        }
    }

    /// What the preview of an edit tells, where it has one.
    pub fn ask_preview(&self) -> Option<Result<usize, Refusal>> {
        preview_of(self.edit, &self.first, &self.second)
    }

    /// What the flight edit gives; an absence where the edit has none.
    pub fn ask_flight<'a>(&self, out: &'a mut [u8]) -> Result<Option<&'a [u8]>, Refusal> {
        flight_of(self.edit, &self.first, &self.second, out)
    }

    /// The steps of a path are read beforehand: the Rust has no path records.
    pub fn ask_rust(&self, steps: &[KeyPath]) -> Result<Answer, Error> {
        let (first, second) = (&self.first[..], &self.second[..]);
        match self.edit {
            Edit::Get => jsonb::get(first, steps),
            Edit::Delete => jsonb::delete(first, steps),
            Edit::Concat => jsonb::concat(first, second),
            Edit::Strip => jsonb::strip(first),
            Edit::Append => jsonb::append(first, second),
            Edit::Build => jsonb::build(first, second),
        }
    }

    pub fn steps(&self) -> Vec<KeyPath<'_>> {
        if self.edit.has_path() {
            return jsonb::steps(&self.second, false).expect("a path that is measured is none");
        }
        Vec::new()
    }

    /// The pointer that means what the path of a look-up means, where there is one.
    pub fn pointer(&self) -> Option<String> {
        if self.edit != Edit::Get {
            return None;
        }
        pointer_of(&self.first, &self.second)
    }

    /// The port's check of all that it is given, which is part of its every call.
    pub fn check(&self) -> Result<(), Refusal> {
        port::check(&self.first)?;
        if self.edit == Edit::Strip {
            return Ok(());
        }
        port::check(&self.second)
    }

    /// A check of each record that a flight edit takes; a path is none of them.
    pub fn check_records(&self, check: fn(&[u8]) -> Result<(), Refusal>) -> Result<(), Refusal> {
        check(&self.first)?;
        if self.edit != Edit::Concat {
            return Ok(());
        }
        check(&self.second)
    }

    /// Whether both sides give the same bytes, by a pointer too, and a preview tells how many. A refusal is nothing that is measured,
    /// and none of them.
    pub fn is_same(&self, out: &mut [u8]) -> bool {
        let theirs = self.ask_rust(&self.steps());
        let by_pointer = self.pointer().map_or(true, |pointer| is_rusts(port::get_by_pointer(&self.first, &pointer, out), &theirs));
        let foretold = self.ask_preview().map_or(true, |told| is_length(told, &theirs));
        by_pointer && foretold && is_rusts(self.ask_port(out), &theirs)
    }

    /// Whether the flight edit, which must take the records, gives the same bytes too.
    pub fn is_same_aboard(&self, out: &mut [u8]) -> bool {
        self.is_same(out) && is_rusts(self.ask_flight(out), &self.ask_rust(&self.steps()))
    }
}

fn is_rusts(ours: Result<Option<&[u8]>, Refusal>, theirs: &Result<Answer, Error>) -> bool {
    match (ours, theirs) {
        (Ok(Some(ours)), Ok(Answer::Result(theirs))) => ours == theirs,
        (Ok(None), Ok(Answer::Absent)) => true,
        _ => false,
    }
}

fn is_length(told: Result<usize, Refusal>, theirs: &Result<Answer, Error>) -> bool {
    matches!((told, theirs), (Ok(length), Ok(Answer::Result(theirs))) if length == theirs.len())
}
