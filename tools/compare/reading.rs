// Document 01's reading of a record, "Readable and sound", rules 1 to 6 in their order, with the cause of each number. It is
// written from the document's sentences and from neither side that is compared. The first fault gives the number; the reading goes
// on behind it, since the Rust may pass a fault over and meet another.

pub const RECORD_LIMIT: usize = 65_536;
pub const DEPTH_LIMIT: usize = 64;

/// A number, and which of the rule's faults it was.
#[derive(Clone, Copy, PartialEq, Eq, Debug)]
pub struct Fault {
    pub number: u32,
    pub cause: &'static str,
}

#[derive(Clone, Copy)]
struct Entry {
    top: u32,
    code: u32,
    length: usize,
}

const STRING: u32 = 1;
pub const NUMBER: u32 = 2;
pub const CONTAINER: u32 = 5;
pub const EXTENSION: u32 = 6;

fn word(s: &[u8], at: usize) -> u32 {
    u32::from_be_bytes(s[at..at + 4].try_into().unwrap())
}

fn entry(s: &[u8], at: usize) -> Entry {
    let w = word(s, at);
    Entry { top: w >> 31, code: w >> 28 & 7, length: (w & 0x0fff_ffff) as usize }
}

/// The bytes from one place to another, as far as there are any.
fn span(s: &[u8], from: usize, to: usize) -> &[u8] {
    &s[from.min(s.len())..to.min(s.len())]
}

/// The faults of a record, in the order of the rules. A record without any is readable.
pub fn faults(s: &[u8]) -> Vec<Fault> {
    Reader::read(s).faults
}

/// The largest count that a header of the record claims.
pub fn largest_count(s: &[u8]) -> usize {
    Reader::read(s).largest_count
}

struct Reader {
    faults: Vec<Fault>,
    largest_count: usize,
}

impl Reader {
    fn read(s: &[u8]) -> Reader {
        let mut reader = Reader { faults: Vec::new(), largest_count: 0 };
        if s.len() > RECORD_LIMIT {
            reader.fault(5, "over 65,536 bytes");
        }
        reader.read_container(s, 1);
        reader
    }

    fn fault(&mut self, number: u32, cause: &'static str) {
        self.faults.push(Fault { number, cause });
    }

    /// A record at a depth; the root is at 1.
    fn read_container(&mut self, s: &[u8], depth: usize) {
        if s.len() < 4 {
            return self.fault(1, "under 4 bytes");
        }
        let count = (word(s, 0) & 0x1fff_ffff) as usize;
        self.largest_count = self.largest_count.max(count);
        match word(s, 0) >> 29 {
            1 if depth > 1 => self.fault(2, "a scalar inside another record"),
            1 => self.read_scalar(s, count),
            4 => self.read_body(s, count, 0, depth),
            2 => self.read_body(s, 2 * count, count, depth),
            _ => self.fault(2, "no known kind"),
        }
    }

    fn read_scalar(&mut self, s: &[u8], count: usize) {
        if count != 0 {
            self.fault(2, "a scalar with a count");
        }
        if s.len() < 8 {
            return self.fault(1, "a scalar without its entry");
        }
        let e = entry(s, 4);
        self.read_entry(e, false);
        if e.code == CONTAINER {
            return self.fault(2, "a scalar that is a container");
        }
        if e.length != s.len() - 8 {
            self.fault(2, "a scalar's payload not ending at the end");
        }
        self.read_payload(e, &s[8..], 1);
    }

    fn read_entry(&mut self, e: Entry, is_name: bool) {
        if e.top == 1 {
            self.fault(2, "bit 31");
        }
        if e.code == 7 {
            self.fault(2, "code 7");
        } else if is_name && e.code != STRING {
            self.fault(2, "a name's code");
        }
        if matches!(e.code, 0 | 3 | 4) && e.length != 0 {
            self.fault(2, "null, true or false with a length");
        }
    }

    /// A container of so many entries, the first `names` of them names.
    fn read_body(&mut self, s: &[u8], count: usize, names: usize, depth: usize) {
        if depth > DEPTH_LIMIT {
            return self.fault(5, "deeper than 64");
        }
        let start = 4 + 4 * count;
        if s.len() < start {
            return self.fault(1, "the table not within the bytes");
        }
        let entries: Vec<Entry> = (0..count).map(|i| entry(s, 4 + 4 * i)).collect();
        for (i, e) in entries.iter().enumerate() {
            self.read_entry(*e, i < names);
        }
        let end = start + entries.iter().map(|e| e.length).sum::<usize>();
        if end < s.len() {
            self.fault(2, "bytes behind the payloads");
        }
        if end > s.len() {
            self.fault(2, "a payload outside");
        }
        let mut at = start;
        for e in entries {
            self.read_payload(e, span(s, at, at + e.length), depth);
            at += e.length;
        }
    }

    fn read_payload(&mut self, e: Entry, payload: &[u8], depth: usize) {
        match e.code {
            STRING if std::str::from_utf8(payload).is_err() => self.fault(3, "text"),
            NUMBER if !is_listed(payload) => self.fault(4, "a number not listed"),
            CONTAINER => self.read_container(payload, depth + 1),
            _ => {}
        }
    }
}

/// Whether document 01 lists a number's payload.
pub fn is_listed(payload: &[u8]) -> bool {
    let Some((first, rest)) = payload.split_first() else {
        return false;
    };
    match first {
        0x00 | 0x10 | 0x20 | 0x30 => rest.is_empty(),
        0x40 | 0x50 => matches!(rest.len(), 1 | 2 | 4 | 8),
        0x60 => rest.len() == 8,
        0x70 => matches!(rest.len(), 9 | 17 | 33),
        _ => false,
    }
}

/// The names of a readable record, or of a result that the Rust made of such records, and its items by their codes and payloads.
pub fn parts(s: &[u8]) -> (Vec<&[u8]>, Vec<(u32, &[u8])>) {
    let count = (word(s, 0) & 0x1fff_ffff) as usize;
    let (names, items) = match word(s, 0) >> 29 {
        1 => (0, 1),
        4 => (0, count),
        _ => (count, count),
    };
    let mut at = 4 + 4 * (names + items);
    let mut parts = Vec::with_capacity(names + items);
    for i in 0..names + items {
        let e = entry(s, 4 + 4 * i);
        parts.push((e.code, &s[at..at + e.length]));
        at += e.length;
    }
    let items = parts.split_off(names);
    (parts.into_iter().map(|part| part.1).collect(), items)
}

/// How deep the containers of a record or a result are nested; 0 of a scalar.
pub fn depth(s: &[u8]) -> usize {
    if word(s, 0) >> 29 == 1 {
        return 0;
    }
    let nested = parts(s).1.into_iter().filter(|item| item.0 == CONTAINER);
    1 + nested.map(|item| depth(item.1)).max().unwrap_or(0)
}
