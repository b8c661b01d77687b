// A call as it stands on a line of the console: `get R ; PATH`, `delete R ; PATH`, `concat L ; R`, `strip R`, `append A ; R`,
// `build N ; V`, each with the length of the result's buffer behind it if one likes.
use std::fmt;

#[derive(Clone, Copy, PartialEq, Eq, Debug)]
pub enum Edit {
    Get,
    Delete,
    Concat,
    Strip,
    Append,
    Build,
}

pub const EDITS: [(Edit, &str); 6] = [
    (Edit::Get, "get"),
    (Edit::Delete, "delete"),
    (Edit::Concat, "concat"),
    (Edit::Strip, "strip"),
    (Edit::Append, "append"),
    (Edit::Build, "build"),
];

impl Edit {
    pub fn word(self) -> &'static str {
        EDITS.iter().find(|e| e.0 == self).unwrap().1
    }

    /// Whether what it takes second is a path.
    pub fn has_path(self) -> bool {
        matches!(self, Edit::Get | Edit::Delete)
    }
}

/// `second` is the path of look-up and delete, and empty for strip. `room` is the length of the result's buffer.
#[derive(Clone, Debug)]
pub struct Request {
    pub edit: Edit,
    pub first: Vec<u8>,
    pub second: Vec<u8>,
    pub room: Option<usize>,
}

impl Request {
    /// Reads a line; what is wrong with it where it is none.
    pub fn from_line(line: &str) -> Result<Request, &'static str> {
        let (word, rest) = line.trim().split_once(char::is_whitespace).ok_or("no arguments")?;
        let edit = EDITS.iter().find(|e| e.1 == word).ok_or("no such call")?.0;
        let arguments: Vec<&str> = rest.split(';').map(str::trim).collect();
        let records = if edit == Edit::Strip { 1 } else { 2 };
        if arguments.len() != records && arguments.len() != records + 1 {
            return Err("another number of arguments");
        }
        let room = match arguments.get(records) {
            Some(length) => Some(length.parse().map_err(|_| "the length is not decimal")?),
            None => None,
        };
        let mut bytes = arguments[..records].iter().map(|text| from_hex(text).ok_or("not hexadecimal"));
        let first = bytes.next().unwrap()?;
        let second = bytes.next().unwrap_or(Ok(Vec::new()))?;
        Ok(Request { edit, first, second, room })
    }

    /// How many bytes are given in all.
    pub fn size(&self) -> usize {
        self.first.len() + self.second.len()
    }
}

impl fmt::Display for Request {
    fn fmt(&self, f: &mut fmt::Formatter) -> fmt::Result {
        write!(f, "{} {}", self.edit.word(), to_hex(&self.first))?;
        if self.edit != Edit::Strip {
            write!(f, " ; {}", to_hex(&self.second))?;
        }
        match self.room {
            Some(room) => write!(f, " ; {room}"),
            None => Ok(()),
        }
    }
}

/// Bytes in hexadecimal; spaces are passed over, and no bytes are `-`.
pub fn from_hex(text: &str) -> Option<Vec<u8>> {
    let digits: Vec<u8> = text.bytes().filter(|b| !b.is_ascii_whitespace()).collect();
    if digits == b"-" {
        return Some(Vec::new());
    }
    if digits.is_empty() || digits.len() % 2 != 0 {
        return None;
    }
    let digit = |b: u8| (b as char).to_digit(16).map(|d| d as u8);
    digits.chunks_exact(2).map(|pair| Some(digit(pair[0])? << 4 | digit(pair[1])?)).collect()
}

pub fn to_hex(bytes: &[u8]) -> String {
    if bytes.is_empty() {
        return "-".to_string();
    }
    let digit = |d: u8| char::from_digit(d as u32, 16).unwrap();
    bytes.iter().flat_map(|b| [digit(b >> 4), digit(b & 15)]).collect()
}
