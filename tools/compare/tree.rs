// Records as values, and their bytes: what the layout of document 01 makes of a value, written apart from the port and the Rust.
use jsonb::{Edit, Request};

/// A record taken apart. `Spoiled` is an item with any bit 31, code and payload.
#[derive(Clone)]
pub enum Tree {
    Null,
    False,
    True,
    Number(Vec<u8>),
    String(Vec<u8>),
    Extension(Vec<u8>),
    Array(Vec<Tree>),
    Object(Vec<(Vec<u8>, Tree)>),
    Spoiled(u32, Vec<u8>),
}

// ---- encoding

fn part(tree: &Tree) -> (u32, Vec<u8>) {
    match tree {
        Tree::Null => (0, Vec::new()),
        Tree::String(b) => (1, b.clone()),
        Tree::Number(b) => (2, b.clone()),
        Tree::False => (3, Vec::new()),
        Tree::True => (4, Vec::new()),
        Tree::Array(_) | Tree::Object(_) => (5, record(tree)),
        Tree::Extension(b) => (6, b.clone()),
        Tree::Spoiled(top, b) => (*top, b.clone()),
    }
}

fn table(header: u32, parts: &[(u32, Vec<u8>)]) -> Vec<u8> {
    let mut out = header.to_be_bytes().to_vec();
    for (top, payload) in parts {
        out.extend((top << 28 | payload.len() as u32).to_be_bytes());
    }
    for (_, payload) in parts {
        out.extend(payload);
    }
    out
}

/// An item behind a scalar's header: no record where it is a container.
pub fn scalar_record(item: &Tree) -> Vec<u8> {
    table(0x2000_0000, &[part(item)])
}

pub fn record(tree: &Tree) -> Vec<u8> {
    match tree {
        Tree::Array(items) => table(0x8000_0000 | items.len() as u32, &items.iter().map(part).collect::<Vec<_>>()),
        Tree::Object(members) => {
            let names = members.iter().map(|m| (1, m.0.clone()));
            let parts: Vec<_> = names.chain(members.iter().map(|m| part(&m.1))).collect();
            table(0x4000_0000 | members.len() as u32, &parts)
        }
        scalar => scalar_record(scalar),
    }
}

/// So many arrays, one in another, the innermost one given.
pub fn nested(levels: usize, innermost: Tree) -> Tree {
    (1..levels).fold(innermost, |tree, _| Tree::Array(vec![tree]))
}

/// A request on these values; strip takes the first alone.
pub fn request(edit: Edit, first: &Tree, second: &Tree) -> Request {
    let second = if edit == Edit::Strip { Vec::new() } else { record(second) };
    Request { edit, first: record(first), second, room: None }
}
