// Random requests, the same for the same seed: records that are sound, unsorted or with repeated names, of every kind of item and
// number; paths that lead to something, to nothing, or are none; and damage.
use std::collections::BTreeMap;

use jsonb::{Edit, Request, EDITS};

use crate::flights::{DEEPEST, LONGEST};
use crate::reading::{largest_count, DEPTH_LIMIT, RECORD_LIMIT};
use crate::tree::{record, scalar_record, Tree};

/// A stream of numbers (splitmix64), the names that members mostly have, and how many of a hundred values are tamed.
pub struct Random {
    state: u64,
    names: &'static [&'static str],
    tamed: usize,
}

impl Random {
    /// Without the names that a pointer escapes, and with no value tamed: tests/rust-answers was recorded so.
    pub fn new(seed: u64) -> Random {
        Random { state: seed, names: &NAMES[..PLAIN], tamed: 0 }
    }

    pub fn with_all(seed: u64) -> Random {
        Random { state: seed, names: &NAMES, tamed: TAMED }
    }

    pub fn next(&mut self) -> u64 {
        self.state = self.state.wrapping_add(0x9e37_79b9_7f4a_7c15);
        let mut z = self.state;
        z = (z ^ z >> 30).wrapping_mul(0xbf58_476d_1ce4_e5b9);
        z = (z ^ z >> 27).wrapping_mul(0x94d0_49bb_1331_11eb);
        z ^ z >> 31
    }

    /// Below a number that is not 0.
    pub fn below(&mut self, n: usize) -> usize {
        (self.next() % n as u64) as usize
    }

    /// True in so many of a hundred cases.
    pub fn percent(&mut self, n: usize) -> bool {
        self.below(100) < n
    }

    pub fn of<'a, T>(&mut self, choices: &'a [T]) -> &'a T {
        &choices[self.below(choices.len())]
    }

    pub fn bytes(&mut self, n: usize) -> Vec<u8> {
        (0..n).map(|_| self.next() as u8).collect()
    }
}

// ---- values

/// How many of a hundred values have nothing in them that no flight record holds.
const TAMED: usize = 30;

/// How the names of objects stand.
#[derive(Clone, Copy)]
enum Order {
    Rising,
    Distinct,
    Any,
}

struct Shape {
    order: Order,
    width: usize,
    spoiled: bool,
}

/// Names, and behind so many of them those with a slash or a ~.
const PLAIN: usize = 16;

const NAMES: [&str; PLAIN + 6] = [
    "", "a", "b", "c", "aa", "ab", "zone", "heater", "limit", "0", "1", "-1", "a\0", "é", "\u{1f6f0}", "\u{ffff}", "/", "~", "~1",
    "~01", "a/b", "m~n/",
];

fn some_name(r: &mut Random) -> Vec<u8> {
    match r.below(20) {
        0 => "ab".repeat(r.below(40)).into_bytes(),
        1 => format!("{}", r.below(1000)).into_bytes(),
        _ => r.of(r.names).as_bytes().to_vec(),
    }
}

fn some_number(r: &mut Random) -> Vec<u8> {
    let first = *r.of(&[0x00u8, 0x10, 0x20, 0x30, 0x40, 0x40, 0x50, 0x50, 0x60, 0x70]);
    let length = match first {
        0x40 | 0x50 => *r.of(&[1, 2, 4, 8]),
        0x60 => 8,
        0x70 => *r.of(&[9, 17, 33]),
        _ => 0,
    };
    let mut payload = vec![first];
    payload.extend(r.bytes(length));
    payload
}

/// An item that no readable record has.
fn some_spoiled(r: &mut Random) -> Tree {
    match r.below(8) {
        0 => Tree::Spoiled(8 | r.below(8) as u32, Vec::new()),
        1 => Tree::Spoiled(7, Vec::new()),
        2 => Tree::Spoiled(*r.of(&[0, 3, 4]), vec![0x61]),
        3 => Tree::Spoiled(
            1,
            r.of(&[&[0xff][..], &[0xc0, 0x80], &[0xed, 0xa0, 0x80], &[0xf4, 0x90, 0x80, 0x80], &[0xe2, 0x82]]).to_vec(),
        ),
        4 => Tree::Spoiled(
            2,
            r.of(&[&[][..], &[0x01], &[0x00, 0x00], &[0x40], &[0x60, 0x00], &[0x70, 0x00], &[0x10, 0xff]]).to_vec(),
        ),
        5 => {
            let inner = if r.percent(50) { Tree::Null } else { some_spoiled(r) };
            Tree::Spoiled(5, scalar_record(&inner))
        }
        6 => {
            let length = r.below(6);
            Tree::Spoiled(5, r.bytes(length))
        }
        _ => {
            let mut inner = record(&some_tree(r, 1, &Shape { order: Order::Any, width: 3, spoiled: false }));
            spoil(r, &mut inner);
            Tree::Spoiled(5, inner)
        }
    }
}

/// How many of the kinds below are scalars.
const CONTAINERS: usize = 7;

fn some_tree(r: &mut Random, depth: usize, shape: &Shape) -> Tree {
    if shape.spoiled && r.percent(8) {
        return some_spoiled(r);
    }
    some_kind(r, depth, shape, 0)
}

/// A tree of any kind from one on: scalars stand below CONTAINERS.
fn some_kind(r: &mut Random, depth: usize, shape: &Shape, from: usize) -> Tree {
    match from + r.below(if depth == 0 { CONTAINERS } else { CONTAINERS + 5 } - from) {
        0 | 1 => Tree::Null,
        2 => Tree::False,
        3 => Tree::True,
        4 => Tree::Number(some_number(r)),
        5 => Tree::String(some_name(r)),
        6 => {
            let length = r.below(5);
            Tree::Extension(r.bytes(length))
        }
        7 | 8 => Tree::Array((0..r.below(shape.width + 1)).map(|_| some_tree(r, depth - 1, shape)).collect()),
        _ => Tree::Object(some_members(r, depth, shape)),
    }
}

fn some_members(r: &mut Random, depth: usize, shape: &Shape) -> Vec<(Vec<u8>, Tree)> {
    let count = r.below(shape.width + 1);
    let mut members: Vec<(Vec<u8>, Tree)> = Vec::new();
    for _ in 0..count {
        let again = !members.is_empty() && matches!(shape.order, Order::Any) && r.percent(20);
        let name = if again { r.of(&members).0.clone() } else { some_name(r) };
        if matches!(shape.order, Order::Any) || members.iter().all(|m| m.0 != name) {
            members.push((name, some_tree(r, depth - 1, shape)));
        }
    }
    if matches!(shape.order, Order::Rising) {
        members.sort_by(|m, n| m.0.cmp(&n.0));
    }
    members
}

/// So many containers, one in another.
fn some_nest(r: &mut Random, levels: usize) -> Tree {
    let mut tree = if r.percent(50) { Tree::Array(Vec::new()) } else { Tree::Object(Vec::new()) };
    for _ in 1..levels {
        tree = if r.percent(50) { Tree::Array(vec![tree]) } else { Tree::Object(vec![(some_name(r), tree)]) };
    }
    tree
}

/// An array or an object of many small members, and a scalar or an array of one long item, about as long as a record can be.
fn some_large(r: &mut Random) -> Tree {
    let room = RECORD_LIMIT - 8 - r.below(24) + r.below(3) * 4;
    match r.below(4) {
        0 => Tree::Extension(vec![0; room]),
        1 => Tree::Array(vec![Tree::String(vec![b'x'; room])]),
        2 => Tree::Array(vec![Tree::Null; room / 4]),
        _ => Tree::Object((0..300 + r.below(300)).map(|i| (format!("n{i:05}").into_bytes(), Tree::True)).collect()),
    }
}

/// A tree without what no flight record holds, which may be too deep for one. Only names of one byte a character are too long here.
fn tamed(tree: Tree) -> Tree {
    match tree {
        Tree::Number(payload) if !matches!(payload[0], 0x00 | 0x40 | 0x50) => Tree::Number(vec![0x00]),
        Tree::Extension(_) => Tree::Null,
        Tree::Array(items) => Tree::Array(items.into_iter().map(tamed).collect()),
        Tree::Object(members) => {
            let members: BTreeMap<_, _> = members.into_iter().map(|(name, value)| (tamed_name(name), tamed(value))).collect();
            Tree::Object(members.into_iter().collect())
        }
        other => other,
    }
}

fn tamed_name(mut name: Vec<u8>) -> Vec<u8> {
    name.truncate(LONGEST);
    if name.is_empty() {
        name.push(b'a');
    }
    name
}

/// Few values are flight records by chance: some are made so, and nest about as deep as these may.
fn some_value(r: &mut Random, spoiled: bool) -> Tree {
    if r.tamed == 0 || !r.percent(r.tamed) {
        return any_value(r, spoiled);
    }
    if r.percent(20) {
        let levels = DEEPEST - 2 + r.below(4);
        return tamed(some_nest(r, levels));
    }
    tamed(any_value(r, spoiled))
}

fn any_value(r: &mut Random, spoiled: bool) -> Tree {
    let order = *r.of(&[Order::Rising, Order::Rising, Order::Distinct, Order::Any]);
    match r.below(1000) {
        0 => some_large(r),
        1..=3 => {
            let levels = DEPTH_LIMIT - 2 + r.below(4);
            some_nest(r, levels)
        }
        4..=20 => some_tree(r, 2, &Shape { order, width: 60, spoiled }),
        21..=120 => some_tree(r, 2, &Shape { order, width: 3, spoiled }),
        121..=600 => some_kind(r, 2, &Shape { order, width: 3, spoiled }, CONTAINERS),
        _ => some_kind(r, 4, &Shape { order, width: 5, spoiled }, CONTAINERS),
    }
}

/// An array of strings, mostly; what object build takes for names.
fn some_names(r: &mut Random, count: usize) -> Tree {
    let mut names: Vec<Vec<u8>> = (0..count).map(|_| some_name(r)).collect();
    if r.percent(70) {
        names.sort();
        names.dedup();
    }
    let mut items: Vec<Tree> = names.into_iter().map(Tree::String).collect();
    if !items.is_empty() && r.percent(5) {
        let at = r.below(items.len());
        items[at] = Tree::Null;
    }
    Tree::Array(items)
}

// ---- paths

/// An index of any listed width; 0 as 00 too.
fn spelled(r: &mut Random, i: i64) -> Tree {
    if i == 0 && r.percent(50) {
        return Tree::Number(vec![0]);
    }
    let first = if i >= 0 && r.percent(50) { 0x50 } else { 0x40 };
    let fits = |width: usize| match first {
        0x50 => i < 1i64.checked_shl(8 * width as u32).unwrap_or(i64::MAX) || width == 8,
        _ => width == 8 || (i >> (8 * width - 1) == 0 || i >> (8 * width - 1) == -1),
    };
    let widths: Vec<usize> = [1, 2, 4, 8].into_iter().filter(|w| fits(*w)).collect();
    let width = *r.of(&widths);
    let mut payload = vec![first];
    payload.extend(&i.to_be_bytes()[8 - width..]);
    Tree::Number(payload)
}

fn some_index(r: &mut Random) -> i64 {
    *r.of(&[0, 1, 2, 5, -1, -2, -3, 255, 256, -129, 65_535, i32::MAX as i64, i32::MIN as i64])
}

/// A path that mostly leads to something in the tree, with a step more now and then that leads nowhere or is none.
fn some_path(r: &mut Random, tree: &Tree) -> Tree {
    let mut steps = Vec::new();
    let mut here = tree;
    while r.percent(75) {
        here = match here {
            Tree::Array(items) if !items.is_empty() => {
                let i = r.below(items.len());
                let back = if r.percent(30) { i as i64 - items.len() as i64 } else { i as i64 };
                steps.push(spelled(r, back));
                &items[i]
            }
            Tree::Object(members) if !members.is_empty() => {
                let member = &members[r.below(members.len())];
                let index = std::str::from_utf8(&member.0).ok().and_then(|n| n.parse::<i32>().ok().filter(|i| i.to_string() == n));
                steps.push(match index {
                    Some(i) if r.percent(50) => spelled(r, i as i64),
                    _ => Tree::String(member.0.clone()),
                });
                &member.1
            }
            _ => break,
        };
    }
    if r.percent(25) {
        steps.push(match r.below(20) {
            0 => Tree::Null,
            1 => Tree::Number(some_number(r)),
            2..=10 => {
                let i = some_index(r);
                spelled(r, i)
            }
            _ => Tree::String(some_name(r)),
        });
    }
    Tree::Array(steps)
}

// ---- damage

/// Changes some bytes of a record.
fn spoil(r: &mut Random, bytes: &mut Vec<u8>) {
    if bytes.is_empty() {
        return;
    }
    // An entry, mostly one of the root's table.
    let entry = 4 * r.below((bytes.len() / 4).clamp(1, 12));
    let at = r.below(bytes.len());
    match r.below(10) {
        0 => bytes[entry] ^= 0x80,
        1 => bytes[entry] |= 0x70,
        2 => bytes[entry] ^= 0x10 << r.below(3),
        3 => {
            let low = (entry + 3).min(bytes.len() - 1);
            bytes[low] = bytes[low].wrapping_add(if r.percent(50) { 1 } else { 255 });
        }
        4 => bytes.truncate(at),
        5 => {
            let length = 1 + r.below(4);
            let more = r.bytes(length);
            bytes.extend(more);
        }
        6 => bytes[at] ^= 1 << r.below(8),
        7 => bytes[at] = r.next() as u8,
        8 => bytes[0] = *r.of(&[0x00, 0x20, 0x40, 0x60, 0x80, 0xa0, 0xc0, 0xe0]),
        _ => {
            let last = bytes.len() - 1;
            bytes[last] = 0xff;
        }
    }
}

/// Short bytes with a header that may be one.
fn some_bytes(r: &mut Random) -> Vec<u8> {
    let mut bytes = vec![*r.of(&[0x80, 0x40, 0x20, 0x00]), 0, 0, r.below(3) as u8];
    for _ in 0..r.below(4) {
        bytes.extend([(r.below(16) << 4) as u8, 0, 0, r.below(3) as u8]);
    }
    let length = r.below(4);
    bytes.extend(r.bytes(length));
    let length = if r.percent(20) { r.below(bytes.len() + 1) } else { bytes.len() };
    bytes.truncate(length);
    bytes
}

/// The Rust steps through a count of millions one by one, which takes it seconds; such a record is not made.
const COUNTED: usize = 1 << 16;

fn damaged(r: &mut Random, tree: &Tree) -> Vec<u8> {
    let mut bytes = if r.percent(20) { some_bytes(r) } else { record(tree) };
    for _ in 0..r.below(3) {
        spoil(r, &mut bytes);
    }
    if largest_count(&bytes) > COUNTED {
        return damaged(r, tree);
    }
    bytes
}

// ---- requests

/// A request on readable records, or one in which some may be damaged. With `room` the result's buffer may be too short for it.
pub fn some_request(r: &mut Random, with_damage: bool, with_room: bool) -> Request {
    let edit = EDITS[r.below(EDITS.len())].0;
    let mut first = some_value(r, with_damage);
    let mut second = some_value(r, with_damage);
    match edit {
        Edit::Get | Edit::Delete => second = some_path(r, &first),
        Edit::Append if r.percent(80) => first = as_array(first),
        Edit::Concat if r.percent(50) => (first, second) = (as_object(r, first), as_object(r, second)),
        Edit::Build if r.percent(90) => {
            second = as_array(second);
            let count = if let Tree::Array(items) = &second { items.len() } else { 0 };
            first = some_names(r, count);
            if let (Tree::Array(names), Tree::Array(values)) = (&first, &mut second) {
                if r.percent(95) {
                    values.truncate(names.len());
                }
            }
        }
        _ => {}
    }
    let spoiled = with_damage && r.percent(60);
    let mut bytes = |tree: &Tree, chance: usize| {
        if spoiled && r.percent(chance) {
            damaged(r, tree)
        } else {
            record(tree)
        }
    };
    let one = bytes(&first, 70);
    let two = if edit == Edit::Strip { Vec::new() } else { bytes(&second, 40) };
    let room = if with_room && r.percent(15) { Some(r.below(one.len() + two.len() + 16)) } else { None };
    Request { edit, first: one, second: two, room }
}

fn as_array(tree: Tree) -> Tree {
    match tree {
        Tree::Array(_) => tree,
        Tree::Object(members) => Tree::Array(members.into_iter().map(|m| m.1).collect()),
        other => Tree::Array(vec![other]),
    }
}

fn as_object(r: &mut Random, tree: Tree) -> Tree {
    match tree {
        Tree::Array(items) => Tree::Object(items.into_iter().map(|t| (some_name(r), t)).collect()),
        other => other,
    }
}
