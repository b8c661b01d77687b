// The records that are measured: tables such as a board has, small, usual and full, sound ones and the same with names that fall.
use jsonb::Edit;

use crate::calls::Call;
use crate::tree::{record, Tree};

/// No record is longer.
pub const RECORD_LIMIT: usize = 65_536;

/// A record, a path that leads to something in it, and what it is overlaid with.
pub struct Table {
    pub name: &'static str,
    pub tree: Tree,
    pub path: Tree,
    pub overlay: Tree,
}

impl Table {
    fn changed(self, change: fn(Tree) -> Tree) -> Table {
        Table { tree: changed(&self.tree, change), overlay: changed(&self.overlay, change), ..self }
    }
}

// ---- values

pub fn text(text: &str) -> Tree {
    Tree::String(text.as_bytes().to_vec())
}

fn flag(on: bool) -> Tree {
    if on {
        Tree::True
    } else {
        Tree::False
    }
}

/// An integer, in the fewest bytes that hold it.
pub fn int(v: i64) -> Tree {
    if v == 0 {
        return Tree::Number(vec![0x00]);
    }
    let (first, width) = match v {
        1..=0xff => (0x50, 1),
        1..=0xffff => (0x50, 2),
        1..=0xffff_ffff => (0x50, 4),
        1.. => (0x50, 8),
        -0x80.. => (0x40, 1),
        -0x8000.. => (0x40, 2),
        -0x8000_0000.. => (0x40, 4),
        _ => (0x40, 8),
    };
    let mut payload = vec![first];
    payload.extend(&v.to_be_bytes()[8 - width..]);
    Tree::Number(payload)
}

/// The first bytes of a float and of an unsigned integer.
const FLOAT: u8 = 0x60;

const UNSIGNED: u8 = 0x50;

fn float(v: f64) -> Tree {
    let mut payload = vec![FLOAT];
    payload.extend(v.to_bits().to_be_bytes());
    Tree::Number(payload)
}

/// An object, its names put in byte order.
fn object<N: AsRef<str>>(members: Vec<(N, Tree)>) -> Tree {
    let mut members: Vec<_> = members.into_iter().map(|(name, value)| (name.as_ref().as_bytes().to_vec(), value)).collect();
    members.sort_by(|m, n| m.0.cmp(&n.0));
    Tree::Object(members)
}

// ---- what a board has

fn switch(i: usize) -> Tree {
    object(vec![
        ("label", text(["bus heater", "radio", "reaction wheel", "camera"][i % 4])),
        ("limit_ma", int(150 + 25 * i as i64)),
        ("note", if i % 3 == 0 { Tree::Null } else { text("nominal") }),
        ("on", flag(i % 2 == 0)),
    ])
}

/// Switches in groups, nested.
fn switches(groups: usize, each: usize) -> Tree {
    let group = |g: usize| object((0..each).map(|i| (format!("sw-{i:02}"), switch(g + i))).collect());
    object((0..groups).map(|g| (format!("group-{g:02}"), group(g))).collect())
}

fn heaters(count: usize) -> Tree {
    let heater = |i: usize| {
        object(vec![
            ("duty", if i % 4 == 0 { Tree::Null } else { int(5 * (i % 20) as i64) }),
            ("max", float(40.5 + i as f64)),
            ("min", float(-10.25 - i as f64)),
            ("mode", text(if i % 2 == 0 { "auto" } else { "manual" })),
        ])
    };
    object((0..count).map(|i| (format!("heater-{i:03}"), heater(i))).collect())
}

fn pass(i: usize) -> Tree {
    let rise = 1_794_800_000 + 5_600 * i as i64;
    object(vec![
        ("elevation", float(12.5 + (i % 60) as f64)),
        ("links", Tree::Array(vec![text("uhf"), text("s-band")])),
        ("rise", int(rise)),
        ("set", int(rise + 620)),
        ("station", text(["Svalbard", "Kiruna", "Troll", "Fairbanks"][i % 4])),
        ("uplink", if i % 3 == 0 { Tree::Null } else { Tree::True }),
    ])
}

fn passes(count: usize) -> Tree {
    Tree::Array((0..count).map(pass).collect())
}

/// A flat table: a number under each name, every tenth null.
pub fn limits(count: usize) -> Tree {
    object((0..count).map(|i| (format!("p{i:04}"), if i % 10 == 0 { Tree::Null } else { int(i as i64) })).collect())
}

fn stations() -> Tree {
    Tree::Array(vec![text("Svalbard uhf 437.125 MHz up"), text("Kiruna s-band 2.245 GHz down"), text("Troll"), int(9600)])
}

// ---- sizes and orders

/// Every so many members of an object, or items of an array, so that an object overlaid with them keeps its length.
fn some_of(tree: &Tree, by: usize) -> Tree {
    match tree {
        Tree::Object(members) => Tree::Object(members.iter().step_by(by).cloned().collect()),
        Tree::Array(items) => Tree::Array(items.iter().step_by(by).cloned().collect()),
        scalar => scalar.clone(),
    }
}

/// The most that fits into a record of 65,536 bytes.
fn most(make: impl Fn(usize) -> Tree) -> usize {
    let (mut fits, mut not) = (1, RECORD_LIMIT);
    while fits + 1 < not {
        let middle = (fits + not) / 2;
        if record(&make(middle)).len() <= RECORD_LIMIT {
            fits = middle;
        } else {
            not = middle;
        }
    }
    fits
}

/// As many members as leave room for a text under the last name that brings the object to exactly 65,536 bytes.
fn full(make: impl Fn(usize) -> Tree) -> Tree {
    let with_text = |count: usize, length: usize| {
        let Tree::Object(mut members) = make(count) else {
            panic!("only an object is filled");
        };
        members.push((b"zz".to_vec(), Tree::String(vec![b'-'; length])));
        Tree::Object(members)
    };
    let count = most(|count| with_text(count, 0));
    with_text(count, RECORD_LIMIT - record(&with_text(count, 0)).len())
}

/// A tree with a change made in it everywhere.
fn changed(tree: &Tree, change: fn(Tree) -> Tree) -> Tree {
    change(match tree {
        Tree::Object(members) => Tree::Object(members.iter().map(|(name, value)| (name.clone(), changed(value, change))).collect()),
        Tree::Array(items) => Tree::Array(items.iter().map(|item| changed(item, change)).collect()),
        scalar => scalar.clone(),
    })
}

/// An object with its names in falling order.
fn fallen(tree: Tree) -> Tree {
    match tree {
        Tree::Object(members) => Tree::Object(members.into_iter().rev().collect()),
        other => other,
    }
}

/// A float's bits as an integer, which has as many bytes: no flight record holds a float.
fn whole(tree: Tree) -> Tree {
    match tree {
        Tree::Number(mut payload) if payload[0] == FLOAT => {
            payload[0] = UNSIGNED;
            Tree::Number(payload)
        }
        other => other,
    }
}

// ---- what is measured

pub fn sound_tables() -> Vec<Table> {
    let table = |name, tree: Tree, path, by| {
        let overlay = some_of(&tree, by);
        Table { name, tree, path: Tree::Array(path), overlay }
    };
    // One pass more must fit, for append.
    let many = most(|count| passes(count + 1));
    vec![
        table("small: a switch", switch(2), vec![text("note")], 2),
        table("small: stations", stations(), vec![int(1)], 2),
        table("usual: switches in groups", switches(4, 9), vec![text("group-02"), text("sw-06"), text("on")], 2),
        table("usual: heater limits", heaters(40), vec![text("heater-027"), text("max")], 2),
        table("usual: telemetry limits", limits(150), vec![text("p0100")], 2),
        table("usual: pass plan", passes(24), vec![int(16), text("station")], 4),
        table("full: heater limits", full(heaters), vec![text("heater-400"), text("max")], 2),
        table("full: telemetry limits", full(limits), vec![text("p2500")], 2),
        table("full: pass plan", passes(many), vec![int(300), text("station")], many),
    ]
}

/// The small and the usual tables with names that fall.
pub fn fallen_tables() -> Vec<Table> {
    let short = sound_tables().into_iter().filter(|table| !table.name.starts_with("full"));
    short.map(|table| table.changed(fallen)).collect()
}

/// The sound tables as flight records.
pub fn flight_tables() -> Vec<Table> {
    sound_tables().into_iter().map(|table| table.changed(whole)).collect()
}

/// The calls that are measured: on a record with a path, and on two records as one. An object is built of its own names and values,
/// an array takes one more item.
fn calls(tree: &Tree, path: &Tree, left: &Tree, right: &Tree) -> Vec<Call> {
    let last = match tree {
        Tree::Object(members) => {
            let names = members.iter().map(|member| Tree::String(member.0.clone())).collect();
            let values = members.iter().map(|member| member.1.clone()).collect();
            Call::new(Edit::Build, &Tree::Array(names), &Tree::Array(values))
        }
        _ => Call::new(Edit::Append, tree, &pass(7)),
    };
    vec![
        Call::new(Edit::Get, tree, path),
        Call::new(Edit::Delete, tree, path),
        Call::new(Edit::Concat, left, right),
        Call::new(Edit::Strip, tree, &Tree::Null),
        last,
    ]
}

pub fn calls_on(table: &Table) -> Vec<Call> {
    calls(&table.tree, &table.path, &table.tree, &table.overlay)
}

/// The calls that have flight edits, and a concat of an object with an array, in which the object is one level deeper. It is half the
/// table, so that there is room for what stands around it.
pub fn flights_on(table: &Table) -> Vec<(&'static str, Call)> {
    let edits = [Edit::Delete, Edit::Concat, Edit::Strip];
    let plain = calls_on(table).into_iter().filter(|call| edits.contains(&call.edit));
    let mut calls: Vec<_> = plain.map(|call| (call.edit.word(), call)).collect();
    if let Tree::Object(_) = table.tree {
        calls.push(("concat with an array", Call::new(Edit::Concat, &table.overlay, &stations())));
    }
    calls
}

pub fn look_up_on(table: &Table) -> Call {
    Call::new(Edit::Get, &table.tree, &table.path)
}

/// Texts, whose every byte is read: of one byte a character, and of two.
pub fn texts() -> Vec<(&'static str, Vec<u8>)> {
    let room = RECORD_LIMIT - 8;
    vec![
        ("full: a text, ASCII", record(&Tree::String(b"All systems nominal. ".iter().copied().cycle().take(room).collect()))),
        ("full: a text, two bytes a character", record(&Tree::String("é".repeat(room / 2).into_bytes()))),
    ]
}

/// Texts whose characters are counted: names as tables have them, a line, and as much as a record holds.
pub fn counted_texts() -> Vec<(&'static str, Vec<u8>)> {
    let line = "Température du panneau solaire nord: 40 °C, limite 45 °C, à relever au prochain passage";
    let full = |text: &str| text.repeat(RECORD_LIMIT / text.len()).into_bytes();
    vec![
        ("a name, ASCII", b"heater_limit".to_vec()),
        ("a name, an accent in it", "température".as_bytes().to_vec()),
        ("a name, three bytes a character", "温度上限".as_bytes().to_vec()),
        ("a line, accents in it", line.as_bytes().to_vec()),
        ("full: ASCII", full("All systems nominal. ")),
        ("full: lines with accents", full(line)),
        ("full: two bytes a character", full("é")),
        ("full: three bytes a character", full("温")),
        ("full: four bytes a character", full("🚀")),
    ]
}

// ---- growth

/// Calls on an array of so many nulls, the last of which the path finds.
pub fn calls_on_items(count: usize) -> Vec<Call> {
    let nulls = |count: usize| Tree::Array(vec![Tree::Null; count]);
    calls(&nulls(count), &Tree::Array(vec![int(-1)]), &nulls(count / 2), &nulls(count / 2))
}

/// Calls on an object of so many members whose names rise, the last of which the path finds. Concat has every second on each side.
pub fn calls_on_members(count: usize) -> Vec<Call> {
    let tree = limits(count);
    let Tree::Object(members) = &tree else {
        unreachable!();
    };
    let half = |from: usize| Tree::Object(members.iter().skip(from).step_by(2).cloned().collect());
    let last = Tree::String(members[count - 1].0.clone());
    calls(&tree, &Tree::Array(vec![last]), &half(0), &half(1))
}

// ---- the search

/// How many members fit into an object with names of so many bytes.
pub fn count_searched(length: usize) -> usize {
    (RECORD_LIMIT - 4) / (8 + length)
}

/// Calls on an object of so many members, whose names fall: what the search takes longest for.
pub fn calls_on_search(length: usize) -> Vec<Call> {
    let name = |i: usize| {
        let mut name = vec![b'a'; length];
        name[length - 2] = (i / 128) as u8;
        name[length - 1] = (i % 128) as u8;
        name
    };
    let tree = Tree::Object((0..count_searched(length)).rev().map(|i| (name(i), Tree::True)).collect());
    calls(&tree, &Tree::Array(vec![Tree::String(name(0))]), &tree, &tree)
}
