// The client's Rust and the port, side by side in one process: the same records, paths and buffers to both, every answer compared.
//
//   compare list FILE              the differences that FILE, docs/DIFFERENCES.md, lists: each is put to both sides
//   compare random FILE COUNT SEED the same, and then so many random calls
//   compare codec FILE COUNT SEED CONSOLE
//                                  the same, and then the number codec: numbers of every kind, so many of them random, and payloads
//                                  to the program CONSOLE, since the functions for C have no codec
//   compare texts COUNT SEED       the text check beside the Rust's standard library: every text of up to three bytes, and so many
//                                  random ones
//   compare record FOLDER COUNT SEED
//                                  calls on readable records, and the Rust's answers to them, for tests/rust-answers
//
// It ends with 1 where an answer is other than it should be, and prints the call, which the console takes as it stands.
mod codec;
mod flights;
mod list;
mod numbers;
mod pointers;
#[path = "../../examples/rust/jsonb.rs"]
mod port;
mod previews;
mod random;
mod reading;
mod recording;
mod sides;
mod tally;
mod texts;
mod tree;

use std::process::exit;

use codec::compare_codec;
use jsonb::{Edit, Memory, Request};
use list::List;
use random::{some_request, Random};
use reading::{DEPTH_LIMIT, RECORD_LIMIT};
use recording::record_calls;
use sides::compare;
use tally::{spaced, Answered, Tally};
use texts::compare_texts;
use tree::{nested, request, Tree};

#[global_allocator]
static MEMORY: Memory = Memory;

// The Rust recurses without a limit; the deepest of the records made here want a fraction of this.
const STACK: usize = 1 << 28;

// ---- what is too long for a line of the list

/// The limits of size and depth, which the Rust has not.
fn long_requests() -> Vec<Request> {
    let no_steps = Tree::Array(Vec::new());
    let twice = Tree::Object(vec![(Vec::new(), Tree::True), (Vec::new(), Tree::True)]);
    let full = Tree::Extension(vec![0; RECORD_LIMIT - 8]);
    let text = Tree::String(vec![b'a'; RECORD_LIMIT - 7]);
    vec![
        request(Edit::Strip, &text, &Tree::Null),
        request(Edit::Delete, &text, &no_steps),
        request(Edit::Strip, &nested(DEPTH_LIMIT + 1, Tree::Array(Vec::new())), &Tree::Null),
        request(Edit::Strip, &Tree::Array(vec![twice, nested(DEPTH_LIMIT, Tree::Array(Vec::new()))]), &Tree::Null),
        request(Edit::Append, &no_steps, &nested(DEPTH_LIMIT, Tree::Array(Vec::new()))),
        request(Edit::Append, &Tree::Array(vec![Tree::Null]), &full),
    ]
}

fn read_list(path: &str, buffer: &mut Vec<u8>) -> List {
    let text = std::fs::read_to_string(path).unwrap_or_else(|error| {
        eprintln!("compare: {path}: {error}");
        exit(2)
    });
    let mut list = List::read(&text, buffer);
    for request in long_requests() {
        list.take_long(&request, buffer);
    }
    println!("{} rows of {path} were put to both sides, {} were otherwise", list.rows, list.wrong);
    list
}

// ---- random calls

fn random_calls(list: &List, count: usize, seed: u64, buffer: &mut Vec<u8>) -> bool {
    let mut r = Random::with_all(seed);
    let mut tally = Tally::new(list, count);
    for _ in 0..count {
        let with_damage = r.percent(40);
        let request = some_request(&mut r, with_damage, true);
        let (ours, theirs, verdict) = compare(&request, buffer);
        tally.note(Answered { call: &request, size: request.size(), theirs: &theirs, ours: &ours }, verdict);
    }
    println!("{} random calls, seed {seed}", spaced(count));
    tally.sum_up()
}

// ---- the program

fn run(arguments: &[String]) -> bool {
    let mut buffer = Vec::new();
    let words: Vec<&str> = arguments.iter().map(String::as_str).collect();
    match words[..] {
        ["list", path] => read_list(path, &mut buffer).wrong == 0,
        ["random", path, count, seed] => {
            let (Ok(count), Ok(seed)) = (count.parse(), seed.parse()) else { return usage() };
            let list = read_list(path, &mut buffer);
            let alike = random_calls(&list, count, seed, &mut buffer);
            list.wrong == 0 && alike
        }
        ["codec", path, count, seed, console] => {
            let (Ok(count), Ok(seed)) = (count.parse(), seed.parse()) else { return usage() };
            let mut list = read_list(path, &mut buffer);
            let alike = compare_codec(&mut list, console, count, seed);
            list.wrong == 0 && alike
        }
        ["texts", count, seed] => {
            let (Ok(count), Ok(seed)) = (count.parse(), seed.parse()) else { return usage() };
            compare_texts(count, seed)
        }
        ["record", folder, count, seed] => {
            let (Ok(count), Ok(seed)) = (count.parse(), seed.parse()) else { return usage() };
            record_calls(folder, count, seed).map_err(|error| eprintln!("compare: {folder}: {error}")).is_ok()
        }
        _ => usage(),
    }
}

fn usage() -> bool {
    eprintln!("usage: compare list FILE | compare random FILE COUNT SEED | compare codec FILE COUNT SEED CONSOLE");
    eprintln!("     | compare texts COUNT SEED | compare record FOLDER COUNT SEED");
    false
}

fn main() {
    std::panic::set_hook(Box::new(|_| {}));
    let arguments: Vec<String> = std::env::args().skip(1).collect();
    let thread = std::thread::Builder::new().stack_size(STACK).spawn(move || run(&arguments)).expect("a thread");
    exit(match thread.join() {
        Ok(true) => 0,
        Ok(false) => 1,
        Err(_) => {
            eprintln!("compare: it panicked itself");
            2
        }
    });
}
