// The port's time beside that of the client's Rust: both in one process, on the same records, in turns.
//
//   bench times      the tables of docs/PERFORMANCE.md
//   bench answers    no times: whether both sides give the same bytes to every call that is measured
mod calls;
#[path = "../compare/flights.rs"]
mod flights;
#[path = "../compare/pointers.rs"]
mod pointers;
#[path = "../../examples/rust/jsonb.rs"]
mod port;
#[path = "../compare/previews.rs"]
mod previews;
// Shared with the comparison, which uses more of these.
#[allow(dead_code)]
#[path = "../compare/reading.rs"]
mod reading;
mod tables;
mod timing;
#[allow(dead_code)]
#[path = "../compare/tree.rs"]
mod tree;

use std::hint::black_box;
use std::process::exit;

use jsonb::Edit;

use calls::Call;
use flights::is_flight;
use tables::{
    calls_on, calls_on_items, calls_on_members, calls_on_search, count_searched, counted_texts, fallen_tables, flight_tables,
    flights_on, look_up_on, sound_tables, texts, Table,
};
use timing::{median, rounds, time};
use tree::record;

// The Rust recurses without a limit.
const STACK: usize = 1 << 26;

const MICRO: f64 = 1e3;

const MILLI: f64 = 1e6;

/// How many items and members the growth is measured from and to. An object of 16,000 members is over 65,536 bytes.
const ITEMS: [usize; 2] = [4_000, 16_000];

const MEMBERS: [usize; 2] = [1_000, 4_000];

/// The lengths of names that the search is measured with.
const SEARCHED: [usize; 3] = [2, 4, 8];

// ---- tables

fn say_check(name: &str, bytes: &[u8], out: &mut [u8]) {
    let mut copy = || black_box(&mut out[..bytes.len()]).copy_from_slice(black_box(bytes));
    let times = rounds([&mut || port::check(black_box(bytes)).unwrap(), &mut copy]);
    let of = |i: usize| median(times.iter().map(|round| round[i] / bytes.len() as f64));
    println!("| {name} | {} | {:.2} | {:.3} |", bytes.len(), of(0), of(1));
}

/// The times of the text check, and of the Rust's standard library: whether the bytes are UTF-8, and then the count.
fn say_text(name: &str, text: &[u8]) {
    let times = rounds([
        &mut || {
            black_box(port::check_text(black_box(text)).unwrap());
        },
        &mut || {
            black_box(count_twice(black_box(text)).unwrap());
        },
    ]);
    let of = |i: usize| median(times.iter().map(|round| round[i]));
    println!(
        "| {name} | {} | {:.1} | {:.1} | {:.2} |",
        text.len(),
        of(0),
        of(1),
        median(times.iter().map(|round| round[0] / round[1])),
    );
}

/// How the characters of a text are counted without the text check's number.
fn count_twice(text: &[u8]) -> Option<usize> {
    std::str::from_utf8(text).ok().map(|text| text.chars().count())
}

/// The times of a call and of the check in it, and of the Rust.
fn say_call(name: &str, call: &Call, out: &mut [u8]) {
    let steps = call.steps();
    let times = rounds([
        &mut || {
            let _ = black_box(call.ask_port(black_box(out)));
        },
        &mut || {
            let _ = black_box(call.check());
        },
        &mut || {
            let _ = black_box(call.ask_rust(black_box(&steps)));
        },
    ]);
    let of = |i: usize| median(times.iter().map(|round| round[i] / MICRO));
    println!(
        "| {name} | {} | {:.2} | {:.2} | {:.2} | {:.2} | {:.2} |",
        call.edit.word(),
        of(0),
        of(1),
        of(2),
        median(times.iter().map(|round| round[0] / round[2])),
        median(times.iter().map(|round| (round[0] - round[1]) / round[2])),
    );
}

fn say_calls(tables: &[Table], out: &mut [u8]) {
    println!("| record | call | ours, us | of it the check | the Rust, us | ours to the Rust's | the same without the check |");
    println!("|---|---|---:|---:|---:|---:|---:|");
    for table in tables {
        for call in calls_on(table) {
            say_call(table.name, &call, out);
        }
    }
}

/// The times of look-up by a pointer, by the path that means the same, of the record's check in both, and of the Rust by the path.
fn say_pointer(name: &str, call: &Call, out: &mut [u8]) {
    let pointer = call.pointer().expect("a path that is measured has a pointer");
    let steps = call.steps();
    let mut room = vec![0; port::ROOM];
    let times = rounds([
        &mut || {
            let _ = black_box(port::get_by_pointer(black_box(&call.first), black_box(&pointer), black_box(&mut room)));
        },
        &mut || {
            let _ = black_box(call.ask_port(black_box(out)));
        },
        &mut || {
            let _ = black_box(port::check(black_box(&call.first)));
        },
        &mut || {
            let _ = black_box(call.ask_rust(black_box(&steps)));
        },
    ]);
    let of = |i: usize| median(times.iter().map(|round| round[i] / MICRO));
    println!(
        "| {name} | `{pointer}` | {:.2} | {:.2} | {:.2} | {:.2} | {:.2} | {:.2} | {:.2} |",
        of(0),
        of(1),
        of(2),
        of(3),
        median(times.iter().map(|round| round[0] / round[1])),
        median(times.iter().map(|round| round[0] / round[3])),
        median(times.iter().map(|round| (round[0] - round[2]) / round[3])),
    );
}

fn say_pointers(tables: &[Table], out: &mut [u8]) {
    println!(
        "| record | pointer | ours, us | ours by the path | of both the record's check | the Rust by the path, us \
         | pointer to path | pointer to the Rust's path | the same without the check |"
    );
    println!("|---|---|---:|---:|---:|---:|---:|---:|---:|");
    for table in tables {
        say_pointer(table.name, &look_up_on(table), out);
    }
}

/// The times of a preview, of its edit, and of the check in both.
fn say_preview(name: &str, call: &Call, out: &mut [u8]) {
    let times = rounds([
        &mut || {
            let _ = black_box(call.ask_preview());
        },
        &mut || {
            let _ = black_box(call.ask_port(black_box(out)));
        },
        &mut || {
            let _ = black_box(call.check());
        },
    ]);
    let of = |i: usize| median(times.iter().map(|round| round[i] / MICRO));
    println!(
        "| {name} | {} | {:.2} | {:.2} | {:.2} | {:.2} |",
        call.edit.word(),
        of(0),
        of(1),
        of(2),
        median(times.iter().map(|round| round[0] / round[1])),
    );
}

fn say_previews(tables: &[Table], out: &mut [u8]) {
    println!("| record | call | preview, us | the edit, us | of both the check | preview to edit |");
    println!("|---|---|---:|---:|---:|---:|");
    for table in tables {
        for call in calls_on(table).iter().filter(|call| call.edit != Edit::Get) {
            say_preview(table.name, call, out);
        }
    }
}

/// The times of the check and of the flight check.
fn say_flight_check(name: &str, bytes: &[u8]) {
    let times = rounds([
        &mut || port::check(black_box(bytes)).unwrap(),
        &mut || port::flight::check(black_box(bytes)).unwrap(),
    ]);
    let of = |i: usize| median(times.iter().map(|round| round[i] / MICRO));
    let factor = median(times.iter().map(|round| round[1] / round[0]));
    println!("| {name} | {} | {:.2} | {:.2} | {factor:.2} |", bytes.len(), of(0), of(1));
}

/// The times of an edit and of its flight edit, and of both checks of the records that it takes, in which is told how much longer the
/// flight edit takes.
fn say_flight(name: &str, word: &str, call: &Call, out: &mut [u8]) {
    let mut room = vec![0; port::ROOM];
    let times = rounds([
        &mut || {
            let _ = black_box(call.ask_port(black_box(out)));
        },
        &mut || {
            let _ = black_box(call.ask_flight(black_box(&mut room)));
        },
        &mut || {
            let _ = black_box(call.check_records(port::check));
        },
        &mut || {
            let _ = black_box(call.check_records(port::flight::check));
        },
    ]);
    let of = |i: usize| median(times.iter().map(|round| round[i] / MICRO));
    let longer_by = |i: usize| median(times.iter().map(|round| (round[1] - round[0]) / round[i]));
    println!(
        "| {name} | {word} | {:.2} | {:.2} | {:.2} | {:.2} | {:.2} | {:.2} | {:.2} |",
        of(0),
        of(1),
        of(2),
        of(3),
        median(times.iter().map(|round| round[1] / round[0])),
        longer_by(2),
        longer_by(3),
    );
}

fn say_flights(tables: &[Table], out: &mut [u8]) {
    println!("| record | bytes | check, us | flight check, us | flight check to check |");
    println!("|---|---:|---:|---:|---:|");
    for table in tables {
        say_flight_check(table.name, &record(&table.tree));
    }
    println!(
        "\n| record | call | the edit, us | the flight edit, us | the check of its records | their flight check | flight edit to edit \
         | longer by, in checks | in flight checks |"
    );
    println!("|---|---|---:|---:|---:|---:|---:|---:|---:|");
    for table in tables {
        for (word, call) in flights_on(table) {
            say_flight(table.name, word, &call, out);
        }
    }
}

fn say_factor(what: &str, word: &str, few: &mut dyn FnMut(), many: &mut dyn FnMut()) {
    let times = rounds([few, many]);
    let of = |i: usize| median(times.iter().map(|round| round[i] / MICRO));
    println!("| {what} | {word} | {:.1} | {:.1} | {:.1} |", of(0), of(1), median(times.iter().map(|round| round[1] / round[0])));
}

fn say_growth(what: &str, counts: [usize; 2], make: fn(usize) -> Vec<Call>) {
    let [few, many] = counts.map(make);
    let check = |call: &Call| port::check(black_box(&call.first)).unwrap();
    say_factor(what, "check", &mut || check(&few[0]), &mut || check(&many[0]));
    for (few, many) in few.iter().zip(&many) {
        let (mut small, mut large) = (vec![0; port::ROOM], vec![0; port::ROOM]);
        let ask = |call: &Call, out: &mut [u8]| {
            let _ = black_box(call.ask_port(black_box(out)));
        };
        say_factor(what, few.edit.word(), &mut || ask(few, &mut small), &mut || ask(many, &mut large));
    }
}

fn say_search(length: usize, out: &mut [u8]) {
    for call in calls_on_search(length).into_iter().filter(|call| call.edit != Edit::Get) {
        let time = time(&mut || {
            let _ = black_box(call.ask_port(black_box(out)));
        });
        println!("| {} | {length} | {} | {:.1} |", count_searched(length), call.edit.word(), time / MILLI);
    }
}

fn say_times(out: &mut [u8]) {
    let sound = sound_tables();
    println!("### The check\n");
    println!("| record | bytes | check, ns a byte | memcpy, ns a byte |");
    println!("|---|---:|---:|---:|");
    for table in &sound {
        say_check(table.name, &record(&table.tree), out);
    }
    for (name, bytes) in texts() {
        say_check(name, &bytes, out);
    }
    println!("\n### Characters\n");
    println!("| text | bytes | ours, ns | from_utf8 and chars().count(), ns | ours to the Rust's |");
    println!("|---|---:|---:|---:|---:|");
    for (name, text) in counted_texts() {
        say_text(name, &text);
    }
    println!("\n### Sound records\n");
    say_calls(&sound, out);
    println!("\n### The same with names that fall\n");
    say_calls(&fallen_tables(), out);
    println!("\n### Look-up by a pointer\n");
    say_pointers(&sound, out);
    println!("\n### Previews\n");
    say_previews(&sound, out);
    println!("\n### Previews where names fall\n");
    say_previews(&fallen_tables(), out);
    println!("\n### Flight records\n");
    say_flights(&flight_tables(), out);
    println!("\n### Growth\n");
    println!("| record | call | few, us | many, us | factor |");
    println!("|---|---|---:|---:|---:|");
    say_growth("array of 4,000 and 16,000 nulls", ITEMS, calls_on_items);
    say_growth("object of 1,000 and 4,000 members", MEMBERS, calls_on_members);
    println!("\n### The search at its longest\n");
    println!("| members | bytes of a name | call | ms |");
    println!("|---:|---:|---|---:|");
    for length in SEARCHED {
        say_search(length, out);
    }
}

// ---- answers

fn all_calls() -> Vec<Call> {
    let tables = sound_tables().into_iter().chain(fallen_tables());
    let mut calls: Vec<Call> = tables.flat_map(|table| calls_on(&table)).collect();
    calls.extend(ITEMS.into_iter().flat_map(calls_on_items));
    calls.extend(MEMBERS.into_iter().flat_map(calls_on_members));
    calls.extend(SEARCHED.into_iter().flat_map(calls_on_search));
    calls
}

/// Whether the two sides agree on every call, and the flight edits with them: a side that answers something else is not measured.
fn agree(out: &mut [u8]) -> bool {
    let calls = all_calls();
    let mut wrong = 0;
    let mut hold = |call: &Call, is_same: bool| {
        if !is_same {
            eprintln!("bench: the answers to {} of {} and {} bytes differ", call.edit.word(), call.first.len(), call.second.len());
            wrong += 1;
        }
    };
    for call in &calls {
        hold(call, call.is_same(out));
    }
    let flights: Vec<Call> = flight_tables().iter().flat_map(flights_on).map(|(_, call)| call).collect();
    for call in &flights {
        hold(call, is_flight(&call.first) && call.is_same_aboard(out));
    }
    let texts = counted_texts();
    for (name, text) in &texts {
        if port::check_text(text).ok() != count_twice(text) {
            eprintln!("bench: the characters of {name} differ");
            wrong += 1;
        }
    }
    eprintln!("bench: {} calls, {wrong} with answers that differ", calls.len() + flights.len() + texts.len());
    wrong == 0
}

fn run() -> i32 {
    let mut out = vec![0; port::ROOM];
    let command = std::env::args().nth(1);
    match command.as_deref() {
        Some("times") if agree(&mut out) => say_times(&mut out),
        Some("answers") if agree(&mut out) => (),
        Some("times" | "answers") => return 1,
        _ => {
            eprintln!("usage: bench times | answers");
            return 2;
        }
    }
    0
}

fn main() {
    let ended = std::thread::Builder::new().stack_size(STACK).spawn(run).unwrap().join();
    exit(ended.unwrap_or(1));
}
