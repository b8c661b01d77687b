// What is said of many calls: how far it is, what is wrong, and how often each verdict was given.
use std::collections::BTreeMap;
use std::fmt::Display;
use std::io::IsTerminal;

use crate::list::List;
use crate::sides::Verdict;

// How many calls are shown that should not be.
const SHOWN: usize = 10;

// How much of a call is shown in the summary.
const WIDTH: usize = 100;

/// A call as the console takes it, how many bytes it gives, and both answers.
pub struct Answered<'a> {
    pub call: &'a dyn Display,
    pub size: usize,
    pub theirs: &'a dyn Display,
    pub ours: &'a dyn Display,
}

/// How often a verdict was given, and the smallest call that it was given on.
struct Count {
    calls: usize,
    size: usize,
    smallest: String,
}

/// The verdicts on so many calls, which may differ as the list says.
pub struct Tally<'a> {
    list: &'a List,
    calls: usize,
    done: usize,
    wrong: usize,
    counts: BTreeMap<Verdict, Count>,
}

pub fn spaced(n: usize) -> String {
    let digits = n.to_string();
    let mut out = String::new();
    for (i, c) in digits.chars().enumerate() {
        if i > 0 && (digits.len() - i) % 3 == 0 {
            out.push(',');
        }
        out.push(c);
    }
    out
}

fn shortened(line: &str) -> String {
    match line.get(..WIDTH) {
        Some(start) => format!("{start}.. ({} characters)", spaced(line.len())),
        None => line.to_string(),
    }
}

// The sections of the summary. The smallest call of a verdict is shown in the second.
const SECTIONS: [&str; 3] = [
    "both sides alike:",
    "differences, by our number and its cause, with the smallest call met:",
    "no such call in the Rust:",
];

/// The section that a verdict stands in, and its words there; what is wrong was shown by itself.
fn section(verdict: &Verdict) -> Option<(usize, &str)> {
    match verdict {
        Verdict::Alike(what) => Some((0, what)),
        Verdict::Listed(kind) => Some((1, kind)),
        Verdict::NoCall(why) => Some((2, why)),
        Verdict::Wrong(_) => None,
    }
}

impl Tally<'_> {
    pub fn new(list: &List, calls: usize) -> Tally<'_> {
        Tally { list, calls, done: 0, wrong: 0, counts: BTreeMap::new() }
    }

    /// Notes the verdict on a call, and shows the call where that is wrong or on no list.
    pub fn note(&mut self, call: Answered, verdict: Verdict) {
        match &verdict {
            Verdict::Wrong(why) => self.show(&call, why),
            Verdict::Listed(kind) if !self.list.kinds.contains(kind) => self.show(&call, &format!("on no list: {kind}")),
            _ => {}
        }
        let count = self.counts.entry(verdict).or_insert(Count { calls: 0, size: usize::MAX, smallest: String::new() });
        count.calls += 1;
        if call.size < count.size {
            count.size = call.size;
            count.smallest = call.call.to_string();
        }
        self.done += 1;
        if self.done % self.calls.div_ceil(10) == 0 || self.done == self.calls {
            self.progress();
        }
    }

    fn show(&mut self, call: &Answered, why: &str) {
        self.wrong += 1;
        if self.wrong <= SHOWN {
            println!("{}\n  the Rust: {}\n  here:     {}\n  {why}", call.call, call.theirs, call.ours);
        }
    }

    fn progress(&self) {
        let line = format!("compare: {} of {} calls, {} wrong", spaced(self.done), spaced(self.calls), spaced(self.wrong));
        if std::io::stderr().is_terminal() {
            eprint!("\r{line}{}", if self.done == self.calls { "\n" } else { "" });
        } else {
            eprintln!("{line}");
        }
    }

    /// The summary; whether nothing is wrong or on no list.
    pub fn sum_up(&self) -> bool {
        let mut title = None;
        for (verdict, count) in &self.counts {
            let Some((number, words)) = section(verdict) else { continue };
            if title != Some(number) {
                println!("{}", SECTIONS[number]);
                title = Some(number);
            }
            println!("  {:>11}  {words}", spaced(count.calls));
            if matches!(verdict, Verdict::Listed(_)) {
                println!("               {}", shortened(&count.smallest));
            }
        }
        println!("{} answers that are wrong or on no list", spaced(self.wrong));
        self.wrong == 0
    }
}
