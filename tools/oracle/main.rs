// The client's Rust answers lines, a line for a line: the calls of `Request`, and beside them `quoted CALL`, the same with
// `QuotedName` for `Name`, `read R`, its deep reader, and `number PAYLOAD`, its number reader and then its writer. An empty line
// and one that starts with # are copied.
use std::io::{BufRead, BufWriter, Write};

use jsonb::{answer, from_hex, number, read, Answer, Memory, Request};

#[global_allocator]
static MEMORY: Memory = Memory;

// strip_nulls recurses, and the stack is the caller's to choose.
const STACK: usize = 1 << 30;

fn answer_line(line: &str) -> String {
    let bytes = |text: &str, call: fn(&[u8]) -> Answer| match from_hex(text) {
        Some(bytes) => call(&bytes).to_string(),
        None => "? not hexadecimal".to_string(),
    };
    match line.split_once(' ') {
        Some(("read", record)) => bytes(record, read),
        Some(("number", payload)) => bytes(payload, number),
        Some(("quoted", call)) => answer_request(call, true),
        _ => answer_request(line, false),
    }
}

fn answer_request(line: &str, quoted: bool) -> String {
    match Request::from_line(line) {
        Ok(request) => answer(&request, quoted).to_string(),
        Err(why) => format!("? {why}"),
    }
}

fn answer_lines() -> std::io::Result<()> {
    let mut output = BufWriter::new(std::io::stdout());
    for line in std::io::stdin().lock().lines() {
        let line = line?;
        if line.trim().is_empty() || line.starts_with('#') {
            writeln!(output, "{line}")?;
        } else {
            writeln!(output, "{}", answer_line(line.trim()))?;
        }
    }
    output.flush()
}

fn main() {
    std::panic::set_hook(Box::new(|_| {}));
    let thread = std::thread::Builder::new().stack_size(STACK).spawn(answer_lines).expect("a thread");
    if let Ok(Err(error)) = thread.join() {
        eprintln!("oracle: {error}");
        std::process::exit(1);
    }
}
