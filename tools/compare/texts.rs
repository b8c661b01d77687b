// The text check and the Rust's standard library, which the client's Rust leaves texts to: whether bytes are UTF-8, and how many
// characters they have.
use crate::port::{check_text, Refusal};
use crate::random::Random;
use crate::tally::spaced;

/// So many of the texts that differ are shown.
const SHOWN: usize = 10;

/// The ends of the code points of one, two, three and four bytes; the surrogates among those of three are left out.
const ENDS: [u32; 4] = [0x80, 0x800, 0x1_0000, 0x11_0000];

fn some_character(r: &mut Random) -> char {
    let i = r.below(ENDS.len());
    let start = if i == 0 { 0 } else { ENDS[i - 1] };
    loop {
        if let Some(c) = char::from_u32(start + r.below((ENDS[i] - start) as usize) as u32) {
            return c;
        }
    }
}

/// Bytes that are UTF-8, or with a byte or two of them changed, taken out or put in.
fn some_text(r: &mut Random) -> Vec<u8> {
    let length = [0, 1, 2, 3, 5, 8, 40][r.below(7)];
    let ascii = r.percent(20);
    let mut text = String::new();
    for _ in 0..length {
        text.push(if ascii { r.below(0x80) as u8 as char } else { some_character(r) });
    }
    let mut bytes = text.into_bytes();
    for _ in 0..[0, 0, 1, 1, 2][r.below(5)] {
        let at = r.below(bytes.len() + 1);
        let byte = if r.percent(50) { r.below(256) as u8 } else { [0x80, 0xbf, 0xc1, 0xc2, 0xe0, 0xed, 0xf0, 0xf4, 0xf5, 0xff][r.below(10)] };
        match r.below(3) {
            0 => bytes.insert(at, byte),
            1 if at < bytes.len() => drop(bytes.remove(at)),
            _ if at < bytes.len() => bytes[at] = byte,
            _ => {}
        }
    }
    bytes
}

fn is_same(bytes: &[u8]) -> bool {
    check_text(bytes) == std::str::from_utf8(bytes).map(|text| text.chars().count()).map_err(|_| Refusal::Text)
}

/// Every text of up to three bytes, and so many random ones.
pub fn compare_texts(count: usize, seed: u64) -> bool {
    let mut wrong = 0;
    let mut asked = 0;
    let mut ask = |bytes: &[u8]| {
        asked += 1;
        if !is_same(bytes) {
            wrong += 1;
            if wrong <= SHOWN {
                println!("a text of these bytes differs: {bytes:02x?}");
            }
        }
    };
    ask(&[]);
    for length in 1..=3 {
        for n in 0..1u32 << (8 * length) {
            ask(&n.to_be_bytes()[4 - length..]);
        }
    }
    let mut r = Random::new(seed);
    for _ in 0..count {
        ask(&some_text(&mut r));
    }
    println!("{} texts, every one of up to three bytes and {} random ones, seed {seed}: {wrong} wrong", spaced(asked), spaced(count));
    wrong == 0
}
