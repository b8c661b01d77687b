// What the number codec is asked: numbers to be made, and payloads to be read. The same for the same seed.
use std::collections::HashSet;
use std::fmt;

use jsonb::{encode_number, to_hex, Answer, Decimal64, Number, NUMBER_ROOM};

use crate::random::Random;

/// A number to be made; `room` is the buffer's length.
pub struct Making {
    pub number: Number,
    pub room: Option<usize>,
}

/// A call of the codec, which shows as the console takes it.
pub enum Call<'a> {
    Make(&'a Making),
    Read(&'a [u8]),
}

pub struct Calls {
    pub makings: Vec<Making>,
    pub payloads: Vec<Vec<u8>>,
    /// The numbers that are among the makings.
    seen: HashSet<(char, u64, u8)>,
}

impl Call<'_> {
    /// How many bytes are given.
    pub fn size(&self) -> usize {
        match self {
            Call::Make(_) => 0,
            Call::Read(payload) => payload.len(),
        }
    }
}

impl fmt::Display for Making {
    fn fmt(&self, f: &mut fmt::Formatter) -> fmt::Result {
        match key(&self.number) {
            ('u', bits, _) => write!(f, "make u {bits}")?,
            ('f', bits, _) => write!(f, "make f {bits:016x}")?,
            ('d', bits, scale) => write!(f, "make d {} {scale}", bits as i64)?,
            (maker, bits, _) => write!(f, "make {maker} {}", bits as i64)?,
        }
        match self.room {
            Some(room) => write!(f, " ; {room}"),
            None => Ok(()),
        }
    }
}

impl fmt::Display for Call<'_> {
    fn fmt(&self, f: &mut fmt::Formatter) -> fmt::Result {
        match self {
            Call::Make(making) => write!(f, "{making}"),
            Call::Read(payload) => write!(f, "number {}", to_hex(payload)),
        }
    }
}

// ---- numbers

/// A number's maker, bits and scale, by which it is known.
fn key(number: &Number) -> (char, u64, u8) {
    match number {
        Number::Int64(v) => ('i', *v as u64, 0),
        Number::UInt64(v) => ('u', *v, 0),
        Number::Float64(v) => ('f', v.to_bits(), 0),
        Number::Decimal64(v) => ('d', v.value as u64, v.scale),
        Number::Decimal128(_) | Number::Decimal256(_) => unreachable!("wider decimals are not made"),
    }
}

// All integers from this one's negative on.
const SMALL: i64 = 70_000;

fn float(bits: u64) -> Number {
    Number::Float64(f64::from_bits(bits))
}

fn decimal(value: i64, scale: u8) -> Number {
    Number::Decimal64(Decimal64 { scale, value })
}

/// Each power of two and what stands next to it, and the same from the other side: every width's first and last numbers, with a
/// sign and without, are among these.
fn boundaries() -> Vec<u64> {
    let near = (0..64).flat_map(|bit| (-2..=2).map(move |by| (1u64 << bit).wrapping_add_signed(by)));
    let mut all: Vec<u64> = near.flat_map(|n| [n, n.wrapping_neg()]).collect();
    all.sort_unstable();
    all.dedup();
    all
}

fn boundary_numbers() -> Vec<Number> {
    let boundaries = boundaries();
    let mut numbers = Vec::new();
    for n in &boundaries {
        numbers.extend([Number::Int64(*n as i64), Number::UInt64(*n), float(*n), decimal(*n as i64, *n as u8)]);
    }
    for scale in 0..=u8::MAX {
        let values = [0, 1, -1, i64::MAX, i64::MIN, 255, -256, 0x0102_0304_0506_0708];
        numbers.extend(values.map(|value| decimal(value, scale)));
    }
    numbers
}

fn small_numbers() -> impl Iterator<Item = Number> {
    (-SMALL..=SMALL).map(Number::Int64).chain((0..=SMALL as u64).map(Number::UInt64))
}

/// Every exponent under both signs, with the fractions at the ends and in the middle, and one at random: zeros, subnormals,
/// infinities and NaNs are among these.
fn floats(r: &mut Random) -> Vec<Number> {
    const FRACTION: u64 = (1 << 52) - 1;
    const HALF: u64 = 1 << 51;
    let mut numbers = Vec::new();
    for top in 0..1 << 12 {
        let fractions = [0, 1, HALF - 1, HALF, HALF + 1, FRACTION - 1, FRACTION, r.next() & FRACTION];
        numbers.extend(fractions.map(|fraction| float(top << 52 | fraction)));
    }
    numbers
}

/// Of any kind, and of any number of bits.
fn random_number(r: &mut Random) -> Number {
    let bits = r.next() >> r.below(64);
    let signed = if r.percent(50) { bits as i64 } else { (bits as i64).wrapping_neg() };
    match r.below(4) {
        0 => Number::Int64(signed),
        1 => Number::UInt64(bits),
        2 => float(r.next()),
        _ => decimal(signed, r.next() as u8),
    }
}

// ---- payloads

// How many bytes are put behind a first byte, at most: those of the longest payload and some more.
const BEHIND: usize = 40;

/// A first byte and the low bytes of a number.
fn spelled(first: u8, width: usize, n: u64) -> Vec<u8> {
    [&[first][..], &n.to_be_bytes()[8 - width..]].concat()
}

/// All payloads of up to two bytes, and every first byte with up to so many of some contents behind it.
fn any_payloads(r: &mut Random) -> Vec<Vec<u8>> {
    let mut payloads = vec![Vec::new()];
    for first in 0..=u8::MAX {
        payloads.extend((0..=u8::MAX).map(|second| vec![first, second]));
        for length in 0..=BEHIND {
            for behind in [vec![0; length], vec![0xff; length], r.bytes(length), r.bytes(length)] {
                payloads.push([&[first][..], &behind].concat());
            }
        }
    }
    payloads
}

/// The boundaries in every width, those of other widths too, which no integer is made in.
fn wide_payloads() -> Vec<Vec<u8>> {
    let widths = |n: u64| [1, 2, 4, 8].map(|width| [spelled(0x40, width, n), spelled(0x50, width, n)]);
    boundaries().into_iter().flat_map(widths).flatten().collect()
}

/// A first byte that is listed, and what need not be.
fn random_payload(r: &mut Random) -> Vec<u8> {
    let first = 0x10 * r.below(8) as u8;
    let length = r.below(BEHIND + 1);
    [&[first][..], &r.bytes(length)].concat()
}

/// What the Rust makes of a number.
fn payload(number: &Number) -> Vec<u8> {
    match encode_number(number, NUMBER_ROOM) {
        Answer::Result(payload) => payload,
        other => panic!("the Rust does not make {number:?}: {other}"),
    }
}

// ---- both

// One number in so many is made with other buffers too, and so is every boundary.
const ROOMS: usize = 7;

impl Calls {
    /// A number to be made, and to be read again, and so are its payload cut short and with one byte more. With `rooms` it is made
    /// with buffers of the exact length, one byte shorter and one longer.
    fn add(&mut self, number: Number, rooms: bool, r: &mut Random) {
        if !self.seen.insert(key(&number)) {
            return;
        }
        let made = payload(&number);
        if let Number::Float64(v) = number {
            // A NaN or an infinity is not made so, and is read all the same.
            self.payloads.push(spelled(0x60, 8, v.to_bits()));
        }
        if rooms {
            let rooms = [made.len() - 1, made.len(), made.len() + 1];
            self.makings.extend(rooms.map(|room| Making { number: number.clone(), room: Some(room) }));
        }
        self.makings.push(Making { number, room: None });
        self.payloads.push(made[..made.len() - 1].to_vec());
        self.payloads.push([&made[..], &[r.next() as u8]].concat());
        self.payloads.push(made);
    }

    /// The boundaries, all small integers, all exponents of floats, and so many random numbers; the payloads of all these, as many
    /// random ones, and others. No number and no payload stands twice.
    pub fn new(random: usize, seed: u64) -> Calls {
        let mut r = Random::new(seed);
        let mut calls = Calls { makings: Vec::new(), payloads: any_payloads(&mut r), seen: HashSet::new() };
        calls.payloads.extend(wide_payloads());
        for number in boundary_numbers() {
            calls.add(number, true, &mut r);
        }
        let floats = floats(&mut r);
        for (i, number) in small_numbers().chain(floats).enumerate() {
            calls.add(number, i % ROOMS == 0, &mut r);
        }
        for i in 0..random {
            let number = random_number(&mut r);
            calls.add(number, i % ROOMS == 0, &mut r);
            calls.payloads.push(random_payload(&mut r));
        }
        calls.payloads.sort_unstable();
        calls.payloads.dedup();
        calls
    }

    pub fn len(&self) -> usize {
        self.makings.len() + self.payloads.len()
    }

    pub fn iter(&self) -> impl Iterator<Item = Call<'_>> {
        self.makings.iter().map(Call::Make).chain(self.payloads.iter().map(|payload| Call::Read(payload)))
    }
}
