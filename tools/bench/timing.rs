// Times in nanoseconds: calls in turns, many of each in a round, and the median of the rounds.
use std::time::Instant;

/// A round of one call lasts at least so long, in nanoseconds, so that the clock's own time does not count.
const ROUND: f64 = 500_000.0;

/// So many rounds, or as many as take this long, in nanoseconds; the number is odd, so that there is a middle one.
const ROUNDS: usize = 41;

const LONG: f64 = 2e9;

const FEWEST: usize = 3;

pub fn median(values: impl Iterator<Item = f64>) -> f64 {
    let mut values: Vec<f64> = values.collect();
    values.sort_by(f64::total_cmp);
    values[values.len() / 2]
}

/// The time of one of so many calls.
fn time_of(call: &mut dyn FnMut(), count: usize) -> f64 {
    let start = Instant::now();
    for _ in 0..count {
        call();
    }
    start.elapsed().as_nanos() as f64 / count as f64
}

/// How many calls make a round, and how long it takes.
fn round_of(call: &mut dyn FnMut()) -> (usize, f64) {
    let mut count = 1;
    loop {
        let time = time_of(call, count) * count as f64;
        if time >= ROUND {
            return (count, time);
        }
        count *= 2;
    }
}

/// The times of some calls, round by round. A machine that is slower in one round than in another is slower for all of them, so
/// what they are to each other is told round by round.
pub fn rounds<const N: usize>(mut calls: [&mut dyn FnMut(); N]) -> Vec<[f64; N]> {
    let mut counts = [0; N];
    let mut whole = 0.0;
    for (count, call) in counts.iter_mut().zip(&mut calls) {
        let (calls, time) = round_of(*call);
        *count = calls;
        whole += time;
    }
    let mut round = || {
        let mut times = [0.0; N];
        for i in 0..N {
            times[i] = time_of(calls[i], counts[i]);
        }
        times
    };
    let number = (LONG / whole) as usize | 1;
    (0..number.clamp(FEWEST, ROUNDS)).map(|_| round()).collect()
}

/// The median time of one call.
pub fn time(call: &mut dyn FnMut()) -> f64 {
    median(rounds([call]).iter().map(|round| round[0]))
}
