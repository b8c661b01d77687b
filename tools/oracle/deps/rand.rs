// Stand-in for `rand`: no random values are made.
use std::ops::{Range, RangeInclusive};

pub trait SampleRange<T> {}
impl<T> SampleRange<T> for Range<T> {}
impl<T> SampleRange<T> for RangeInclusive<T> {}

pub trait Rng {
    fn random_range<T, R: SampleRange<T>>(&mut self, _: R) -> T { unimplemented!("stand-in: rand") }
    fn random_bool(&mut self, _: f64) -> bool { unimplemented!("stand-in: rand") }
}

pub struct ThreadRng;
impl Rng for ThreadRng {}

pub fn rng() -> ThreadRng {
    ThreadRng
}

pub mod distr {
    pub struct Alphanumeric;
    pub trait SampleString {
        fn sample_string(&self, _: &mut crate::ThreadRng, _: usize) -> String { unimplemented!("stand-in: rand") }
    }
    impl SampleString for Alphanumeric {}
}
