// Stand-in for `ethnum`. Only the big-endian bytes do real work (they are all
// that compact_encode and decode need); arithmetic is a stub that panics.
#![allow(non_camel_case_types)]
use std::ops::{Div, Neg, Rem, Sub};

// The low word first, as in ethnum on little-endian machines: same size and alignment.
#[derive(Clone, Copy, Debug, PartialEq, Eq, PartialOrd, Ord)]
pub struct i256([i128; 2]);

#[derive(Clone, Copy, Debug, PartialEq, Eq, PartialOrd, Ord)]
pub struct U256([u128; 2]);

fn stub() -> ! {
    unimplemented!("stand-in: ethnum")
}

impl i256 {
    pub const ZERO: i256 = i256([0, 0]);

    pub fn from_be_bytes(b: [u8; 32]) -> i256 {
        let hi = i128::from_be_bytes(b[..16].try_into().unwrap());
        let lo = i128::from_be_bytes(b[16..].try_into().unwrap());
        i256([lo, hi])
    }
    pub fn to_be_bytes(self) -> [u8; 32] {
        let mut b = [0; 32];
        b[..16].copy_from_slice(&self.0[1].to_be_bytes());
        b[16..].copy_from_slice(&self.0[0].to_be_bytes());
        b
    }
    pub fn from_words(hi: i128, lo: i128) -> i256 {
        i256([lo, hi])
    }
    pub fn as_f64(self) -> f64 { stub() }
    pub fn as_i128(self) -> i128 { stub() }
    pub fn checked_neg(self) -> Option<i256> { stub() }
    pub fn checked_sub(self, _: i256) -> Option<i256> { stub() }
    pub fn checked_mul(self, _: i256) -> Option<i256> { stub() }
    pub fn pow(self, _: u32) -> i256 { stub() }
    pub fn unsigned_abs(self) -> U256 { stub() }
}

impl U256 {
    pub const ZERO: U256 = U256([0, 0]);
    pub fn new(v: u128) -> U256 { U256([v, 0]) }
    pub fn checked_pow(self, _: u32) -> Option<U256> { stub() }
    pub fn checked_add(self, _: U256) -> Option<U256> { stub() }
}

macro_rules! ops {
    ($($t:ty, $op:ident, $f:ident;)*) => {
        $(impl $op for $t { type Output = $t; fn $f(self, _: $t) -> $t { stub() } })*
    };
}
ops! { i256, Div, div; i256, Rem, rem; U256, Div, div; U256, Rem, rem; U256, Sub, sub; }

impl Neg for i256 {
    type Output = i256;
    fn neg(self) -> i256 { stub() }
}

macro_rules! conv {
    ($($t:ty)*) => {
        $(impl From<$t> for i256 { fn from(_: $t) -> i256 { stub() } }
        impl TryFrom<i256> for $t { type Error = (); fn try_from(_: i256) -> Result<$t, ()> { stub() } })*
    };
}
conv! { i32 i64 u64 i128 }

impl TryFrom<U256> for i256 {
    type Error = ();
    fn try_from(_: U256) -> Result<i256, ()> { stub() }
}
