// Stand-in for `jiff`: dates are never shown.
fn stub() -> ! {
    unimplemented!("stand-in: jiff")
}

pub struct SignedDuration;

impl SignedDuration {
    pub fn from_hours(_: i64) -> Self { stub() }
    pub fn from_micros(_: i64) -> Self { stub() }
}

pub mod civil {
    #[derive(Clone, Copy)]
    pub struct DateTime;
    impl DateTime {
        pub const MIN: DateTime = DateTime;
        pub const MAX: DateTime = DateTime;
        pub const fn constant(_: i16, _: i8, _: i8, _: i8, _: i8, _: i8, _: i32) -> DateTime { DateTime }
        pub fn checked_add(self, _: crate::SignedDuration) -> Result<DateTime, ()> { crate::stub() }
    }
    pub fn date(_: i16, _: i8, _: i8) -> Date { crate::stub() }
    pub struct Date;
    impl Date {
        pub fn checked_add(self, _: crate::SignedDuration) -> Result<String, ()> { crate::stub() }
    }
}

pub mod tz {
    pub struct Offset;
    impl Offset {
        pub fn from_seconds(_: i32) -> Result<Offset, ()> { crate::stub() }
    }
}

pub mod fmt {
    pub mod strtime {
        use crate::civil::DateTime;
        pub fn format(_: &str, _: DateTime) -> Result<String, ()> { crate::stub() }
        pub struct BrokenDownTime;
        impl From<DateTime> for BrokenDownTime {
            fn from(_: DateTime) -> Self { crate::stub() }
        }
        impl BrokenDownTime {
            pub fn set_offset(&mut self, _: Option<crate::tz::Offset>) { crate::stub() }
            pub fn to_string(&self, _: &str) -> Result<String, ()> { crate::stub() }
        }
    }
}
