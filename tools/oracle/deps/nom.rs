// Stand-in for `nom`: the types of what keypath.rs names; no parser runs.
pub enum Err<E> {
    Incomplete(()),
    Error(E),
    Failure(E),
}

pub type IResult<I, O> = Result<(I, O), Err<()>>;

pub trait Parser<I> {
    type Output;
    fn parse(&mut self, input: I) -> IResult<I, Self::Output>;
}

impl<I, O, F: FnMut(I) -> IResult<I, O>> Parser<I> for F {
    type Output = O;
    fn parse(&mut self, input: I) -> IResult<I, O> {
        self(input)
    }
}

fn stub<I, O>(_: I) -> IResult<I, O> {
    unimplemented!("stand-in: nom")
}

pub mod branch {
    use crate::*;
    pub trait Alt<I> {
        type Output;
    }
    impl<I, A: Parser<I>, B: Parser<I, Output = A::Output>> Alt<I> for (A, B) {
        type Output = A::Output;
    }
    impl<I, A: Parser<I>, B: Parser<I, Output = A::Output>, C: Parser<I, Output = A::Output>> Alt<I> for (A, B, C) {
        type Output = A::Output;
    }
    pub fn alt<I, T: Alt<I>>(_: T) -> impl FnMut(I) -> IResult<I, T::Output> {
        stub
    }
}

pub mod character {
    pub mod complete {
        use crate::*;
        pub fn char<'a>(_: char) -> impl FnMut(&'a [u8]) -> IResult<&'a [u8], char> {
            stub
        }
        pub fn i32(input: &[u8]) -> IResult<&[u8], i32> {
            stub(input)
        }
        pub fn multispace0(input: &[u8]) -> IResult<&[u8], &[u8]> {
            stub(input)
        }
    }
}

pub mod combinator {
    use crate::*;
    pub fn map<I, A: Parser<I>, O, F: FnMut(A::Output) -> O>(_: A, _: F) -> impl FnMut(I) -> IResult<I, O> {
        stub
    }
}

pub mod multi {
    use crate::*;
    pub fn separated_list1<I, S: Parser<I>, A: Parser<I>>(_: S, _: A) -> impl FnMut(I) -> IResult<I, Vec<A::Output>> {
        stub
    }
}

pub mod sequence {
    use crate::*;
    pub fn delimited<I, A: Parser<I>, B: Parser<I>, C: Parser<I>>(_: A, _: B, _: C) -> impl FnMut(I) -> IResult<I, B::Output> {
        stub
    }
    pub fn preceded<I, A: Parser<I>, B: Parser<I>>(_: A, _: B) -> impl FnMut(I) -> IResult<I, B::Output> {
        stub
    }
    pub fn terminated<I, A: Parser<I>, B: Parser<I>>(_: A, _: B) -> impl FnMut(I) -> IResult<I, A::Output> {
        stub
    }
}
