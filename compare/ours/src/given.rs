//! Arguments of a call that is made by name.

/// A number, or the memory that a pointer stands before.
#[derive(Clone, Debug, PartialEq, Eq)]
pub enum Given {
    Number(u64),
    Memory(Vec<u8>),
}

/// What C takes for it.
pub(crate) trait Argument {
    fn given(from: &mut Given) -> Self;
}

macro_rules! numbers {
    ($($kind:ty),*) => {$(
        impl Argument for $kind {
            fn given(from: &mut Given) -> Self {
                match from {
                    Given::Number(number) => *number as $kind,
                    Given::Memory(_) => panic!("a number is called for"),
                }
            }
        }
    )*};
}
numbers!(u8, u16, u32, u64, usize);

impl<T> Argument for *mut T {
    fn given(from: &mut Given) -> Self {
        match from {
            Given::Number(_) => panic!("memory is called for"),
            Given::Memory(bytes) => bytes.as_mut_ptr() as *mut T,
        }
    }
}

impl<T> Argument for *const T {
    fn given(from: &mut Given) -> Self {
        <*mut T>::given(from)
    }
}

/// The number that a function which can refuse returns.
pub(crate) trait Answer {
    fn number(self) -> Option<u8>;
}

impl Answer for u8 {
    fn number(self) -> Option<u8> {
        Some(self)
    }
}

impl Answer for u16 {
    fn number(self) -> Option<u8> {
        None
    }
}

impl Answer for () {
    fn number(self) -> Option<u8> {
        None
    }
}
