//! The static library, each function behind a safe one of the same meaning.

#[cfg(not(linked))]
mod bridge;
mod c;

mod bodies;
mod collection;
mod given;
mod header;
mod leaves;
mod receiver;
mod symbols;

pub use bodies::*;
pub use c::by_name;
pub use collection::*;
pub use given::Given;
pub use header::*;
pub use leaves::*;
pub use receiver::*;
pub use symbols::*;

/// Whether the library's functions run under an emulator, where a time says nothing.
pub const EMULATED: bool = cfg!(not(linked));

/// A refusal: its number, and whether lent memory was written all the same, which is never right.
#[derive(Clone, Copy, Debug, PartialEq, Eq)]
pub struct Refused {
    pub number: u8,
    pub wrote: bool,
}

/// The refusal of a number as it has to be.
pub const fn refused(number: u8) -> Refused {
    Refused { number, wrote: false }
}

/// What lent memory holds before a call, so that a refusal which writes to it is seen.
const MARK: u8 = 0xA5;

fn answered<T: PartialEq>(number: u8, lent: T, before: T) -> Result<T, Refused> {
    match number {
        0 => Ok(lent),
        _ => Err(Refused { number, wrote: lent != before }),
    }
}

/// The answer in lent bytes of the length that is called for.
fn filled<const N: usize>(call: impl FnOnce(*mut u8, usize) -> u8) -> Result<[u8; N], Refused> {
    let mut out = [MARK; N];
    let said = call(out.as_mut_ptr(), N);
    answered(said, out, [MARK; N])
}
