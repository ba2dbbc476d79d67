//! Gathered LICH parts: 30 bytes and six flags, which the caller keeps.
use crate::{answered, c, Header, Refused, MARK};

#[derive(Clone, Copy, Debug, PartialEq, Eq)]
pub struct Collection {
    pub parts: Header,
    pub set: [u8; 6],
}

pub fn valid_segments(collection: &Collection) -> Result<u8, Refused> {
    let mut out = MARK;
    let said = unsafe { c::m17_valid_segments(collection.set.as_ptr(), 6, &mut out) };
    answered(said, out, MARK)
}

pub fn set_segment(before: &Collection, counter: u8, part: &[u8]) -> Result<Collection, Refused> {
    let mut after = *before;
    let (parts, set) = (after.parts.as_mut_ptr(), after.set.as_mut_ptr());
    let said = unsafe { c::m17_set_segment(parts, 30, set, 6, counter, part.as_ptr(), part.len()) };
    answered(said, after, *before)
}

/// The header, or `None` for "not yet", which has to leave lent memory as a refusal does.
pub fn try_assemble(collection: &Collection) -> Result<Option<Header>, Refused> {
    let before = (MARK, [MARK; 30]);
    let (mut assembled, mut out) = before;
    let (parts, set) = (collection.parts.as_ptr(), collection.set.as_ptr());
    let said = unsafe { c::m17_try_assemble(parts, 30, set, 6, &mut assembled, out.as_mut_ptr(), 30) };
    match answered(said, (assembled, out), before)? {
        (1, header) => Ok(Some(header)),
        (0, header) if header == before.1 => Ok(None),
        _ => Err(Refused { number: said, wrote: true }),
    }
}
