use crate::{c, Refusal, Result};

/// LICH parts as they are gathered.
#[derive(Debug, Clone, PartialEq, Eq, Default)]
pub struct LichCollection {
    parts: [u8; 30],
    set: [u8; 6],
}

impl LichCollection {
    pub fn new() -> Self {
        Self::default()
    }

    pub fn valid_segments(&self) -> usize {
        let mut out = 0;
        unsafe { c::m17_valid_segments(self.set.as_ptr(), 6, &mut out) };
        out.into()
    }

    /// A counter over 5 is refused.
    pub fn set_segment(&mut self, counter: u8, part: [u8; 5]) -> Result<()> {
        let (parts, set) = (self.parts.as_mut_ptr(), self.set.as_mut_ptr());
        Refusal::judge(unsafe { c::m17_set_segment(parts, 30, set, 6, counter, part.as_ptr(), 5) })
    }

    /// The 30 bytes, as soon as all six parts are set.
    pub fn try_assemble(&self) -> Option<[u8; 30]> {
        let (mut assembled, mut out) = (0, [0; 30]);
        let said = unsafe {
            c::m17_try_assemble(self.parts.as_ptr(), 30, self.set.as_ptr(), 6, &mut assembled, out.as_mut_ptr(), 30)
        };
        (said == 0 && assembled == 1).then_some(out)
    }
}
