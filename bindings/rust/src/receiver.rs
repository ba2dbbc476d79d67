//! The slot receiver: slots of 48 bytes in order, and 825 bytes of packet memory that are lent at each call.
use crate::protocol::{LsfFrame, StreamFrame};
use crate::{c, Refusal};

/// What is open between two slots. A new receiver is idle.
#[derive(Debug, Clone, PartialEq, Eq)]
pub struct Receiver(c::Receiver);

/// What a slot is answered with. A packet is lent from the packet memory.
#[derive(Debug, Clone, PartialEq, Eq)]
pub enum Answer<'m> {
    Header(LsfFrame),
    /// A piece was stored, with its place.
    Stored(usize),
    /// All bytes of a packet, its two CRC bytes included.
    Packet(&'m [u8]),
    Stream(StreamFrame, Late),
    /// The end of a transmission.
    End,
    Refused(Refusal),
}

/// What a stream slot brings besides its fields.
#[derive(Debug, Clone, PartialEq, Eq)]
pub enum Late {
    Nothing,
    /// The header that the last six slots gave.
    Header(LsfFrame),
    /// The last six slots gave a header whose CRC is not zero.
    Spoiled,
}

impl Receiver {
    pub fn new() -> Self {
        Self(unsafe { c::m17_receiver_new() })
    }

    /// The memory is to be the same at each call and left alone between calls. A slot that is not 48 bytes long is
    /// refused and counts as none.
    pub fn receive<'m>(&mut self, slot: &[u8], memory: &'m mut [u8; 825]) -> Answer<'m> {
        let got = unsafe { c::m17_receive(self.0, slot.as_ptr(), slot.len(), memory.as_mut_ptr(), 825) };
        self.0 = got.next;
        answer(&got, memory)
    }
}

impl Default for Receiver {
    fn default() -> Self {
        Self::new()
    }
}

fn answer<'m>(got: &c::Received, memory: &'m [u8; 825]) -> Answer<'m> {
    if let Some(why) = Refusal::of(got.said) {
        return Answer::Refused(why);
    }
    let unknown = Answer::Refused(Refusal::Unknown(got.answer));
    match got.answer {
        1 => Answer::Header(LsfFrame(got.header)),
        2 => Answer::Stored(got.number),
        3 => memory.get(..got.number).map_or(unknown, Answer::Packet),
        4 => Answer::Stream(stream(got), Late::Nothing),
        5 => Answer::Stream(stream(got), Late::Header(LsfFrame(got.header))),
        6 => Answer::Stream(stream(got), Late::Spoiled),
        7 => Answer::End,
        _ => unknown,
    }
}

fn stream(got: &c::Received) -> StreamFrame {
    StreamFrame {
        lich_idx: got.lich_idx,
        lich_part: got.lich_part,
        frame_number: got.frame_number,
        end_of_stream: got.end_of_stream != 0,
        stream_data: got.stream_data,
    }
}

#[cfg(test)]
mod tests {
    use super::*;

    #[test]
    fn answers_of_another_make() {
        let mut got =
            unsafe { c::m17_receive(c::m17_receiver_new(), [0; 48].as_ptr(), 48, [0; 825].as_mut_ptr(), 825) };
        assert_eq!(answer(&got, &[0; 825]), Answer::Refused(Refusal::UnknownSync));
        got.said = 13;
        assert_eq!(answer(&got, &[0; 825]), Answer::Refused(Refusal::Unknown(13)));
        got.said = 0;
        assert_eq!(answer(&got, &[0; 825]), Answer::Refused(Refusal::Unknown(0)));
        got.answer = 8;
        assert_eq!(answer(&got, &[0; 825]), Answer::Refused(Refusal::Unknown(8)));
        got.answer = 3;
        got.number = 826;
        assert_eq!(answer(&got, &[0; 825]), Answer::Refused(Refusal::Unknown(3)));
    }
}
