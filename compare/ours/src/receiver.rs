//! The slot receiver. Its state and its answer are the structs of include/m17.h and go by value.
use std::mem::offset_of;

#[repr(C)]
#[derive(Clone, Copy, Debug, PartialEq, Eq)]
pub struct Receiver {
    pub count: usize,
    pub phase: u8,
    pub parts: [u8; 30],
}

#[repr(C)]
#[derive(Clone, Copy, Debug, PartialEq, Eq)]
pub struct Received {
    pub number: usize,
    pub next: Receiver,
    pub frame_number: u16,
    pub said: u8,
    pub answer: u8,
    pub header: [u8; 30],
    pub lich_idx: u8,
    pub lich_part: [u8; 5],
    pub end_of_stream: u8,
    pub stream_data: [u8; 16],
}

// `bridge.c` holds include/m17.h to the same sizes and places.
const _: () = {
    assert!(size_of::<Receiver>() == 40 && align_of::<Receiver>() == 8);
    assert!(offset_of!(Receiver, count) == 0);
    assert!(offset_of!(Receiver, phase) == 8);
    assert!(offset_of!(Receiver, parts) == 9);
    assert!(size_of::<Received>() == 112 && align_of::<Received>() == 8);
    assert!(offset_of!(Received, number) == 0);
    assert!(offset_of!(Received, next) == 8);
    assert!(offset_of!(Received, frame_number) == 48);
    assert!(offset_of!(Received, said) == 50);
    assert!(offset_of!(Received, answer) == 51);
    assert!(offset_of!(Received, header) == 52);
    assert!(offset_of!(Received, lich_idx) == 82);
    assert!(offset_of!(Received, lich_part) == 83);
    assert!(offset_of!(Received, end_of_stream) == 88);
    assert!(offset_of!(Received, stream_data) == 89);
};

#[cfg(linked)]
mod c {
    use super::{Received, Receiver};

    extern "C" {
        pub fn m17_receiver_new() -> Receiver;
        pub fn m17_receive(
            state: Receiver,
            slot: *const u8,
            slot_len: usize,
            memory: *mut u8,
            memory_len: usize,
        ) -> Received;
    }
}

/// Through the bridge the structs go behind pointers.
#[cfg(not(linked))]
mod c {
    use super::{Received, Receiver};
    use crate::bridge::{call, Word};
    use crate::c::Place;
    use std::mem::MaybeUninit;

    pub unsafe fn m17_receiver_new() -> Receiver {
        let mut new = MaybeUninit::zeroed();
        call::<()>(Place::receiver_new as usize, &[("new", Word::from(new.as_mut_ptr()))]);
        new.assume_init()
    }

    pub unsafe fn m17_receive(
        state: Receiver,
        slot: *const u8,
        slot_len: usize,
        memory: *mut u8,
        memory_len: usize,
    ) -> Received {
        // The byte after the fields is lent too, so it has to hold something.
        let mut given = MaybeUninit::<Receiver>::zeroed();
        (*given.as_mut_ptr()).count = state.count;
        (*given.as_mut_ptr()).phase = state.phase;
        (*given.as_mut_ptr()).parts = state.parts;
        let mut answer = MaybeUninit::zeroed();
        let arguments = [
            ("state", Word::from(given.as_ptr())),
            ("slot", Word::from(slot)),
            ("slot_len", Word::from(slot_len)),
            ("memory", Word::from(memory)),
            ("memory_len", Word::from(memory_len)),
            ("answer", Word::from(answer.as_mut_ptr())),
        ];
        call::<()>(Place::receive as usize, &arguments);
        answer.assume_init()
    }
}

pub fn receiver_new() -> Receiver {
    unsafe { c::m17_receiver_new() }
}

/// The caller sees what became of the memory.
pub fn receive(state: Receiver, slot: &[u8], memory: &mut [u8]) -> Received {
    unsafe { c::m17_receive(state, slot.as_ptr(), slot.len(), memory.as_mut_ptr(), memory.len()) }
}
