//! The two structs have the sizes and places of include/m17.h, and every function of it is declared.
use okihemon::c::{m17_receiver_new, Received, Receiver};
use std::collections::BTreeSet;
use std::mem::{align_of, size_of};

macro_rules! at {
    ($whole:expr, $($field:ident $place:literal),*) => {
        $(assert_eq!(&$whole.$field as *const _ as usize - &$whole as *const _ as usize, $place, stringify!($field));)*
    };
}

#[test]
fn structs() {
    let next = unsafe { m17_receiver_new() };
    assert_eq!(next, Receiver { count: 0, phase: 0, parts: [0; 30] });
    assert_eq!((size_of::<Receiver>(), align_of::<Receiver>()), (40, 8));
    at!(next, count 0, phase 8, parts 9);

    let got = Received {
        number: 0,
        next,
        frame_number: 0,
        said: 0,
        answer: 0,
        header: [0; 30],
        lich_idx: 0,
        lich_part: [0; 5],
        end_of_stream: 0,
        stream_data: [0; 16],
    };
    assert_eq!((size_of::<Received>(), align_of::<Received>()), (112, 8));
    at!(got, number 0, next 8, frame_number 48, said 50, answer 51, header 52, lich_idx 82, lich_part 83);
    at!(got, end_of_stream 88, stream_data 89);
}

/// The functions that a text names, in order of the alphabet: all names but those of the two structs.
fn named(text: &str) -> BTreeSet<&str> {
    let words = text.split(|c: char| !(c.is_alphanumeric() || c == '_'));
    words.filter(|word| word.starts_with("m17_") && !["m17_receiver", "m17_received"].contains(word)).collect()
}

#[test]
fn functions() {
    let header = named(include_str!("../../../include/m17.h"));
    assert_eq!(header.len(), 51);
    assert_eq!(header, named(include_str!("../src/c.rs")), "declared");
    assert_eq!(header, named(include_str!("lengths.rs")), "called with right and wrong lengths");
}
