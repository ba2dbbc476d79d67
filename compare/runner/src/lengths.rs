//! Every buffer of every function lent with other lengths than its own. The Rust has no such buffers.
use crate::comparison::{Comparison, Said, Stop, Take, Wanted};
use crate::random::Random;
use ours::{by_name, Given};

pub const ALL: [Comparison; 1] = [Comparison {
    name: "lengths",
    layout: "the function, the argument that is lent otherwise, its length in two bytes, and every value",
    shortest: None,
    counts_ties: false,
    inputs: others,
    check: refused_with_one,
}];

/// The arguments in turn: b for a buffer of so many bytes and f for one of so many symbols, each with its length after
/// it; n for a lent number of so many bytes, v for a value, and 0 for the kind that has these lengths.
const FUNCTIONS: [(&str, &str); 41] = [
    ("m17_interleave", "b46 b46"),
    ("m17_decode_address", "b6 n1 n8 b9"),
    ("m17_encode_address", "v v b9 b6"),
    ("m17_check_crc", "b30 n2"),
    ("m17_destination", "b30 n1 n8 b9"),
    ("m17_source", "b30 n1 n8 b9"),
    ("m17_mode", "b30 n1"),
    ("m17_data_type", "b30 n1"),
    ("m17_encryption_type", "b30 n1"),
    ("m17_channel_access_number", "b30 n1"),
    ("m17_meta", "b30 b14"),
    ("m17_set_destination", "b30 v v b9"),
    ("m17_set_source", "b30 v v b9"),
    ("m17_set_mode", "b30 v"),
    ("m17_set_data_type", "b30 v"),
    ("m17_set_encryption_type", "b30 v"),
    ("m17_set_channel_access_number", "b30 v"),
    ("m17_new_voice", "v v b9 v v b9 b30"),
    ("m17_new_packet", "v v b9 v v b9 b30"),
    ("m17_valid_segments", "b6 n1"),
    ("m17_set_segment", "b30 b6 v b5"),
    ("m17_try_assemble", "b30 b6 n1 b30"),
    ("m17_encode_lich", "v b5 b12"),
    ("m17_decode_lich", "b12 n1 b5"),
    ("m17_write_lsf", "b30 b46"),
    ("m17_read_lsf", "b46 b30"),
    ("m17_write_stream", "v b5 v v b16 b46"),
    ("m17_read_stream", "b46 n1 b5 n2 n1 b16"),
    ("m17_write_packet", "v v b25 b46"),
    ("m17_read_packet", "b46 n1 n8 b25"),
    ("m17_body_to_symbols", "v b46 f192"),
    ("m17_symbols_to_body", "f192 b46"),
    ("m17_frame_initial_decode", "f192 b46"),
    ("m17_encode_lsf", "b30 f192"),
    ("m17_encode_stream", "v b5 v v b16 f192"),
    ("m17_encode_packet", "v v b25 f192"),
    ("m17_parse_lsf", "f192 b30"),
    ("m17_parse_stream", "f192 n1 b5 n2 n1 b16"),
    ("m17_parse_packet", "f192 n1 n8 b25"),
    ("m17_fec_encode", "0 b30 b46"),
    ("m17_fec_decode", "0 b46 b30"),
];

/// The values are 0, which every function takes, and 65,535, which most refuse: the lengths come before that.
fn others(_: &mut Random, _: &Wanted, take: Take) -> Result<(), Stop> {
    for (function, (_, shape)) in FUNCTIONS.iter().enumerate() {
        for (place, argument) in shape.split(' ').enumerate() {
            let Some(right) = length_of(argument) else { continue };
            for len in [0, 1, right - 1, right, right + 1, 2 * right, 1000] {
                let [high, low] = (len as u16).to_be_bytes();
                take(&[function as u8, place as u8, high, low, 0])?;
                take(&[function as u8, place as u8, high, low, 0xFF])?;
            }
        }
    }
    Ok(())
}

fn length_of(argument: &str) -> Option<usize> {
    argument.strip_prefix(['b', 'f']).map(|number| number.parse().unwrap())
}

/// A wrong length is refused with 1 and nothing is written; the right one is not refused with 1.
fn refused_with_one(input: &[u8]) -> Said {
    let (name, shape) = FUNCTIONS[input[0] as usize % FUNCTIONS.len()];
    let other = u16::from_be_bytes([input[2], input[3]]) as usize;
    let mut given = Vec::new();
    let mut wrong = false;
    for (place, argument) in shape.split(' ').enumerate() {
        match length_of(argument) {
            Some(right) => {
                let len = if place == input[1] as usize { other } else { right };
                wrong |= len != right;
                let wide = if argument.starts_with('f') { 4 } else { 1 };
                given.extend([Given::Memory(vec![b'A'; wide * len]), Given::Number(len as u64)]);
            }
            None if argument == "0" => given.push(Given::Number(0)),
            None if argument == "v" => given.push(Given::Number(u16::from_be_bytes([input[4]; 2]) as u64)),
            None => given.push(Given::Memory(vec![b'A'; argument[1..].parse().unwrap()])),
        }
    }
    let before = given.clone();
    let said = by_name(name, &mut given);
    match (wrong, said) {
        (true, Some(1)) if given == before => Said::Refused,
        (false, Some(number)) if number != 1 => Said::Same { tied: false },
        _ => Said::Different {
            rust: format!("({name}: refusal 1 is {} for)", if wrong { "called" } else { "not called" }),
            ours: format!("{said:?}, lent memory {}", if given == before { "untouched" } else { "written" }),
        },
    }
}
