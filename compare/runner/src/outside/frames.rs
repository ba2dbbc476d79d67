//! Frames with a field out of range, and symbols that are not 192. Beside what the Rust writes stands what it reads.
use super::{outside, Outside};
use crate::leaves::shown;
use crate::write::{for_rust, packet_for_rust};
use ours::{Packet, Stream};

pub fn written() -> Vec<Outside> {
    let lich = |input, counter, written| {
        let rust = || match oracle::decode_lich(&oracle::encode_lich(counter, &[0; 5])) {
            Some((counter, _)) => format!("written, and reads as counter {counter}"),
            None => "written, and does not read".into(),
        };
        let ours = || shown(&ours::encode_lich(counter, &[0; 5]), |_| "written".into());
        outside(input, rust, ours, written)
    };
    let stream = |input, lich_idx, frame_number, written| {
        let frame = Stream { lich_idx, lich_part: [0; 5], frame_number, end_of_stream: 0, stream_data: [0; 16] };
        let rust = || match oracle::parse_stream(&oracle::encode_stream(&for_rust(&frame))) {
            Some(read) => format!(
                "written, and reads as LICH {}, frame {}{}",
                read.lich_idx,
                read.frame_number,
                if read.end_of_stream { ", the end" } else { "" }
            ),
            None => "written, and does not read".into(),
        };
        let ours = || shown(&ours::encode_stream(&frame), |_| "written".into());
        outside(input, rust, ours, written)
    };
    let packet = |input, final_frame, number, written| {
        let frame = Packet { final_frame, number, payload: [0; 25] };
        let rust = || match oracle::parse_packet(&oracle::encode_packet(&packet_for_rust(&frame))) {
            Some(read) => format!("written, and reads as {:?}", read.counter),
            None => "written, and does not read".into(),
        };
        let ours = || shown(&ours::encode_packet(&frame), |_| "written".into());
        outside(input, rust, ours, written)
    };
    vec![
        lich("encode_lich of counter 6", 6, ["written, and reads as counter 6", "refuses 2"]),
        stream("encode_stream of LICH index 6", 6, 0, ["written, and reads as LICH 6, frame 0", "refuses 2"]),
        stream(
            "encode_stream of frame number 8000",
            0,
            0x8000,
            ["written, and reads as LICH 0, frame 0, the end", "refuses 2"],
        ),
        packet(
            "encode_packet of index 32",
            0,
            32,
            ["written, and reads as FinalFrame { payload_len: 0 }", "refuses 2"],
        ),
        packet("encode_packet of final length 26", 1, 26, ["panics", "refuses 2"]),
    ]
}

pub fn read() -> Vec<Outside> {
    let of = |input, symbols: &[f32], written| {
        let rust = || {
            let mut whole = symbols.to_vec();
            whole.resize(192, 1.0 / 3.0);
            let same = oracle::frame_initial_decode(symbols) == oracle::frame_initial_decode(&whole);
            if same { "reads 00 for what is missing" } else { "reads something else" }.into()
        };
        let ours = || shown(&ours::frame_initial_decode(symbols), |_| "reads".into());
        outside(input, rust, ours, written)
    };
    vec![
        of("frame_initial_decode of nothing", &[], ["reads 00 for what is missing", "refuses 1"]),
        of("frame_initial_decode of 191 symbols", &[1.0; 191], ["reads 00 for what is missing", "refuses 1"]),
        of("frame_initial_decode of 193 symbols", &[1.0; 193], ["panics", "refuses 1"]),
    ]
}
