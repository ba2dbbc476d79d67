//! Says what the receiver answers to the slots of a recording: `cargo run --example river [RECORDING]`.
use okihemon::{Address, Answer, Late, LsfFrame, Receiver};

const RIVER: &str = concat!(env!("CARGO_MANIFEST_DIR"), "/../../crates/slots/data/river.slots");

fn name(address: Address) -> String {
    match address {
        Address::Callsign(callsign) => String::from_utf8_lossy(&callsign.0).trim_end().to_string(),
        other => format!("{:?}", other),
    }
}

/// A packet's text stands between its type and a zero before its CRC.
fn text(packet: &[u8]) -> String {
    String::from_utf8_lossy(&packet[1..packet.len() - 2]).trim_end_matches('\0').to_string()
}

fn header(header: &LsfFrame) -> String {
    format!(
        "{} to {}, {:?}, {:?}",
        name(header.source()),
        name(header.destination()),
        header.mode(),
        header.data_type()
    )
}

fn main() -> std::io::Result<()> {
    let recording = std::fs::read(std::env::args().nth(1).unwrap_or_else(|| RIVER.into()))?;
    let (mut receiver, mut memory) = (Receiver::new(), [0; 825]);
    for (slot, place) in recording.chunks(48).zip(1..) {
        let said = match receiver.receive(slot, &mut memory) {
            Answer::Header(lsf) => format!("header: {}", header(&lsf)),
            Answer::Stored(piece) => format!("stored: {}", piece),
            Answer::Packet(bytes) => format!("packet: {}", text(bytes)),
            Answer::Stream(frame, Late::Header(lsf)) => {
                format!("stream: {}, late {}", frame.frame_number, header(&lsf))
            }
            Answer::Stream(frame, Late::Spoiled) => format!("stream: {}, header spoiled", frame.frame_number),
            Answer::Stream(frame, Late::Nothing) => format!("stream: {}", frame.frame_number),
            Answer::End => "end".to_string(),
            Answer::Refused(why) => format!("refused {}: {}", why.number(), why),
        };
        println!("{:04} {}", place, said);
    }
    Ok(())
}
