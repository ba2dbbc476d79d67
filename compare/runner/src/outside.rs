//! Inputs outside the domain that is shared with the Rust: the smallest of each class, and both answers.
//! The answers stand here as docs/DIFFERENCES.md has them, so that a change of either is a difference.
use crate::leaves::shown;
use crate::observe::{answer, hex};

mod frames;
mod header;

pub struct Outside {
    pub input: &'static str,
    pub rust: String,
    pub ours: String,
    /// The two answers as they are written down.
    pub written: [&'static str; 2],
}

/// Both answers as they are given now. The Rust may panic.
fn outside(
    input: &'static str,
    rust: impl FnOnce() -> String,
    ours: impl FnOnce() -> String,
    written: [&'static str; 2],
) -> Outside {
    Outside { input, rust: answer(rust).unwrap_or("panics".into()), ours: ours(), written }
}

/// Equal bytes at the end are said once.
fn brief(bytes: &[u8]) -> String {
    let last = bytes[bytes.len() - 1];
    let start = bytes.iter().rposition(|&byte| byte != last).map_or(0, |place| place + 1);
    format!("{}..", hex(&bytes[..start + 1]))
}

pub fn all() -> Vec<Outside> {
    let parts = [
        bits(),
        interleave(),
        callsigns(),
        reserved_values(),
        fec(),
        header::data_types(),
        header::refused(),
        frames::written(),
        frames::read(),
    ];
    parts.into_iter().flatten().collect()
}

fn bits() -> Vec<Outside> {
    let get = |input, bytes: &[u8], place, written| {
        let ours = || shown(&ours::get_bit(bytes, place), u8::to_string);
        outside(input, || oracle::get_bit(bytes, place).to_string(), ours, written)
    };
    let set = |input, bytes: &[u8], place, written| {
        let rust = || {
            let mut bytes = bytes.to_vec();
            oracle::set_bit(&mut bytes, place, 1);
            hex(&bytes)
        };
        let ours = || {
            let mut bytes = bytes.to_vec();
            let number = ours::set_bit(&mut bytes, place, 1);
            format!("refuses {number} and leaves {}", hex(&bytes))
        };
        outside(input, rust, ours, written)
    };
    vec![
        get("get_bit of nothing at 0", &[], 0, ["panics", "refuses 2"]),
        get("get_bit of 00 at 8", &[0], 8, ["panics", "refuses 2"]),
        set("set_bit of nothing at 0 to 1", &[], 0, ["panics", "refuses 2 and leaves nothing"]),
        set("set_bit of 00 at 8 to 1", &[0], 8, ["panics", "refuses 2 and leaves 00"]),
    ]
}

fn interleave() -> Vec<Outside> {
    let of = |input, bytes: &[u8], written| {
        let ours = || shown(&ours::interleave(bytes), |new| brief(new));
        outside(input, || brief(&oracle::interleave(bytes)), ours, written)
    };
    vec![
        of("interleave of nothing", &[], ["panics", "refuses 1"]),
        of("interleave of 45 bytes 00", &[0; 45], ["panics", "refuses 1"]),
        of("interleave of 47 bytes 00", &[0; 47], ["00..", "refuses 1"]),
    ]
}

/// Beside what the Rust writes stands what it reads from that.
fn callsigns() -> Vec<Outside> {
    use oracle::address::{encode_address, Address, Callsign};
    let of = |input, nine: &[u8; 9], written| {
        let rust = || written_and_read(encode_address(&Address::Callsign(Callsign(*nine))));
        let ours = || shown(&ours::encode_address(1, 0, nine), |six| hex(six));
        outside(input, rust, ours, written)
    };
    let zeros = ["00 00 00 00 00 00, which reads as Invalid", "refuses 6"];
    vec![
        of("callsign of nine bytes 00", &[0; 9], zeros),
        of("callsign of nine spaces", b"         ", zeros),
        of(
            "callsign \"A\", 00, \"B\", six spaces",
            b"A\0B      ",
            ["00 00 00 00 00 51, which reads as \"AB       \"", "refuses 6"],
        ),
        of(
            "callsign \"A_B\", six spaces",
            b"A_B      ",
            ["00 00 00 00 00 51, which reads as \"AB       \"", "refuses 6"],
        ),
    ]
}

fn reserved_values() -> Vec<Outside> {
    use oracle::address::{encode_address, Address};
    let of = |input, value, written| {
        let rust = || written_and_read(encode_address(&Address::Reserved(value)));
        let ours = || shown(&ours::encode_address(2, value, b"         "), |six| hex(six));
        outside(input, rust, ours, written)
    };
    let zeros = ["00 00 00 00 00 00, which reads as Invalid", "refuses 6"];
    vec![
        of("reserved value 0", 0, zeros),
        of("reserved value 1", 1, ["00 00 00 00 00 01, which reads as \"A        \"", "refuses 6"]),
        of(
            "reserved value EE6B27FFFFFF",
            0xEE6B27FFFFFF,
            ["EE 6B 27 FF FF FF, which reads as \".........\"", "refuses 6"],
        ),
        of("reserved value FFFFFFFFFFFF", 0xFFFFFFFFFFFF, ["FF FF FF FF FF FF, which reads as Broadcast", "refuses 6"]),
        of("reserved value 1000000000000", 1 << 48, zeros),
    ]
}

fn written_and_read(six: [u8; 6]) -> String {
    use oracle::address::{decode_address, Address, Callsign};
    let read = match decode_address(six) {
        Address::Callsign(Callsign(nine)) => format!("{:?}", String::from_utf8_lossy(&nine)),
        other => format!("{other:?}"),
    };
    format!("{}, which reads as {read}", hex(&six))
}

fn fec() -> Vec<Outside> {
    use oracle::{fec_decode, fec_encode, Kind};
    let write = |input, data: &[u8], written| {
        let ours = || shown(&ours::fec_encode(0, data), |coded| brief(coded));
        outside(input, || brief(&fec_encode(Kind::Header, data)), ours, written)
    };
    let read = |input, received: &[u8], written| {
        let rust = || fec_decode(Kind::Header, received).map_or("None".into(), |data| brief(&data));
        let ours = || shown(&ours::fec_decode(0, received), |data| brief(data));
        outside(input, rust, ours, written)
    };
    vec![
        write("fec encode of a header of nothing", &[], ["00..", "refuses 1"]),
        write("fec encode of a header of 31 bytes 00", &[0; 31], ["00..", "refuses 1"]),
        read("fec decode of a header of nothing", &[], ["panics", "refuses 1"]),
        read("fec decode of a header of 45 bytes 00", &[0; 45], ["panics", "refuses 1"]),
        read("fec decode of a header of 47 bytes 00", &[0; 47], ["00..", "refuses 1"]),
    ]
}
