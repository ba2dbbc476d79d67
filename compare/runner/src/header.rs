//! The comparisons of header fields: setters in any order, new headers, and `data_type` by itself.
use crate::address::{any_refused, any_shared, numbered, shared, show};
use crate::comparison::{Comparison, Said, Stop, Take, Wanted};
use crate::leaves::{called_for, shown};
use crate::observe::hex;
use crate::random::Random;
use oracle::protocol::{DataType, EncryptionType, LsfFrame, Mode};
use ours::{refused, Address, Header, Refused};

pub const ALL: [Comparison; 4] = [
    Comparison {
        name: "header",
        layout: STEPS,
        shortest: None,
        counts_ties: false,
        inputs: |random, wanted, take| sequences(random, wanted.many_or(10_000, 100_000), step, take),
        check: set_and_read,
    },
    Comparison {
        name: "header refused",
        layout: STEPS,
        shortest: None,
        counts_ties: false,
        inputs: |random, wanted, take| sequences(random, wanted.many_or(2_000, 20_000), any_step, take),
        check: set_and_read,
    },
    Comparison {
        name: "new header",
        layout: "0 for voice, else packet; the source and then the destination: kind, value in eight bytes, callsign",
        shortest: None,
        counts_ties: false,
        inputs: pairs,
        check: new,
    },
    Comparison {
        name: "data_type",
        layout: "the header",
        shortest: None,
        counts_ties: false,
        inputs: headers,
        check: data_type,
    },
];

const STEPS: &str = "the header, and six steps: setter (0 none, 1 destination, 2 source, 3 mode, 4 data type, \
                     5 encryption type, 6 channel access number), number or kind, value in eight bytes, callsign";

const MODES: [Mode; 2] = [Mode::Packet, Mode::Stream];
const DATA_TYPES: [DataType; 4] = [DataType::Reserved, DataType::Data, DataType::Voice, DataType::VoiceAndData];
const ENCRYPTION_TYPES: [EncryptionType; 4] =
    [EncryptionType::None, EncryptionType::Scrambler, EncryptionType::Aes, EncryptionType::Other];

/// The address that a step has, or the number.
fn address_bytes(address: &Address) -> Vec<u8> {
    [&[address.kind], &address.value.to_be_bytes()[..], &address.callsign].concat()
}

pub fn address_of(bytes: &[u8]) -> Address {
    let value = u64::from_be_bytes(bytes[1..9].try_into().unwrap());
    Address { kind: bytes[0], value, callsign: bytes[9..18].try_into().unwrap() }
}

fn step_bytes(setter: usize, address: &Address) -> Vec<u8> {
    [vec![setter as u8], address_bytes(address)].concat()
}

/// A step of the shared domain, now and then none.
pub fn step(random: &mut Random) -> Vec<u8> {
    let setter = random.below(7);
    let mut given = any_shared(random);
    match setter {
        3 => given.kind = random.below(2) as u8,
        4 | 5 => given.kind = random.below(4) as u8,
        6 => given.kind = random.below(16) as u8,
        _ => (),
    }
    step_bytes(setter, &given)
}

/// A step of which about half are outside the shared domain.
fn any_step(random: &mut Random) -> Vec<u8> {
    match random.below(2) {
        0 => step(random),
        _ => {
            let setter = random.below(7);
            let mut given = any_refused(random);
            if setter > 2 {
                given.kind = random.number() as u8;
            }
            step_bytes(setter, &given)
        }
    }
}

fn sequences(random: &mut Random, count: usize, step: fn(&mut Random) -> Vec<u8>, take: Take) -> Result<(), Stop> {
    for _ in 0..count {
        let mut input = random.bytes(30);
        (0..6).for_each(|_| input.extend(step(random)));
        take(&input)?;
    }
    Ok(())
}

/// The header as the Rust's setter leaves it, or the refusal that is called for.
pub fn set_by_rust(header: &Header, setter: u8, given: &Address) -> Result<Header, Refused> {
    let mut frame = LsfFrame(*header);
    let number = given.kind;
    let address = || shared(given.kind, given.value, &given.callsign);
    let range = refused(2);
    match setter {
        1 => frame.set_destination(&address()?),
        2 => frame.set_source(&address()?),
        3 => frame.set_mode(*MODES.get(number as usize).ok_or(range)?),
        4 => frame.set_data_type(*DATA_TYPES.get(number as usize).ok_or(range)?),
        5 => frame.set_encryption_type(*ENCRYPTION_TYPES.get(number as usize).ok_or(range)?),
        6 if number > 15 => return Err(range),
        6 => frame.set_channel_access_number(number),
        _ => (),
    }
    Ok(frame.0)
}

fn set_by_ours(header: &Header, setter: u8, given: &Address) -> Result<Header, Refused> {
    match setter {
        1 => ours::set_destination(header, given),
        2 => ours::set_source(header, given),
        3 => ours::set_mode(header, given.kind),
        4 => ours::set_data_type(header, given.kind),
        5 => ours::set_encryption_type(header, given.kind),
        6 => ours::set_channel_access_number(header, given.kind),
        _ => Ok(*header),
    }
}

/// All 30 bytes after every step, and all fields after the last. A refusal leaves the header, and the steps go on.
fn set_and_read(input: &[u8]) -> Said {
    let mut header: Header = input[..30].try_into().unwrap();
    let mut refusals = 0;
    for step in input[30..].chunks_exact(19) {
        let (setter, given) = (step[0], address_of(&step[1..]));
        let wanted = set_by_rust(&header, setter, &given);
        let said = called_for(wanted, set_by_ours(&header, setter, &given), |header| hex(header));
        match said {
            Said::Refused => refusals += 1,
            Said::Same { .. } => header = wanted.unwrap(),
            _ => return said,
        }
    }
    match read(&header) {
        Said::Same { .. } if refusals > 0 => Said::Refused,
        said => said,
    }
}

/// All fields. The Rust's data type is left out: ours has to be type bits 1 and 2.
fn read(header: &Header) -> Said {
    let frame = LsfFrame(*header);
    let number = |field: Result<u8, Refused>| shown(&field, u8::to_string);
    let address = |field: Result<Address, Refused>| shown(&field, show);
    let place = |field: Option<usize>| field.map_or("none".into(), |place| place.to_string());
    let fields = [
        ("destination", show(&numbered(&frame.destination())), address(ours::destination(header))),
        ("source", show(&numbered(&frame.source())), address(ours::source(header))),
        ("mode", place(MODES.iter().position(|mode| *mode == frame.mode())), number(ours::mode(header))),
        ("data type", (header[13] >> 1 & 3).to_string(), number(ours::data_type(header))),
        (
            "encryption type",
            place(ENCRYPTION_TYPES.iter().position(|kind| *kind == frame.encryption_type())),
            number(ours::encryption_type(header)),
        ),
        (
            "channel access number",
            frame.channel_access_number().to_string(),
            number(ours::channel_access_number(header)),
        ),
        ("meta", hex(&frame.meta()), shown(&ours::meta(header), |meta| hex(meta))),
        ("crc", format!("{:04X}", frame.check_crc()), shown(&ours::check_crc(header), |crc| format!("{crc:04X}"))),
    ];
    for (name, rust, ours) in fields {
        if rust != ours {
            return Said::Different { rust: format!("{name} {rust}"), ours: format!("{name} {ours}") };
        }
    }
    Said::Same { tied: false }
}

fn pairs(random: &mut Random, wanted: &Wanted, take: Take) -> Result<(), Stop> {
    for _ in 0..wanted.many_or(2_000, 20_000) {
        let mut address = || match random.below(8) {
            0 => any_refused(random),
            _ => any_shared(random),
        };
        let both = [address_bytes(&address()), address_bytes(&address())].concat();
        take(&[&[0], &both[..]].concat())?;
        take(&[&[1], &both[..]].concat())?;
    }
    Ok(())
}

/// Of two addresses that are refused, an unknown kind comes before what is wrong with a known one.
fn new(input: &[u8]) -> Said {
    let (source, destination) = (address_of(&input[1..]), address_of(&input[19..]));
    let [from, to] = [&source, &destination].map(|given| shared(given.kind, given.value, &given.callsign));
    let wanted = match (from, to) {
        (Ok(from), Ok(to)) if input[0] == 0 => Ok(LsfFrame::new_voice(&from, &to).0),
        (Ok(from), Ok(to)) => Ok(LsfFrame::new_packet(&from, &to).0),
        (from, to) => Err([from.err(), to.err()].into_iter().flatten().min_by_key(|said| said.number).unwrap()),
    };
    let made = if input[0] == 0 { ours::new_voice } else { ours::new_packet };
    match called_for(wanted, made(&source, &destination), |header| hex(header)) {
        Said::Same { .. } => read(&wanted.unwrap()),
        said => said,
    }
}

/// Random headers, and each value of the two bytes of the type that the two sides look at.
fn headers(random: &mut Random, wanted: &Wanted, take: Take) -> Result<(), Stop> {
    (0..wanted.many_or(10_000, 100_000)).try_for_each(|_| take(&random.bytes(30)))
}

/// Ours is type bits 1 and 2; the Rust's is the same bits of byte 12 and not of byte 13.
fn data_type(input: &[u8]) -> Said {
    let rust = LsfFrame(input.try_into().unwrap()).data_type();
    let name = |bits: u8| format!("{:?}", DATA_TYPES[bits as usize]);
    let [by_rust, by_document] = [input[12], input[13]].map(|byte| name(byte >> 1 & 3));
    let rust = format!("{rust:?}");
    let ours = match ours::data_type(input) {
        Ok(bits @ 0..4) => name(bits),
        other => shown(&other, u8::to_string),
    };
    match (rust == by_rust, ours == by_document) {
        (true, true) if rust == ours => Said::Same { tied: false },
        (true, true) => Said::Known { rust, ours },
        _ => Said::Different {
            rust: format!("{rust} (written down: {by_rust})"),
            ours: format!("{ours} (called for: {by_document})"),
        },
    }
}
