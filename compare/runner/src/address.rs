//! The comparisons of addresses: read and written back, and written.
use crate::comparison::{Comparison, Said, Stop, Take, Wanted};
use crate::leaves::{called_for, shown};
use crate::observe::hex;
use crate::random::Random;
use oracle::address::{self, Callsign, ALPHABET};
use ours::{refused, Address, Refused};

pub const ALL: [Comparison; 2] = [
    Comparison {
        name: "address read",
        layout: "the six bytes",
        shortest: Some(0),
        counts_ties: false,
        inputs: addresses,
        check: read,
    },
    Comparison {
        name: "address written",
        layout: "the kind, the value in eight bytes, highest first, and the callsign",
        shortest: Some(9),
        counts_ties: false,
        inputs: to_write,
        check: write,
    },
];

const CALLSIGNS_END: u64 = 0xEE6B28000000;
const BROADCAST: u64 = 0xFFFFFFFFFFFF;

fn addresses(random: &mut Random, wanted: &Wanted, take: Take) -> Result<(), Stop> {
    let powers = (0..=9).map(|k| 40u64.pow(k)).chain((0..48).map(|k| 1 << k));
    let bounds = powers.chain([39, CALLSIGNS_END, BROADCAST]);
    for bound in bounds {
        for value in bound.saturating_sub(2)..=(bound + 2).min(BROADCAST) {
            take(&value.to_be_bytes()[2..])?;
        }
    }
    for _ in 0..wanted.many_or(20_000, 100_000) {
        take(&random.bytes(6))?;
    }
    // The reserved range is a fifteenth of all, so it is also asked for by itself.
    for _ in 0..wanted.many(20_000) {
        let value = CALLSIGNS_END + random.number() % (BROADCAST - CALLSIGNS_END);
        take(&value.to_be_bytes()[2..])?;
    }
    for len in (0..20).filter(|&len| len != 6) {
        take(&random.bytes(len))?;
    }
    Ok(())
}

/// The Rust's address in the numbers of the library.
pub fn numbered(address: &address::Address) -> Address {
    let (kind, value, callsign) = match address {
        address::Address::Invalid => (0, 0, [0; 9]),
        address::Address::Callsign(Callsign(callsign)) => (1, 0, *callsign),
        address::Address::Reserved(value) => (2, *value, [0; 9]),
        address::Address::Broadcast => (3, 0, [0; 9]),
    };
    Address { kind, value, callsign }
}

pub fn show(address: &Address) -> String {
    match address.kind {
        0 => "invalid".into(),
        1 => format!("callsign {:?}", String::from_utf8_lossy(&address.callsign)),
        2 => format!("reserved {:X}", address.value),
        3 => "broadcast".into(),
        _ => format!("{address:?}"),
    }
}

/// What was read and written back has to be the same six bytes on either side.
fn read(input: &[u8]) -> Said {
    let ours = ours::decode_address(input);
    let Ok(six) = <[u8; 6]>::try_from(input) else {
        return match ours {
            Err(said) if said == refused(1) => Said::Refused,
            _ => Said::Different { rust: "(refusal 1 is called for)".into(), ours: shown(&ours, show) },
        };
    };
    let rust = address::decode_address(six);
    let said = Ok(numbered(&rust));
    if said != ours {
        return Said::Different { rust: shown(&said, show), ours: shown(&ours, show) };
    }
    let Address { kind, value, callsign } = numbered(&rust);
    let rust_wrote = address::encode_address(&rust);
    let ours_wrote = ours::encode_address(kind, value, &callsign);
    if rust_wrote != six || ours_wrote != Ok(six) {
        return Said::Different {
            rust: format!("written back: {}", hex(&rust_wrote)),
            ours: format!("written back: {}", shown(&ours_wrote, |bytes| hex(bytes))),
        };
    }
    Said::Same { tied: false }
}

fn to_write(random: &mut Random, wanted: &Wanted, take: Take) -> Result<(), Stop> {
    let mut give =
        |kind: u8, value: u64, callsign: &[u8]| take(&[&[kind], &value.to_be_bytes()[..], callsign].concat());
    let lower = ALPHABET.map(|byte| byte.to_ascii_lowercase());
    for _ in 0..wanted.many_or(10_000, 50_000) {
        let mut callsign: Vec<u8> = (0..9).map(|_| ALPHABET[random.below(40)]).collect();
        give(1, 0, &callsign)?;
        // Spaces after a shorter callsign, and one before or within it.
        callsign[1 + random.below(8)..].fill(b' ');
        give(1, 0, &callsign)?;
        for byte in &mut callsign {
            if random.below(2) == 1 {
                *byte = lower[random.below(40)];
            }
        }
        give(1, 0, &callsign)?;
        callsign[random.below(9)] = random.number() as u8;
        give(1, 0, &callsign)?;
        give(1, 0, &random.bytes(9))?;
    }
    // Each byte at each place, among spaces and among letters.
    for byte in 0..=255 {
        for place in 0..9 {
            for around in [b' ', b'A'] {
                let mut callsign = [around; 9];
                callsign[place] = byte;
                give(1, 0, &callsign)?;
            }
        }
    }
    let bounds = [0, 1, CALLSIGNS_END, BROADCAST, 1 << 48, (1 << 48) + CALLSIGNS_END, u64::MAX];
    for bound in bounds {
        for value in bound.saturating_sub(2)..=bound.saturating_add(2) {
            give(2, value, &[b' '; 9])?;
        }
    }
    for _ in 0..wanted.many(20_000) {
        let value = random.number() >> random.below(64);
        give(2, value, &[b' '; 9])?;
    }
    for kind in [0, 1, 2, 3, 4, 255] {
        for len in 0..20 {
            let value = CALLSIGNS_END + random.number() % (BROADCAST - CALLSIGNS_END);
            give(kind, value, &vec![b'A'; len])?;
        }
    }
    for kind in [0, 3] {
        give(kind, random.number(), &random.bytes(9))?;
    }
    Ok(())
}

fn write(input: &[u8]) -> Said {
    let (kind, value) = (input[0], u64::from_be_bytes(input[1..9].try_into().unwrap()));
    let callsign = &input[9..];
    let ours = ours::encode_address(kind, value, callsign);
    let rust = shared(kind, value, callsign).map(|address| address::encode_address(&address));
    called_for(rust, ours, |bytes| hex(bytes))
}

/// The address as the Rust has it, or the refusal that is called for. The characters are looked at only for a callsign,
/// but there have to be nine of them.
/// Shared with the Rust: invalid, broadcast, callsigns of the alphabet that are not all spaces, and reserved values
/// of their range. Other callsigns and values the Rust writes as something, and ours refuses with 6; a kind that is
/// none of the four cannot be said in the Rust, and ours refuses it with 2.
pub fn shared(kind: u8, value: u64, callsign: &[u8]) -> Result<address::Address, Refused> {
    let nine = <[u8; 9]>::try_from(callsign).map_err(|_| refused(1))?;
    match kind {
        0 => Ok(address::Address::Invalid),
        1 if readable(&nine) => Ok(address::Address::Callsign(Callsign(nine))),
        2 if (CALLSIGNS_END..BROADCAST).contains(&value) => Ok(address::Address::Reserved(value)),
        3 => Ok(address::Address::Broadcast),
        1 | 2 => Err(refused(6)),
        _ => Err(refused(2)),
    }
}

fn readable(callsign: &[u8; 9]) -> bool {
    let known = callsign.iter().all(|byte| ALPHABET.contains(&byte.to_ascii_uppercase()));
    known && callsign.iter().any(|&byte| byte != b' ')
}

/// An address of the shared domain: callsigns of either case, with and without spaces after them, the most often.
pub fn any_shared(random: &mut Random) -> Address {
    let mut callsign = [b' '; 9];
    let len = 1 + random.below(9);
    for byte in &mut callsign[..len] {
        *byte = ALPHABET[1 + random.below(39)];
        if random.below(3) == 0 {
            byte.make_ascii_lowercase();
        }
    }
    let reserved = CALLSIGNS_END + random.number() % (BROADCAST - CALLSIGNS_END);
    match random.below(8) {
        0 => Address { kind: 0, value: random.number(), callsign },
        1 => Address { kind: 2, value: reserved, callsign },
        2 => Address { kind: 3, value: random.number(), callsign },
        _ => Address { kind: 1, value: random.number(), callsign },
    }
}

/// An address outside of it: a foreign byte, nothing but spaces, a value out of its range, a kind that is none.
pub fn any_refused(random: &mut Random) -> Address {
    let mut given = Address { kind: 1, ..any_shared(random) };
    match random.below(4) {
        0 => given.callsign[random.below(9)] = [0, b'_', b'@', b'[', b'`', b'{', b':', 0x7F, 0xFF][random.below(9)],
        1 => given.callsign = [b' '; 9],
        2 => {
            (given.kind, given.value) =
                (2, [random.number() % CALLSIGNS_END, random.number() | BROADCAST][random.below(2)])
        }
        _ => given.kind = 4 + random.below(252) as u8,
    }
    given
}
