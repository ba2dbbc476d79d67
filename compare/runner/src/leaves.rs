//! The comparisons of bits, crc, random, interleave and golay.
use crate::comparison::{same, Comparison, Said, Stop, Take, Wanted};
use crate::observe::{answer, hex};
use crate::random::Random;
use cai_golay::extended as golay;
use ours::{refused, Refused};

pub const ALL: [Comparison; 9] = [
    Comparison {
        name: "get_bit",
        layout: "the place in eight bytes, highest first, and then the bytes",
        shortest: Some(8),
        counts_ties: false,
        inputs: places_to_get,
        check: get_bit,
    },
    Comparison {
        name: "set_bit",
        layout: "the place in eight bytes, highest first, the value, and then the bytes",
        shortest: Some(9),
        counts_ties: false,
        inputs: places_to_set,
        check: set_bit,
    },
    Comparison {
        name: "next_bit",
        layout: "the place in eight bytes, highest first, and then the bytes; from place 0 on all are read, and twice the end",
        shortest: Some(8),
        counts_ties: false,
        inputs: places_to_read,
        check: next_bit,
    },
    Comparison {
        name: "crc",
        layout: "the bytes",
        shortest: Some(0),
        counts_ties: false,
        inputs: messages,
        check: crc,
    },
    Comparison {
        name: "crc_update",
        layout: "the bytes; each of seven places is tried as the place where they are parted",
        shortest: Some(0),
        counts_ties: false,
        inputs: messages_to_part,
        check: crc_update,
    },
    Comparison {
        name: "random_xor",
        layout: "the bytes",
        shortest: Some(0),
        counts_ties: false,
        inputs: strings_to_xor,
        check: random_xor,
    },
    Comparison {
        name: "interleave",
        layout: "the payload",
        shortest: Some(0),
        counts_ties: false,
        inputs: payloads,
        check: interleave,
    },
    Comparison {
        name: "golay_encode",
        layout: "the value in two bytes, high first",
        shortest: None,
        counts_ties: false,
        inputs: values,
        check: golay_encode,
    },
    Comparison {
        name: "golay_decode",
        layout: "the word in four bytes, highest first",
        shortest: None,
        counts_ties: false,
        inputs: words,
        check: golay_decode,
    },
];

/// Ours refused with this number, and nothing else: the document's own answer outside the shared domain.
fn refusal<T: PartialEq>(number: u8, ours: Result<T, Refused>, show: impl Fn(&T) -> String) -> Said {
    match ours {
        Err(said) if said == refused(number) => Said::Refused,
        other => Said::Different { rust: format!("(refusal {number} is called for)"), ours: shown(&other, show) },
    }
}

/// The Rust's answer, or the refusal that the document calls for where the Rust cannot be asked.
pub fn called_for<T: PartialEq>(
    wanted: Result<T, Refused>,
    ours: Result<T, Refused>,
    show: impl Fn(&T) -> String,
) -> Said {
    match wanted {
        Ok(rust) => same(Ok(rust), ours, |said| shown(said, &show)),
        Err(said) => refusal(said.number, ours, show),
    }
}

/// An answer, or what was refused.
pub fn shown<T>(ours: &Result<T, Refused>, show: impl Fn(&T) -> String) -> String {
    match ours {
        Ok(answer) => show(answer),
        Err(Refused { number, wrote: false }) => format!("refuses {number}"),
        Err(Refused { number, wrote: true }) => format!("refuses {number}, and writes to lent memory"),
    }
}

fn place_of(input: &[u8]) -> usize {
    u64::from_be_bytes(input[..8].try_into().unwrap()) as usize
}

/// Every place of strings of the lengths 0 to `longest` in turn, and a few past the end.
fn places(
    random: &mut Random,
    strings: usize,
    longest: usize,
    mut take: impl FnMut(usize, &[u8]) -> Result<(), Stop>,
) -> Result<(), Stop> {
    for turn in 0..strings {
        let len = turn % (longest + 1);
        let bytes = random.bytes(len);
        for place in (0..8 * len + 9).chain([usize::MAX / 8, usize::MAX]) {
            take(place, &bytes)?;
        }
    }
    Ok(())
}

fn places_to_get(random: &mut Random, wanted: &Wanted, take: Take) -> Result<(), Stop> {
    places(random, wanted.many(196), 48, |place, bytes| take(&[&place.to_be_bytes()[..], bytes].concat()))
}

fn places_to_read(random: &mut Random, wanted: &Wanted, take: Take) -> Result<(), Stop> {
    places(random, wanted.many(195), 64, |place, bytes| take(&[&place.to_be_bytes()[..], bytes].concat()))
}

fn places_to_set(random: &mut Random, wanted: &Wanted, take: Take) -> Result<(), Stop> {
    places(random, wanted.many(196), 48, |place, bytes| {
        for value in [0, 1, 2, 255] {
            take(&[&place.to_be_bytes()[..], &[value], bytes].concat())?;
        }
        Ok(())
    })
}

fn get_bit(input: &[u8]) -> Said {
    let (place, bytes) = (place_of(input), &input[8..]);
    let ours = ours::get_bit(bytes, place);
    match answer(|| oracle::get_bit(bytes, place)) {
        Some(rust) => same(Ok(rust), ours, |said| shown(said, u8::to_string)),
        None => refusal(2, ours, u8::to_string),
    }
}

/// The Rust's iterator keeps its place to itself: past a bit it is the next, and at the end it stays.
fn next_bit(input: &[u8]) -> Said {
    let (place, bytes) = (place_of(input), &input[8..]);
    if place == 0 {
        let mut rust: Vec<_> = oracle::bits_of(bytes).into_iter().map(Some).collect();
        rust.extend([None, None]);
        let mut place = 0;
        let ours: Vec<_> = rust.iter().map(|_| step(bytes, &mut place)).collect();
        return same(rust, ours, |all| format!("{all:?}"));
    }
    let rust = oracle::next_bit(bytes, place);
    let after = if rust.is_some() { place + 1 } else { place };
    same((rust, after), ours::next_bit(bytes, place), |said| format!("{said:?}"))
}

fn step(bytes: &[u8], place: &mut usize) -> Option<u8> {
    let (bit, next) = ours::next_bit(bytes, *place);
    *place = next;
    bit
}

fn set_bit(input: &[u8]) -> Said {
    let (place, value, before) = (place_of(input), input[8], &input[9..]);
    let mut bytes = before.to_vec();
    let ours = match ours::set_bit(&mut bytes, place, value) {
        0 => Ok(bytes),
        number => Err(Refused { number, wrote: bytes != before }),
    };
    let rust = answer(|| {
        let mut bytes = before.to_vec();
        oracle::set_bit(&mut bytes, place, value);
        bytes
    });
    let show = |bytes: &Vec<u8>| hex(bytes);
    match rust {
        Some(rust) => same(Ok(rust), ours, |said| shown(said, show)),
        None => refusal(2, ours, show),
    }
}

/// Nothing, all of one and of two bytes, and longer ones.
fn messages(random: &mut Random, wanted: &Wanted, take: Take) -> Result<(), Stop> {
    take(&[])?;
    for byte in 0..=255 {
        take(&[byte])?;
    }
    for pair in 0..=u16::MAX {
        take(&pair.to_be_bytes())?;
    }
    for _ in 0..wanted.many(20_000) {
        let len = random.below(901);
        take(&random.bytes(len))?;
    }
    Ok(())
}

/// Each is asked of fourteen times, so there are fewer of them.
fn messages_to_part(random: &mut Random, wanted: &Wanted, take: Take) -> Result<(), Stop> {
    for len in 0..50 {
        take(&random.bytes(len))?;
    }
    for _ in 0..wanted.many_or(2_000, 20_000) {
        let len = random.below(901);
        take(&random.bytes(len))?;
    }
    Ok(())
}

fn crc(input: &[u8]) -> Said {
    same(oracle::crc::m17_crc(input), ours::crc(input), |crc| format!("{crc:04X}"))
}

/// The Rust has no CRC that goes on, so its CRC of the whole is what every parting has to give.
fn crc_update(input: &[u8]) -> Said {
    let rust = oracle::crc::m17_crc(input);
    let len = input.len();
    for place in [0, 1, 2, len / 3, len / 2, len.saturating_sub(1), len] {
        let (first, rest) = input.split_at(place.min(len));
        for start in [ours::crc(first), ours::crc_update(0xFFFF, first)] {
            let ours = ours::crc_update(start, rest);
            if rust != ours {
                return same(rust, ours, |crc| format!("{crc:04X}, parted at {place}"));
            }
        }
    }
    Said::Same { tied: false }
}

fn strings_to_xor(random: &mut Random, wanted: &Wanted, take: Take) -> Result<(), Stop> {
    for len in [0, 1, 45, 46, 47, 92, 368, 1000] {
        for _ in 0..wanted.many(1000) {
            take(&random.bytes(len))?;
        }
    }
    Ok(())
}

fn random_xor(input: &[u8]) -> Said {
    let (mut rust, mut ours) = (input.to_vec(), input.to_vec());
    oracle::random_xor(&mut rust);
    ours::random_xor(&mut ours);
    same(rust, ours, |bytes| hex(bytes))
}

/// Every unit vector, random payloads, and other lengths.
fn payloads(random: &mut Random, wanted: &Wanted, take: Take) -> Result<(), Stop> {
    for place in 0..368 {
        let mut unit = [0; 46];
        unit[place / 8] = 0x80 >> (place % 8);
        take(&unit)?;
    }
    for _ in 0..wanted.many(20_000) {
        take(&random.bytes(46))?;
    }
    for len in (0..100).filter(|&len| len != 46) {
        take(&random.bytes(len))?;
    }
    Ok(())
}

/// The Rust panics on less than 46 bytes and reads the first 46 of more; ours refuses both.
fn interleave(input: &[u8]) -> Said {
    let ours = ours::interleave(input);
    let show = |bytes: &[u8; 46]| hex(bytes);
    if input.len() == 46 {
        return same(Ok(oracle::interleave(input)), ours, |said| shown(said, show));
    }
    refusal(1, ours, show)
}

fn values(_: &mut Random, _: &Wanted, take: Take) -> Result<(), Stop> {
    (0..=u16::MAX).try_for_each(|value| take(&value.to_be_bytes()))
}

fn golay_encode(input: &[u8]) -> Said {
    let value = u16::from_be_bytes(input.try_into().unwrap());
    let ours = ours::golay_encode(value);
    let show = |word: &u32| format!("{word:06X}");
    if value < 4096 {
        return same(Ok(golay::encode(value)), ours, |said| shown(said, show));
    }
    refusal(2, ours, show)
}

/// All words with `--full`; else random ones and all within four flips of a codeword.
fn words(random: &mut Random, wanted: &Wanted, take: Take) -> Result<(), Stop> {
    let mut word = |word: u32| take(&word.to_be_bytes());
    if wanted.full {
        (0..1 << 24).try_for_each(&mut word)?;
    }
    let data = [random.below(4096) as u16, 0, 1, 0xFFF];
    for &data in &data[..if wanted.full { 4 } else { 1 }] {
        let codeword = golay::encode(data);
        // A flip of bit 24 flips nothing, so that four places also stand for fewer.
        for i in 0..25 {
            for j in i..25 {
                for k in j..25 {
                    for l in k..25 {
                        let flips = (1u32 << i | 1 << j | 1 << k | 1 << l) & 0xFFFFFF;
                        word(codeword ^ flips)?;
                    }
                }
            }
        }
    }
    for _ in 0..wanted.many_or(10_000, 200_000) {
        word(random.number() as u32 >> 8)?;
    }
    for _ in 0..1000 {
        word(random.number() as u32 | 1 << (24 + random.below(8)))?;
    }
    Ok(())
}

fn golay_decode(input: &[u8]) -> Said {
    let word = u32::from_be_bytes(input.try_into().unwrap());
    let ours = ours::golay_decode(word);
    let rust = if word < 1 << 24 { golay::decode(word) } else { None };
    let show = |data: &u16| format!("{data:03X}");
    match rust {
        Some((data, _)) => same(Ok(data), ours, |said| shown(said, show)),
        None => refusal(4, ours, show),
    }
}
