//! Runs of slots, as one receiver hears them from its start.
use crate::random::Random;
use crate::slots::*;
use model::{MEMORY, SLOT};
use oracle::crc::m17_crc;
use oracle::protocol::LsfFrame;
use ours::Receiver;

#[derive(Clone, Debug)]
pub enum Step {
    Slot(Slot),
    /// A slot that comes with other memory than the packet memory, of another length.
    Beside(Slot, Vec<u8>),
    /// The caller hands in a state of its own making.
    State(Receiver),
}

#[derive(Clone, Debug)]
pub struct Run {
    pub memory: Vec<u8>,
    pub steps: Vec<Step>,
}

/// Packets of one frame and of several, at both ends of a frame, and the longest.
const LENGTHS: [usize; 16] = [3, 4, 24, 25, 26, 27, 28, 49, 50, 51, 75, 799, 800, 801, 802, 825];

/// Clean packets of each length class, or of every length.
pub fn clean(random: &mut Random, every: bool) -> Vec<Run> {
    let lengths: Vec<usize> = if every { (3..=MEMORY).collect() } else { LENGTHS.to_vec() };
    let mut run = |len| {
        let message = message(random, len);
        Run { memory: random.bytes(MEMORY), steps: slots(packet(random, &message)) }
    };
    lengths.into_iter().map(&mut run).collect()
}

/// A few parts of any sort, one after another, half of them disturbed.
pub fn mixed(random: &mut Random) -> Run {
    let memory = random.bytes(MEMORY);
    let mut steps = Vec::new();
    for _ in 0..1 + random.below(5) {
        let mut part = part(random, &memory);
        if random.below(2) == 0 {
            disturb(random, &mut part);
        }
        steps.extend(part);
    }
    Run { memory, steps }
}

fn slots(slots: Vec<Slot>) -> Vec<Step> {
    slots.into_iter().map(Step::Slot).collect()
}

fn part(random: &mut Random, memory: &[u8]) -> Vec<Step> {
    match random.below(16) {
        0..4 => slots(any_packet(random)),
        4 => slots(odd_packet(random)),
        5..9 => slots(stream(random)),
        9 | 10 => slots(mixed_senders(random)),
        11 => vec![Step::Slot(header_of_any_sort(random))],
        12 => vec![Step::Slot(single(random))],
        13 => vec![other_length(random)],
        14 => good_state(random, memory),
        _ => any_state(random),
    }
}

/// A length of a packet: most are short, and at the ends of a frame.
fn length(random: &mut Random) -> usize {
    let frames = if random.below(12) == 0 { random.below(33) } else { random.below(4) };
    let last = [1, 2, 3, 24, 25, 1 + random.below(25)][random.below(6)];
    (25 * frames + last).max(3)
}

/// A clean packet; now and then one whose CRC is wrong.
fn any_packet(random: &mut Random) -> Vec<Slot> {
    let len = length(random);
    let mut message = message(random, len);
    if random.below(8) == 0 {
        message[random.below(len)] ^= 1 << random.below(8);
    }
    packet(random, &message)
}

/// A packet whose final frame has a length of any five bits, or is too short in all though its CRC is zero, or comes
/// after a message that is whole without it, or which goes on past frame 31.
fn odd_packet(random: &mut Random) -> Vec<Slot> {
    let mut slots = vec![header_slot(&header(random, false))];
    match random.below(8) {
        0 => slots.push(final_slot(&[0xFF, 0xFF])),
        1 => slots.push(final_slot(&[0x00])),
        2 => {
            let message = message(random, 25);
            slots.extend([frame_slot(0, &message), final_slot(&[])]);
        }
        3 => {
            slots.extend((0..32).map(|index| frame_slot(index, &random.bytes(25))));
            let index = [0, 31, random.below(32)][random.below(3)];
            slots.push(frame_slot(index, &random.bytes(25)));
        }
        _ => {
            slots.extend((0..random.below(3)).map(|index| frame_slot(index, &random.bytes(25))));
            let length = [0, 26, 31, random.below(32) as u8][random.below(4)];
            slots.push(odd_final_slot(random, length));
        }
    }
    slots
}

/// A stream joined anywhere: with or without its header before it, counted round and round. Its header may be spoiled.
fn stream(random: &mut Random) -> Vec<Slot> {
    let mut header = header(random, true);
    if random.below(6) == 0 {
        header = spoiled(random, header);
    }
    let mut slots = Vec::new();
    if random.below(3) == 0 {
        slots.push(header_slot(&header));
    }
    let joined_at = random.below(6);
    slots.extend((0..1 + random.below(14)).map(|turn| stream_slot(random, &header, (joined_at + turn) % 6)));
    if random.below(3) == 0 {
        slots.push(any_end_slot(random));
    }
    slots
}

/// The counters of one stream, each slot from either of two senders; now and then a counter out of turn, 6 and 7 too.
fn mixed_senders(random: &mut Random) -> Vec<Slot> {
    let senders = [header(random, true), header(random, true)];
    let joined_at = random.below(6);
    let changes_at = random.below(12);
    let sort = random.below(3);
    (0..12)
        .map(|turn| {
            let sender = if sort == 0 { random.below(2) } else { (turn >= changes_at) as usize };
            let counter = if random.below(12) == 0 { random.below(8) } else { (joined_at + turn) % 6 };
            stream_slot(random, &senders[sender], counter)
        })
        .collect()
}

fn header_of_any_sort(random: &mut Random) -> Slot {
    let stream = random.below(2) == 0;
    let good = header(random, stream);
    header_slot(&match random.below(8) {
        0 => LsfFrame([0; 30]),
        1..4 => spoiled(random, good),
        _ => good,
    })
}

fn single(random: &mut Random) -> Slot {
    match random.below(5) {
        0 => any_end_slot(random),
        1 | 2 => unknown_sync(random),
        3 => any_body(random),
        _ => random.bytes(SLOT),
    }
}

/// A slot of another length, memory of another length, or both.
fn other_length(random: &mut Random) -> Step {
    let slot_len = [0, 1, 2, 46, 47, 49, 96, random.below(200)][random.below(8)];
    let memory_len = [0, 1, 25, 824, 826, 1650, random.below(1000)][random.below(7)];
    let whole = if random.below(2) == 0 { any_body(random) } else { header_of_any_sort(random) };
    let cut: Slot = whole.iter().copied().cycle().take(slot_len).collect();
    match random.below(3) {
        0 => Step::Slot(cut),
        1 => Step::Beside(whole, random.bytes(memory_len)),
        _ => Step::Beside(cut, random.bytes(memory_len)),
    }
}

/// A state as a receiver would have it at some place of a packet or of a stream, any bytes where none are called for, and
/// what comes after it. The packet's first bytes are those that the memory held at the start.
fn good_state(random: &mut Random, memory: &[u8]) -> Vec<Step> {
    let parts: [u8; 30] = random.bytes(30).try_into().unwrap();
    if random.below(2) == 0 {
        let count = [0, 1, 2, 31, 32, random.below(33)][random.below(6)];
        let state = Receiver { count, phase: 1, parts };
        let len = 3 + random.below(23);
        let content = [&memory[..25 * count], &random.bytes(len - 2)].concat();
        let whole = [&content[..], &m17_crc(&content).to_be_bytes()].concat();
        return vec![Step::State(state), Step::Slot(final_slot(&whole[25 * count..]))];
    }
    let header = header(random, true);
    let count = random.below(6);
    let mut state = Receiver { count, phase: 2, parts };
    state.parts[..5 * count].copy_from_slice(&header.0[..5 * count]);
    let mut steps = vec![Step::State(state)];
    steps.extend((count..6).map(|counter| Step::Slot(stream_slot(random, &header, counter))));
    steps
}

/// Any state, bad ones among them, and a slot that may continue it. A bad state stays until another is handed in.
fn any_state(random: &mut Random) -> Vec<Step> {
    let count = match random.below(4) {
        0 => random.number() as usize,
        1 => random.below(300),
        2 => [5, 6, 31, 32, 33, 1 << 8, (1 << 8) + 1, 1 << 32, (1 << 32) + 1, usize::MAX][random.below(10)],
        _ => random.below(40),
    };
    let phase = if random.below(5) == 0 { random.below(256) } else { random.below(3) } as u8;
    let mut steps = vec![Step::State(Receiver { count, phase, parts: random.bytes(30).try_into().unwrap() })];
    let header = header(random, true);
    for _ in 0..1 + random.below(2) {
        steps.push(match random.below(6) {
            0 => Step::Slot(frame_slot(count % 32, &random.bytes(25))),
            1 | 2 => Step::Slot(stream_slot(random, &header, count % 8)),
            3 => other_length(random),
            4 => Step::Slot(final_slot(&random.bytes(7))),
            _ => Step::Slot(single(random)),
        });
    }
    if random.below(2) == 0 {
        steps.push(Step::State(ours::receiver_new()));
    }
    steps
}

/// Loses, doubles, swaps or damages slots, gives them another sync, or brings another one in between.
fn disturb(random: &mut Random, steps: &mut Vec<Step>) {
    for _ in 0..1 + random.below(3) {
        if steps.is_empty() {
            return;
        }
        let place = random.below(steps.len());
        match random.below(9) {
            0 => drop(steps.remove(place)),
            1 => steps.insert(place, steps[place].clone()),
            2 => {
                let other = random.below(steps.len());
                steps.swap(place, other);
            }
            3 => steps.insert(place, Step::Slot(single(random))),
            4 => steps.insert(place, other_length(random)),
            5 => {
                if let Step::Slot(slot) = &mut steps[place] {
                    slot.splice(..slot.len().min(2), any_sync(random));
                }
            }
            _ => {
                if let Step::Slot(slot) = &mut steps[place] {
                    damage(random, slot);
                }
            }
        }
    }
}
