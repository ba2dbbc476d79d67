//! The comparison of gathered LICH parts.
use crate::comparison::{same, Comparison, Said, Stop, Take, Wanted};
use crate::leaves::{called_for, shown};
use crate::observe::hex;
use crate::random::Random;
use oracle::protocol::LichCollection;
use ours::{refused, Collection};

pub const ALL: [Comparison; 2] = [
    Comparison {
        name: "collection",
        layout: "the 30 bytes and the six flags, and then steps: counter and part",
        shortest: Some(36),
        counts_ties: false,
        inputs: sequences,
        check: gathered,
    },
    Comparison {
        name: "collection part",
        layout: "the 30 bytes and the six flags, a counter, and a part of any length",
        shortest: Some(37),
        counts_ties: false,
        inputs: parts,
        check: one_part,
    },
];

/// Memory as a caller may have it: any bytes, and any number of parts set, each by a flag of any value but 0.
fn memory(random: &mut Random) -> Vec<u8> {
    let mut input = random.bytes(36);
    let share = random.below(4);
    for flag in &mut input[30..] {
        *flag = if random.below(4) < share { 1 + random.below(255) as u8 } else { 0 };
    }
    input
}

fn sequences(random: &mut Random, wanted: &Wanted, take: Take) -> Result<(), Stop> {
    for turn in 0..wanted.many_or(5_000, 50_000) {
        let mut input = memory(random);
        let turning = random.below(6);
        for step in 0..random.below(13) {
            // Half of them in turn, as a sender gives them; of the others some counters are over 5.
            let counter = if turn % 2 == 0 { (turning + step) % 6 } else { random.below(8) };
            let counter = if random.below(50) == 0 { random.below(256) } else { counter };
            input.push(counter as u8);
            input.extend(random.bytes(5));
        }
        take(&input)?;
    }
    Ok(())
}

fn collection(input: &[u8]) -> (Collection, LichCollection) {
    let ours = Collection { parts: input[..30].try_into().unwrap(), set: input[30..36].try_into().unwrap() };
    let mut rust = LichCollection::new();
    for (counter, part) in ours.parts.chunks(5).enumerate().filter(|(counter, _)| ours.set[*counter] != 0) {
        rust.set_segment(counter as u8, part.try_into().unwrap());
    }
    (ours, rust)
}

/// The count and the assembly of both.
fn looked_at(ours: &Collection, rust: &LichCollection) -> Said {
    let count = Ok(rust.valid_segments() as u8);
    match same(count, ours::valid_segments(ours), |said| shown(said, u8::to_string)) {
        Said::Same { .. } => (),
        said => return said,
    }
    let show = |header: &Option<[u8; 30]>| header.map_or("not yet".into(), |header| hex(&header));
    same(Ok(rust.try_assemble()), ours::try_assemble(ours), |said| shown(said, show))
}

/// What our memory has to be after a part is set: five bytes are changed, and all six flags are written as 0 or 1.
/// The document has no flags in bytes: that others than 0 and 1 become 1 is what include/m17.h says.
fn with(before: &Collection, counter: u8, part: &[u8]) -> Collection {
    let mut after = *before;
    let counter = counter as usize;
    after.parts[5 * counter..5 * counter + 5].copy_from_slice(part);
    after.set[counter] = 1;
    after.set = after.set.map(|flag| (flag != 0) as u8);
    after
}

/// A step with a counter over 5 is refused and changes nothing, and the steps go on.
fn gathered(input: &[u8]) -> Said {
    let (mut ours, mut rust) = collection(input);
    let mut refusals = 0;
    for step in input[36..].chunks_exact(6) {
        let (counter, part) = (step[0], &step[1..]);
        let wanted = if counter > 5 { Err(refused(2)) } else { Ok(with(&ours, counter, part)) };
        match called_for(wanted, ours::set_segment(&ours, counter, part), show) {
            Said::Refused => refusals += 1,
            Said::Same { .. } => {
                ours = wanted.unwrap();
                rust.set_segment(counter, part.try_into().unwrap());
            }
            said => return said,
        }
        match looked_at(&ours, &rust) {
            Said::Same { .. } => (),
            said => return said,
        }
    }
    match looked_at(&ours, &rust) {
        Said::Same { .. } if refusals > 0 => Said::Refused,
        said => said,
    }
}

fn show(collection: &Collection) -> String {
    format!("{} with flags {}", hex(&collection.parts), hex(&collection.set))
}

fn parts(random: &mut Random, wanted: &Wanted, take: Take) -> Result<(), Stop> {
    for turn in 0..wanted.many(2_000) {
        let mut input = memory(random);
        input.push(random.below(8) as u8);
        input.extend(random.bytes(turn % 12));
        take(&input)?;
    }
    Ok(())
}

/// Another length than five is refused before the counter is looked at.
fn one_part(input: &[u8]) -> Said {
    let (ours, _) = collection(input);
    let (counter, part) = (input[36], &input[37..]);
    let wanted = match (part.len(), counter) {
        (5, 0..6) => Ok(with(&ours, counter, part)),
        (5, _) => Err(refused(2)),
        _ => Err(refused(1)),
    };
    called_for(wanted, ours::set_segment(&ours, counter, part), show)
}
