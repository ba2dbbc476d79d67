//! The slot receiver beside the model of it, over runs of slots from the start.
use crate::comparison::{Tally, Wanted};
use crate::observe::hex;
use crate::random::Random;
use crate::runs::{clean, mixed, Run, Step};
use model::{Answer, Late, State, MEMORY};
use ours::{Received, Receiver};

/// How often each answer and each refusal came, by their numbers in include/m17.h, before a run ended or the two sides
/// parted.
#[derive(Default)]
pub struct Heard {
    pub answers: [u64; 8],
    pub refusals: [u64; 13],
    parted: Option<Parted>,
}

struct Parted {
    /// The place of the step in the run, and what the receiver was handed with it.
    step: usize,
    state: Receiver,
    memory: Vec<u8>,
    model: String,
    ours: String,
}

/// The smallest run found on which the two sides part.
pub struct Difference {
    run: Run,
    model: String,
    ours: String,
}

impl Heard {
    pub fn tally(&self) -> Tally {
        let (answered, refused) = (self.answers.iter().sum(), self.refusals.iter().sum());
        Tally { inputs: answered + refused, answered, refused, ..Tally::default() }
    }

    fn add(&mut self, other: &Heard) {
        self.answers.iter_mut().zip(other.answers).for_each(|(sum, more)| *sum += more);
        self.refusals.iter_mut().zip(other.refusals).for_each(|(sum, more)| *sum += more);
    }
}

/// Hears clean packets, then mixed runs until so many slots are heard in all, or a difference shows.
pub fn run(random: &mut Random, wanted: &Wanted) -> (Heard, Option<Difference>) {
    let many = wanted.many_or(20_000, 2_000_000) as u64;
    let mut all = Heard::default();
    let mut clean = clean(random, wanted.full).into_iter();
    while all.tally().inputs < many {
        let run = clean.next().unwrap_or_else(|| mixed(random));
        let heard = hear(&run);
        all.add(&heard);
        if let Some(parted) = heard.parted {
            return (all, Some(smaller(run, parted)));
        }
    }
    (all, None)
}

/// What a state means to document 01. A count that is too high is bad, whatever it is; include/m17.h has another phase
/// refused with 12 as well.
fn meaning(state: &Receiver) -> State {
    match state.phase {
        0 => State::Idle,
        1 => State::Packet(state.count),
        2 => State::Gathering(state.parts.chunks(5).take(state.count).map(|part| part.try_into().unwrap()).collect()),
        _ => State::Packet(33),
    }
}

/// The struct that include/m17.h calls for. What an answer does not carry is 0.
fn called_for(answer: &Result<Answer, u8>, next: Receiver) -> Received {
    let mut wanted = Received {
        number: 0,
        next,
        frame_number: 0,
        said: 0,
        answer: 0,
        header: [0; 30],
        lich_idx: 0,
        lich_part: [0; 5],
        end_of_stream: 0,
        stream_data: [0; 16],
    };
    match answer {
        Err(number) => wanted.said = *number,
        Ok(Answer::Header(header)) => (wanted.answer, wanted.header) = (1, *header),
        Ok(Answer::Stored { index }) => (wanted.answer, wanted.number) = (2, *index),
        Ok(Answer::Packet { total }) => (wanted.answer, wanted.number) = (3, *total),
        Ok(Answer::Stream(frame, late)) => {
            wanted.answer = match late {
                Late::Nothing => 4,
                Late::Header(_) => 5,
                Late::Spoiled => 6,
            };
            if let Late::Header(header) = late {
                wanted.header = *header;
            }
            wanted.lich_idx = frame.lich_idx;
            wanted.lich_part = frame.lich_part;
            wanted.frame_number = frame.frame_number;
            wanted.end_of_stream = frame.end_of_stream as u8;
            wanted.stream_data = frame.stream_data;
        }
        Ok(Answer::End) => wanted.answer = 7,
    }
    wanted
}

/// Hears a run on both sides. After each slot the answer and all that it carries, the meaning of the next state and the
/// whole memory are compared; a refusal with 1 or 12 has to hand the state back as it came.
fn hear(run: &Run) -> Heard {
    let mut heard = Heard::default();
    let (mut state, mut models_state) = (ours::receiver_new(), State::Idle);
    let (mut memory, mut models_memory) = (run.memory.clone(), run.memory.clone());
    for (step, taken) in run.steps.iter().enumerate() {
        let mut others;
        let (slot, lent, models_lent) = match taken {
            Step::State(given) => {
                (state, models_state) = (*given, meaning(given));
                continue;
            }
            Step::Slot(slot) => (slot, &mut memory, &mut models_memory),
            Step::Beside(slot, other) => {
                others = (other.clone(), other.clone());
                (slot, &mut others.0, &mut others.1)
            }
        };
        let before = lent.clone();
        let ours = ours::receive(state, slot, lent);
        let model = model::receive(&mut models_state, models_lent, slot);
        let as_given = matches!(model, Err(1 | 12));
        let same_state = if as_given { ours.next == state } else { meaning(&ours.next) == models_state };
        if ours != called_for(&model, ours.next) || !same_state || lent != models_lent {
            let place = lent.iter().zip(&*models_lent).position(|(ours, model)| ours != model);
            let place = place.map_or(String::new(), |place| format!("; the memory differs at {place}"));
            let next = if as_given { "the state as it was".into() } else { format!("{models_state:?}") };
            let (model, ours) = (format!("{model:?}, then {next}"), show(&ours) + &place);
            heard.parted = Some(Parted { step, state, memory: before, model, ours });
            return heard;
        }
        match model {
            Ok(_) => heard.answers[ours.answer as usize] += 1,
            Err(number) => heard.refusals[number as usize] += 1,
        }
        state = ours.next;
    }
    heard
}

/// Drops what comes after the parting, and then steps, many at a time and at last one by one, for as long as the two
/// sides part. Where more than a few are left, the state is handed in instead of what led to it.
fn smaller(mut run: Run, mut parted: Parted) -> Difference {
    run.steps.truncate(parted.step + 1);
    let mut many = run.steps.len();
    while many > 0 {
        let fewer = (0..run.steps.len()).find_map(|start| {
            let mut fewer = run.clone();
            fewer.steps.drain(start..(start + many).min(run.steps.len()));
            let parted = hear(&fewer).parted?;
            fewer.steps.truncate(parted.step + 1);
            Some((fewer, parted))
        });
        match fewer {
            Some(fewer) => (run, parted) = fewer,
            None => many /= 2,
        }
    }
    if run.steps.len() > 8 {
        let steps = vec![Step::State(parted.state), run.steps[parted.step].clone()];
        let handed = Run { memory: parted.memory.clone(), steps };
        still_parting(&mut run, &mut parted, handed);
    }
    let blank = Run { memory: vec![0; MEMORY], ..run.clone() };
    still_parting(&mut run, &mut parted, blank);
    Difference { run, model: parted.model, ours: parted.ours }
}

/// Takes another run instead if the two sides part on it too.
fn still_parting(run: &mut Run, parted: &mut Parted, other: Run) {
    if let Some(there) = hear(&other).parted {
        (*run, *parted) = (other, there);
    }
}

/// What is not 0 of an answer, and the next state.
fn show(received: &Received) -> String {
    let Received { number, said, answer, frame_number, lich_idx, end_of_stream, .. } = received;
    let numbers = [
        ("said", *said as usize),
        ("answer", *answer as usize),
        ("number", *number),
        ("lich_idx", *lich_idx as usize),
        ("frame_number", *frame_number as usize),
        ("end_of_stream", *end_of_stream as usize),
    ];
    let bytes = [
        ("header", &received.header[..]),
        ("lich_part", &received.lich_part[..]),
        ("stream_data", &received.stream_data[..]),
    ];
    let numbers = numbers.iter().filter(|(_, number)| *number != 0).map(|(name, number)| format!("{name} {number}"));
    let bytes = bytes.iter().filter(|(_, bytes)| bytes.iter().any(|&byte| byte != 0));
    let fields: Vec<String> = numbers.chain(bytes.map(|(name, bytes)| format!("{name} {bytes:?}"))).collect();
    let Receiver { count, phase, .. } = received.next;
    format!("{}, then phase {phase}, count {count}: {:?}", fields.join(", "), meaning(&received.next))
}

impl Difference {
    pub fn print(&self) {
        let Run { memory, steps } = &self.run;
        let blank = memory.iter().all(|&byte| byte == 0);
        println!("\nThe smallest run found on which the receiver differs from the model of it:");
        println!("  packet memory: {}", if blank { "825 bytes 00".into() } else { hex(memory) });
        for step in steps {
            match step {
                Step::Slot(slot) => println!("  slot: {}", hex(slot)),
                Step::Beside(slot, memory) => println!("  slot: {}\n    with memory: {}", hex(slot), hex(memory)),
                Step::State(Receiver { count, phase, parts }) => {
                    println!("  state: phase {phase}, count {count}, parts {}", hex(parts))
                }
            }
        }
        println!("  the model: {}\n  ours:      {}", self.model, self.ours);
    }
}
