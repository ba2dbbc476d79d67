//! bench [--seed N] [--rounds N]: times the Rust's functions and ours in turn on the same inputs, and says how much stack
//! they use.
use model::{State, MEMORY};
use oracle::protocol::{LsfFrame, PacketFrame, PacketFrameCounter, StreamFrame};
use oracle::Kind;
use runner::code::lengths;
use runner::slots::{damage, header, message, packet, stream_slot, Slot};
use runner::{bodies, frames, lich, random::Random, stack::depth, symbols::symbols, write};
use std::borrow::Borrow;
use std::hint::black_box;
use std::time::Instant;

/// Inputs are timed in lots of this size, and of each lot the best round counts: a pause then spoils one lot of one
/// round and not the figure.
const LOT: usize = 100;

struct Bench {
    random: Random,
    rounds: usize,
}

impl Bench {
    /// The nanoseconds of a call, the Rust's and ours.
    fn race<I, T, A, B>(&self, name: &str, inputs: &[I], rust: impl Fn(&T) -> A, ours: impl Fn(&T) -> B) -> [f64; 2]
    where
        I: Borrow<T>,
        T: ?Sized,
    {
        let mut best = vec![[f64::MAX; 2]; inputs.len().div_ceil(LOT)];
        for _ in 0..self.rounds {
            for (lot, best) in inputs.chunks(LOT).zip(&mut best) {
                best[0] = best[0].min(time(lot, &rust));
                best[1] = best[1].min(time(lot, &ours));
            }
        }
        let [rust, ours] = [0, 1].map(|side| best.iter().map(|lot| lot[side]).sum::<f64>() / inputs.len() as f64);
        println!("{name:28} {:>7} {rust:>10.1} {ours:>10.1} {:>7.3}", inputs.len(), ours / rust);
        [rust, ours]
    }

    fn inputs<I>(&mut self, count: usize, mut one: impl FnMut(&mut Random) -> I) -> Vec<I> {
        (0..count).map(|_| one(&mut self.random)).collect()
    }
}

/// The nanoseconds that a function takes on all inputs of a lot.
fn time<I: Borrow<T>, T: ?Sized, A>(lot: &[I], function: impl Fn(&T) -> A) -> f64 {
    let start = Instant::now();
    for input in lot {
        black_box(function(black_box(input.borrow())));
    }
    start.elapsed().as_nanos() as f64
}

fn leaves(bench: &mut Bench) {
    for len in [30, 825] {
        let inputs = bench.inputs(2000, |random| random.bytes(len));
        bench.race(&format!("crc, {len} bytes *"), &inputs, oracle::crc::m17_crc, ours::crc);
    }
    let inputs = bench.inputs(2000, |random| random.bytes(46));
    bench.race("interleave", &inputs, oracle::interleave, ours::interleave);
    let word = |bytes: &[u8]| u32::from_be_bytes(bytes.try_into().unwrap());
    for (name, flips) in [("clean", 0), ("three flips", 3), ("refused", 4)] {
        let inputs = bench.inputs(1000, |random| golay_word(random, flips));
        let name = format!("golay decode, {name} *");
        bench.race(&name, &inputs, |b| cai_golay::extended::decode(word(b)), |b| ours::golay_decode(word(b)));
    }
}

/// A codeword with so many different bits flipped. Four flips are within three of no codeword.
fn golay_word(random: &mut Random, flips: u32) -> Vec<u8> {
    let mut flipped = 0u32;
    while flipped.count_ones() < flips {
        flipped |= 1 << random.below(24);
    }
    (cai_golay::extended::encode(random.below(4096) as u16) ^ flipped).to_be_bytes().to_vec()
}

fn fec(bench: &mut Bench) {
    for kind in Kind::ALL {
        let name = format!("{kind:?}").to_lowercase();
        let rust = |received: &[u8]| oracle::fec_decode(kind, received);
        let ours = |received: &[u8]| ours::fec_decode(kind as u8, received);
        let inputs = bench.inputs(10_000, |random| frames::clean(kind, random).received(kind));
        bench.race(&format!("fec decode, clean {name}"), &inputs, rust, ours);
        let inputs = bench.inputs(10_000, |random| {
            let flips = 1 + random.below(8);
            frames::flipped(kind, random, flips).received(kind)
        });
        bench.race(&format!("fec decode, damaged {name}"), &inputs, rust, ours);
        let inputs = bench.inputs(10_000, |random| random.bytes(lengths(kind).0));
        let rust = |data: &[u8]| oracle::fec_encode(kind, data);
        bench.race(&format!("fec encode, {name}"), &inputs, rust, |data| ours::fec_encode(kind as u8, data));
    }
}

/// A body with so many coded bits flipped, of which a stream's LICH has none.
fn body(kind: Kind, random: &mut Random, flips: usize) -> Vec<u8> {
    let part = frames::flipped(kind, random, flips).received(kind);
    let whole = if kind == Kind::Stream { [lich::flipped(random, [0; 4]), part].concat() } else { part };
    bodies::on_air(&whole).to_vec()
}

fn reading(bench: &mut Bench) {
    for (state, most) in [("clean", 1), ("damaged", 9)] {
        let mut of = |kind| {
            let bodies = bench.inputs(5_000, |random| {
                let flips = random.below(most);
                body(kind, random, flips)
            });
            let on_air: Vec<Vec<f32>> = bodies.iter().map(|body| symbols(kind, body)).collect();
            (bodies, on_air)
        };
        let [(headers, headers_on_air), (streams, streams_on_air), (packets, packets_on_air)] = Kind::ALL.map(&mut of);
        bench.race(&format!("read, {state} header"), &headers, bodies::read_lsf, ours::read_lsf);
        bench.race(&format!("parse, {state} header"), &headers_on_air, oracle::parse_lsf, ours::parse_lsf);
        bench.race(&format!("read, {state} stream *"), &streams, bodies::read_stream, ours::read_stream);
        bench.race(&format!("parse, {state} stream *"), &streams_on_air, oracle::parse_stream, ours::parse_stream);
        bench.race(&format!("read, {state} packet"), &packets, bodies::read_packet, ours::read_packet);
        bench.race(&format!("parse, {state} packet"), &packets_on_air, oracle::parse_packet, ours::parse_packet);
    }
}

/// Each frame as the Rust has it and as ours has it.
fn writing(bench: &mut Bench) {
    let headers = bench.inputs(5_000, |random| {
        let header: [u8; 30] = random.bytes(30).try_into().unwrap();
        (LsfFrame(header), header)
    });
    let of = |(frame, _): &(LsfFrame, _)| bodies::write_lsf(&frame.0);
    bench.race("write header", &headers, of, |(_, header)| ours::write_lsf(header));
    let of = |(frame, _): &(LsfFrame, _)| oracle::encode_lsf(frame);
    bench.race("encode header", &headers, of, |(_, header)| ours::encode_lsf(header));

    let streams = bench.inputs(5_000, |random| {
        let mut frame = write::stream_of(&random.bytes(25));
        (frame.lich_idx, frame.frame_number) = (frame.lich_idx % 6, frame.frame_number & 0x7FFF);
        (write::for_rust(&frame), frame)
    });
    let of = |(frame, _): &(StreamFrame, _)| bodies::write_stream(frame);
    bench.race("write stream *", &streams, of, |(_, frame)| ours::write_stream(frame));
    let of = |(frame, _): &(StreamFrame, _)| oracle::encode_stream(frame);
    bench.race("encode stream *", &streams, of, |(_, frame)| ours::encode_stream(frame));

    let packets = bench.inputs(5_000, |random| {
        let (index, payload) = (random.below(32), random.bytes(25).try_into().unwrap());
        let frame = PacketFrame { payload, counter: PacketFrameCounter::Frame { index } };
        (frame, ours::Packet { final_frame: 0, number: index, payload })
    });
    let of = |(frame, _): &(PacketFrame, _)| bodies::write_packet(frame);
    bench.race("write packet", &packets, of, |(_, frame)| ours::write_packet(frame));
    let of = |(frame, _): &(PacketFrame, _)| oracle::encode_packet(frame);
    bench.race("encode packet", &packets, of, |(_, frame)| ours::encode_packet(frame));
}

/// A run of slots from the start, through the model over the Rust's readings and through ours.
fn by_model(run: &[Slot]) -> usize {
    let (mut state, mut memory) = (State::Idle, [0; MEMORY]);
    run.iter().filter(|slot| model::receive(&mut state, &mut memory, slot).is_ok()).count()
}

fn by_ours(run: &[Slot]) -> usize {
    let (mut state, mut memory) = (ours::receiver_new(), [0; MEMORY]);
    let mut taken = |slot: &Slot| {
        let received = ours::receive(state, slot, &mut memory);
        state = received.next;
        received.said == 0
    };
    run.iter().filter(|slot| taken(slot)).count()
}

fn receiving(bench: &mut Bench) {
    let long = |random: &mut Random| {
        let message = message(random, MEMORY);
        packet(random, &message)
    };
    let sounds = |random: &mut Random| {
        let header = header(random, true);
        (0..34).map(|at| stream_slot(random, &header, at % 6)).collect()
    };
    let damaged = |random: &mut Random| {
        let mut run = long(random);
        run.iter_mut().for_each(|slot| damage(random, slot));
        run
    };
    let sorts: [(&str, &dyn Fn(&mut Random) -> Vec<Slot>); 3] =
        [("packets", &long), ("damaged packets", &damaged), ("streams *", &sounds)];
    for (name, one) in sorts {
        let runs = bench.inputs(200, one);
        let slots = runs[0].len() as f64;
        let name = format!("receive {slots} slots, {name}");
        let taken = bench.race(&name, &runs, by_model, by_ours);
        let [model, ours] = taken.map(|nanoseconds| slots * 1e9 / nanoseconds);
        println!("{:28} {:>7} {model:>10.0} {ours:>10.0}", "  slots a second", "");
    }
}

/// The deepest that a call goes, over the kinds.
fn depths(bench: &mut Bench) {
    println!("\n{:36} {:>10} {:>10}", "bytes of stack", "the Rust", "ours");
    let say = |name: &str, rust: usize, ours: usize| println!("{name:36} {rust:>10} {ours:>10}");
    let bodies = Kind::ALL.map(|kind| body(kind, &mut bench.random, 3));
    let [header, stream, packet] = &bodies;
    let [header_on_air, stream_on_air, packet_on_air] = Kind::ALL.map(|kind| symbols(kind, &bodies[kind as usize]));
    say("read header", depth(|| bodies::read_lsf(header)), depth(|| ours::read_lsf(header)));
    say("read stream", depth(|| bodies::read_stream(stream)), depth(|| ours::read_stream(stream)));
    say("read packet", depth(|| bodies::read_packet(packet)), depth(|| ours::read_packet(packet)));
    say("parse header", depth(|| oracle::parse_lsf(&header_on_air)), depth(|| ours::parse_lsf(&header_on_air)));
    say("parse stream", depth(|| oracle::parse_stream(&stream_on_air)), depth(|| ours::parse_stream(&stream_on_air)));
    say("parse packet", depth(|| oracle::parse_packet(&packet_on_air)), depth(|| ours::parse_packet(&packet_on_air)));
    let header = [7; 30];
    say("encode header", depth(|| oracle::encode_lsf(&LsfFrame(header))), depth(|| ours::encode_lsf(&header)));
    let run: Vec<Slot> = {
        let message = message(&mut bench.random, MEMORY);
        runner::slots::packet(&mut bench.random, &message)
    };
    say("receive a packet", depth(|| by_model(&run)), depth(|| by_ours(&run)));
}

fn main() {
    let words: Vec<String> = std::env::args().skip(1).collect();
    let number = |name: &str, usual: u64| {
        let place = words.iter().position(|word| word == name);
        place.map_or(usual, |at| words.get(at + 1).and_then(|word| word.parse().ok()).expect("a number"))
    };
    let mut bench = Bench { random: Random::new(number("--seed", 1)), rounds: number("--rounds", 10) as usize };
    if ours::EMULATED {
        println!("ours runs under an emulator here: its times and the ratios say nothing");
    }
    println!("nanoseconds a call, best of {} rounds; ratio: ours to the Rust's", bench.rounds);
    println!("{:28} {:>7} {:>10} {:>10} {:>7}", "name", "inputs", "the Rust", "ours", "ratio");
    leaves(&mut bench);
    fec(&mut bench);
    reading(&mut bench);
    writing(&mut bench);
    receiving(&mut bench);
    println!("* a stand-in for the outside crate does the work on the Rust's side; the Rust has no receiver: a model over its readings");
    depths(&mut bench);
}
