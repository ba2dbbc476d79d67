//! compare [--seed N] [--count N] [--full] [NAME...]: runs each comparison, or those whose name begins so.
use runner::comparison::{Comparison, Ran, Tally, Wanted};
use runner::random::Random;
use runner::{address, collection, fec, header, leaves, lengths, lich, observe, outside, parse, receive, words, write};
use std::process::ExitCode;

struct Asked {
    seed: u64,
    wanted: Wanted,
    names: Vec<String>,
}

fn asked() -> Result<Asked, String> {
    let mut asked = Asked { seed: 1, wanted: Wanted::default(), names: Vec::new() };
    let mut words = std::env::args().skip(1);
    while let Some(word) = words.next() {
        let mut number = || {
            let given = words.next().ok_or(format!("{word} calls for a number"))?;
            given.parse::<u64>().map_err(|_| format!("{word} calls for a number, and {given} is none"))
        };
        match word.as_str() {
            "--seed" => asked.seed = number()?,
            "--count" => asked.wanted.count = Some(number()? as usize),
            "--full" => asked.wanted.full = true,
            _ if word.starts_with('-') => return Err(format!("{word} is not known")),
            _ => asked.names.push(word),
        }
    }
    Ok(asked)
}

fn comparisons() -> Vec<Comparison> {
    let parts = [
        Vec::from(leaves::ALL),
        Vec::from(address::ALL),
        Vec::from(words::ALL),
        Vec::from(fec::ALL),
        Vec::from(header::ALL),
        Vec::from(collection::ALL),
        Vec::from(lich::ALL),
        Vec::from(write::ALL),
        Vec::from(parse::ALL),
        Vec::from(lengths::ALL),
    ];
    parts.into_iter().flatten().collect()
}

fn row(name: &str, tally: &Tally, counts_ties: bool, differs: bool) {
    let Tally { inputs, answered, refused, ties, known } = tally;
    let ties = if counts_ties { ties.to_string() } else { "-".into() };
    println!("{name:18} {inputs:>9} {answered:>9} {refused:>9} {ties:>7} {known:>7} {:>11}", differs as u8);
}

fn main() -> ExitCode {
    let Asked { seed, wanted, names } = match asked() {
        Ok(asked) => asked,
        Err(why) => {
            eprintln!("compare: {why}\ncompare [--seed N] [--count N] [--full] [NAME...]");
            return ExitCode::from(2);
        }
    };
    observe::start();
    let chosen = |name: &str| names.is_empty() || names.iter().any(|given| name.starts_with(given.as_str()));
    let mut ran = 0;
    println!("seed {seed}");
    println!(
        "{:18} {:>9} {:>9} {:>9} {:>7} {:>7} {:>11}",
        "name", "inputs", "answered", "refused", "ties", "known", "differences"
    );
    for comparison in comparisons().iter().filter(|comparison| chosen(comparison.name)) {
        ran += 1;
        let Ran { tally, difference, known } = comparison.run(&mut Random::new(seed), &wanted);
        row(comparison.name, &tally, comparison.counts_ties, difference.is_some());
        if let Some(known) = known {
            println!("  known, the smallest input found: {}", observe::hex(&known.input));
            println!("  the Rust: {}; ours: {}", known.rust, known.ours);
        }
        if let Some(difference) = difference {
            println!("\nThe smallest input found on which {} differs ({}):", comparison.name, comparison.layout);
            println!("  {}", observe::hex(&difference.input));
            println!("  the Rust: {}\n  ours:     {}", difference.rust, difference.ours);
            return ExitCode::FAILURE;
        }
    }
    if chosen("receive") {
        ran += 1;
        let (heard, difference) = receive::run(&mut Random::new(seed), &wanted);
        row("receive", &heard.tally(), false, difference.is_some());
        println!("  answers 1 to 7: {:?}", &heard.answers[1..]);
        println!("  refusals 1 to 12: {:?}", &heard.refusals[1..]);
        if let Some(difference) = difference {
            difference.print();
            return ExitCode::FAILURE;
        }
    }
    if chosen("outside") {
        ran += 1;
        println!("\n{:38} {:54} ours", "outside the shared domain", "the Rust");
        for outside in outside::all() {
            println!("{:38} {:54} {}", outside.input, outside.rust, outside.ours);
            if outside.written != [outside.rust, outside.ours] {
                println!("\nWritten down is: the Rust {}; ours {}", outside.written[0], outside.written[1]);
                return ExitCode::FAILURE;
            }
        }
    }
    if ran == 0 {
        eprintln!("compare: no comparison is named so");
        return ExitCode::from(2);
    }
    ExitCode::SUCCESS
}
