//! What a comparison is, how it is run, and how an input that shows a difference is made small.
use crate::random::Random;

/// What the two sides said of one input.
pub enum Said {
    /// Both gave the same answer. A tie: more than one answer was as near, and the order had to decide.
    Same {
        tied: bool,
    },
    /// Ours refused where the document says so.
    Refused,
    /// The two part in the way that docs/DIFFERENCES.md says.
    Known {
        rust: String,
        ours: String,
    },
    Different {
        rust: String,
        ours: String,
    },
}

/// The same answer or a difference, shown by `show`.
pub fn same<T: PartialEq>(rust: T, ours: T, show: impl Fn(&T) -> String) -> Said {
    if rust == ours {
        Said::Same { tied: false }
    } else {
        Said::Different { rust: show(&rust), ours: show(&ours) }
    }
}

/// How much is asked for on the command line.
#[derive(Default)]
pub struct Wanted {
    pub count: Option<usize>,
    pub full: bool,
}

impl Wanted {
    pub fn many(&self, usual: usize) -> usize {
        self.count.unwrap_or(usual)
    }

    /// A usual number, and another for `--full`.
    pub fn many_or(&self, usual: usize, full: usize) -> usize {
        self.many(if self.full { full } else { usual })
    }
}

/// Said to a source of inputs that is to give no more.
pub struct Stop;

/// Takes one input.
pub type Take<'a> = &'a mut dyn FnMut(&[u8]) -> Result<(), Stop>;

pub struct Comparison {
    pub name: &'static str,
    /// What the bytes of an input are.
    pub layout: &'static str,
    /// An input may be cut down to this length while it is made small. Without it, its length is fixed.
    pub shortest: Option<usize>,
    pub counts_ties: bool,
    pub inputs: fn(&mut Random, &Wanted, Take) -> Result<(), Stop>,
    pub check: fn(&[u8]) -> Said,
}

#[derive(Default)]
pub struct Tally {
    pub inputs: u64,
    pub answered: u64,
    pub refused: u64,
    pub ties: u64,
    pub known: u64,
}

/// The smallest input found on which the two sides part.
pub struct Difference {
    pub input: Vec<u8>,
    pub rust: String,
    pub ours: String,
}

/// What a comparison's run has shown.
pub struct Ran {
    pub tally: Tally,
    pub difference: Option<Difference>,
    pub known: Option<Difference>,
}

impl Comparison {
    /// Runs until the inputs end or a difference shows.
    pub fn run(&self, random: &mut Random, wanted: &Wanted) -> Ran {
        let mut tally = Tally::default();
        let (mut found, mut known) = (None, None);
        let mut take = |input: &[u8]| {
            tally.inputs += 1;
            match (self.check)(input) {
                Said::Same { tied } => {
                    tally.answered += 1;
                    tally.ties += tied as u64;
                }
                Said::Refused => tally.refused += 1,
                Said::Known { rust, ours } => {
                    tally.known += 1;
                    known.get_or_insert(Difference { input: input.to_vec(), rust, ours });
                }
                Said::Different { rust, ours } => {
                    found = Some(Difference { input: input.to_vec(), rust, ours });
                    return Err(Stop);
                }
            }
            Ok(())
        };
        let _ = (self.inputs)(random, wanted, &mut take);
        let difference = found.map(|found| {
            self.smaller(found, |said| match said {
                Said::Different { rust, ours } => Some((rust, ours)),
                _ => None,
            })
        });
        let known = known.map(|known| {
            self.smaller(known, |said| match said {
                Said::Known { rust, ours } => Some((rust, ours)),
                _ => None,
            })
        });
        Ran { tally, difference, known }
    }

    /// Cuts bytes out and brings them towards zero for as long as the two sides part in the way that is looked for.
    fn smaller(&self, mut found: Difference, parting: fn(Said) -> Option<(String, String)>) -> Difference {
        let mut tries = 100_000;
        loop {
            let smaller = candidates(&found.input, self.shortest).take(tries).find_map(|input| {
                tries -= 1;
                let (rust, ours) = parting((self.check)(&input))?;
                Some(Difference { input, rust, ours })
            });
            match smaller {
                Some(smaller) => found = smaller,
                None => return found,
            }
        }
    }
}

/// The inputs that are a little smaller, those that are much smaller first.
fn candidates(input: &[u8], shortest: Option<usize>) -> impl Iterator<Item = Vec<u8>> + use<'_> {
    let len = input.len();
    let least = shortest.unwrap_or(len);
    let halved = (least + len) / 2;
    let cut = (halved < len).then(|| input[..halved].to_vec());
    let without = (least..len).map(|place| [&input[..place], &input[place + 1..]].concat());
    let lower = (0..len).flat_map(move |place| {
        let byte = input[place];
        let bits = (0..8).rev().map(move |bit| byte & !(1 << bit));
        [0, byte / 2].into_iter().chain(bits).chain([byte.saturating_sub(1)]).filter_map(move |new| {
            let mut smaller = input.to_vec();
            smaller[place] = new;
            (new < byte).then_some(smaller)
        })
    });
    cut.into_iter().chain(without).chain(lower)
}
