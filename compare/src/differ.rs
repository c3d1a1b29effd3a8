//! The differential test: calls of the proved library over its C interface, each compared with what
//! this program works out: the answer, and every list byte for byte, whether refused or not. A round
//! goes through all groups of cases; the same seed always gives the same calls.

mod call;
mod cards;
mod edits;
mod lend;
mod logs;
mod matches;
mod model;
mod sizes;
mod writes;

use crate::random::Random;
use call::{Call, FUNCTIONS};
pub use call::{COUNTS, HEADS, RECORD, REPORT};
use lend::Came;
pub use logs::most_slots;
pub use model::halves;
use model::Wanted;
use std::collections::BTreeMap;

/// The rounds made where none are asked for.
const ROUNDS: u64 = 25;
/// After so many differences the run ends.
const SHOWN: u32 = 5;

/// The groups of cases that make up a round.
const GROUPS: [fn(&mut Run); 13] = [
    matches::known_cases,
    matches::tables,
    matches::weights,
    matches::ranks,
    matches::ties,
    cards::fresh_cards,
    cards::slots,
    cards::runs,
    logs::checks_and_reads,
    logs::damaged_logs,
    logs::long_logs,
    writes::writer,
    writes::round_trips,
];

/// One run: the seed of the round, the number of the case in it, and what was counted.
pub struct Run {
    seed: u64,
    random: Random,
    case: u64,
    differences: u32,
    refusals: Vec<BTreeMap<u32, u64>>,
}

/// Reads `[SEED [ROUNDS]]` and runs; true when nothing differed, nothing where the words are wrong.
pub fn command(words: &[&str]) -> Option<bool> {
    let numbers: Result<Vec<u64>, _> = words.iter().map(|word| word.parse()).collect();
    match numbers.ok()?[..] {
        [] => Some(run(1, ROUNDS)),
        [seed] => Some(run(seed, ROUNDS)),
        [seed, rounds] if rounds > 0 => Some(run(seed, rounds)),
        _ => None,
    }
}

/// The first round has the seed that was given, so that a later round can be made again alone: its
/// seed stands in the line of a difference.
fn run(seed: u64, rounds: u64) -> bool {
    let mut later = Random::seeded(seed);
    let mut run = Run {
        seed,
        random: Random::seeded(seed),
        case: 0,
        differences: 0,
        refusals: vec![BTreeMap::new(); FUNCTIONS.len()],
    };
    for round in 0..rounds {
        if round > 0 {
            run.seed = later.next();
            run.random = Random::seeded(run.seed);
            run.case = 0;
        }
        run.round();
    }
    run.close()
}

impl Run {
    fn round(&mut self) {
        for group in GROUPS {
            if self.differences < SHOWN {
                group(self);
            }
        }
    }

    /// Makes the call and compares all that came with what is wanted.
    pub fn compare(&mut self, what: &str, call: &Call) -> Came {
        self.made(what, call, None)
    }

    /// The same where the answer is stated beforehand: what is wanted must have that one.
    pub fn stated(&mut self, what: &str, call: &Call, answer: u64) {
        self.made(what, call, Some(answer));
    }

    fn made(&mut self, what: &str, call: &Call, stated: Option<u64>) -> Came {
        let wanted = model::wanted(call);
        let came = lend::ask(call);
        self.count(call, &came);
        if let Some(text) = difference(call, &wanted, &came) {
            self.differs(what, call, &text);
        }
        if let Some(answer) = stated.filter(|answer| *answer != wanted.answer) {
            let (stated, own) = (said(answer), said(wanted.answer));
            let text = format!("  stated is {stated}, but this program says {own}\n");
            self.differs(what, call, &text);
        }
        came
    }

    fn count(&mut self, call: &Call, came: &Came) {
        self.case += 1;
        let refusals = &mut self.refusals[call.function as usize];
        *refusals.entry(came.answer as u32).or_default() += 1;
    }

    /// Prints a difference, unless enough have been printed.
    pub fn differs(&mut self, what: &str, call: &Call, text: &str) {
        self.differences += 1;
        if self.differences <= SHOWN {
            let (name, seed, case) = (call.function.name(), self.seed, self.case);
            println!("difference: {name}, seed {seed}, case {case}: {what}\n{call}{text}");
            println!("  again: compare differ {seed} 1\n");
        }
    }

    fn close(&self) -> bool {
        for function in FUNCTIONS {
            let line = tally(&self.refusals[function as usize]);
            println!("{}: {line}", function.name());
        }
        match self.differences {
            0 => println!("no difference"),
            some => println!("differences: {some}"),
        }
        self.differences == 0
    }
}

/// How many calls, and how many of them refused by which number.
fn tally(refusals: &BTreeMap<u32, u64>) -> String {
    let calls: u64 = refusals.values().sum();
    let each = refusals.iter().map(|(refusal, count)| match refusal {
        0 => format!(", accepted {count}"),
        _ => format!(", refused with {refusal}: {count}"),
    });
    format!("{calls} calls{}", each.collect::<String>())
}

/// An answer in words; the high half is only named where it is not 0.
pub fn said(answer: u64) -> String {
    match answer >> 32 {
        0 => format!("answer {answer}"),
        high => format!("answer {} with {high} in the high half", answer as u32),
    }
}

/// What differs, nothing where all is as wanted.
fn difference(call: &Call, wanted: &Wanted, came: &Came) -> Option<String> {
    let mut text = String::new();
    if wanted.answer != came.answer {
        let (wanted, came) = (said(wanted.answer), said(came.answer));
        text += &format!("  expected {wanted}, came {came}\n");
    }
    for (place, declared) in call.function.lists().iter().enumerate() {
        let (wanted, came) = (&wanted.lists[place], &came.lists[place]);
        if wanted != came {
            text += &format!("  {}: {}\n", declared.name, first_places(wanted, came));
        }
    }
    for name in &came.torn {
        text += &format!("  {name}: memory beside the list was changed\n");
    }
    (!text.is_empty()).then_some(text)
}

/// The first places at which two lists of one length differ, and how many more.
pub fn first_places(wanted: &[u32], came: &[u32]) -> String {
    const NAMED: usize = 8;
    let pairs = wanted.iter().zip(came).enumerate();
    let differing: Vec<_> = pairs.filter(|(_, (wanted, came))| wanted != came).collect();
    let named = differing.iter().take(NAMED);
    let each =
        named.map(|(place, (wanted, came))| format!("at {place} expected {wanted}, came {came}; "));
    let places = differing.len();
    format!("{}{places} in all", each.collect::<String>())
}
