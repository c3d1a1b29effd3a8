//! Time per slot at 32 × 32 × 2 under random load: the library beside the plain slot step with the
//! textbook assignment. The two may choose other partners of equal weight, so both are timed on copies
//! of the same state: the library's, as it stood before the slot.

use super::lent::{accepted, Lent};
use super::page::{beside, grouped, table};
use super::time::{clock, in_turns, same_answers, Timed};
use crate::card::{Arrivals, PORTS, QUEUES};
use crate::hungarian;
use crate::random::Random;
use crate::slot::{step, Lists, Record};

/// Slots that are run before the first sample, until as much leaves as arrives.
const RUN_IN: usize = 1_000;
const SAMPLES: usize = 1_000;
/// Inputs of a hundred that have an arrival.
const LOAD: u32 = 80;

const TITLES: [&str; 8] = [
    "slot",
    "library (µs): median",
    "99th",
    "worst",
    "plain with Hungarian (µs): median",
    "99th",
    "worst",
    "library / plain",
];

/// A slot to be timed: the card before it, and what arrives.
struct Before {
    card: Lent,
    arrivals: Arrivals,
}

/// The text, and the median time of the library's slot in nanoseconds.
pub fn run() -> Result<(String, f64), String> {
    let befores = recorded();
    let mut by_library = |sample: usize| library_slot(&befores[sample]);
    let mut by_textbook = |sample: usize| textbook_slot(&befores[sample]);
    let taken = in_turns(SAMPLES, &mut [&mut by_library, &mut by_textbook]);
    same_answers("size, weight and drops of a slot", &taken[0], &taken[1])?;
    let said = format!(
        "## Time per slot\n\n\
         {} slots in a row, after {} that are not timed; {LOAD} % of the inputs with an arrival, random outputs, no holds; {:.1} cells wait\n\
         on average. Both start from copies of the same state. The plain slot step changes record and lists in place and calls the\n\
         Hungarian; the library takes the record as 2,056 numbers and gives it back. Size, weight and drops are equal at every slot.\n\n",
        grouped(SAMPLES),
        grouped(RUN_IN),
        waiting(&befores)
    );
    let mut row = vec!["32 × 32 × 2".to_string()];
    row.extend(beside(&taken));
    Ok((said + &table(&TITLES, &[row]), taken[0].median))
}

/// The library's run under load, each slot with the card as it stood before.
fn recorded() -> Vec<Before> {
    let mut random = Random::seeded(12);
    let mut card = Lent::fresh(PORTS as u32, PORTS as u32, 2);
    let mut befores = Vec::new();
    for slot in 0..RUN_IN + SAMPLES {
        let arrivals = random_arrivals(&mut random, PORTS as u32, PORTS as u32);
        if slot >= RUN_IN {
            befores.push(Before {
                card: card.clone(),
                arrivals: arrivals.clone(),
            });
        }
        card.slot(0, &arrivals);
    }
    befores
}

/// Arrivals at a card of M inputs and N outputs under this load.
pub fn random_arrivals(random: &mut Random, m: u32, n: u32) -> Arrivals {
    let mut arrivals = Arrivals::nothing();
    for input in 0..m as usize {
        if random.percent(LOAD) {
            arrivals.outputs[input] = random.below(n) as u16;
            arrivals.cells[input] = random.next() as u32;
        }
    }
    arrivals
}

fn library_slot(before: &Before) -> Timed {
    let mut card = before.card.clone();
    let (nanoseconds, ()) = clock(|| card.slot(0, &before.arrivals));
    Timed {
        nanoseconds,
        answer: card.last(),
    }
}

fn textbook_slot(before: &Before) -> Timed {
    let mut record = record_of(&before.card.record);
    let mut lists = Lists {
        cells: before.card.cells.clone(),
        stamps: before.card.stamps.clone(),
    };
    let (nanoseconds, (refusal, report)) = clock(|| {
        step(
            &mut record,
            &mut lists,
            0,
            &before.arrivals,
            hungarian::table_match,
        )
    });
    accepted(refusal);
    Timed {
        nanoseconds,
        answer: vec![report.size, report.weight, report.dropped],
    }
}

/// The record that these numbers are.
fn record_of(numbers: &[u32]) -> Record {
    let (card, rest) = numbers.split_at(3);
    let (heads, rest) = rest.split_at(QUEUES);
    let (counts, rest) = rest.split_at(QUEUES);
    Record {
        m: card[0],
        n: card[1],
        d: card[2],
        heads: heads.to_vec(),
        counts: counts.to_vec(),
        slot: rest[0],
        offered: rest[1],
        stored: rest[2],
        dropped: rest[3],
        departed: rest[4],
    }
}

/// The cells waiting before a slot, on average.
fn waiting(befores: &[Before]) -> f64 {
    let sum: u32 = befores
        .iter()
        .map(|before| record_of(&before.card.record).waiting())
        .sum();
    f64::from(sum) / befores.len() as f64
}
