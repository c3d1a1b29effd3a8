//! What passing the record by value can cost at most. An idle slot of the smallest card is the whole
//! fixed cost of a call: 2,056 numbers are taken over, tested, passed by value and given back. Beside it
//! stands the same without any passing by value, and one copy of a record.

use super::lent::{accepted, Lent, RECORD};
use super::page::{grouped, microseconds, spread, table};
use super::time::{clock, in_turns, same_answers, Taken, Timed};
use crate::card::{depth_fits, ports_fit, stays_below, Arrivals, QUEUES};
use crate::slot::{arrivals_fit, Report};
use std::hint::black_box;
use std::mem::size_of;

const SAMPLES: usize = 200;
/// Calls of one sample.
const CALLS: u32 = 200;

const TITLES: [&str; 4] = ["call", "time (µs): median", "99th", "worst"];
const NAMES: [&str; 3] = [
    "`crosspoint_slot`, idle card 1 × 1 × 1",
    "the same in place, plain Rust",
    "one copy of 4,128 bytes",
];

/// The record as narrow as its limits allow: M, N, D; heads and counts; slot number and counters.
#[derive(Clone, Copy)]
struct Narrow {
    card: [u32; 3],
    heads: [u16; QUEUES],
    counts: [u16; QUEUES],
    rest: [u32; 5],
}

const BLANK: Narrow = Narrow {
    card: [0; 3],
    heads: [0; QUEUES],
    counts: [0; QUEUES],
    rest: [0; 5],
};

/// The text. `slot` is the time of a slot at 32 × 32 × 2 in nanoseconds.
pub fn run(slot: f64) -> Result<String, String> {
    let taken = timed_sides();
    same_answers("records and reports of idle slots", &taken[0], &taken[1])?;
    let rows: Vec<Vec<String>> = NAMES.iter().zip(&taken).map(fields).collect();
    let most = taken[0].median - taken[1].median;
    let said = format!(
        "## The record by value\n\n\
         {SAMPLES} samples of {CALLS} calls. An idle slot is the whole fixed cost of a call: {} numbers are taken over, tested, passed by\n\
         value as a record of {} bytes, and given back. In place the same is done through references, without the match and its\n\
         lists.\n\n",
        grouped(RECORD),
        grouped(size_of::<Narrow>())
    );
    let bound = format!(
        "The first less the second: passing the record by value takes at most {} µs, {:.1} % of a slot at 32 × 32 × 2.\n\n",
        microseconds(most),
        100.0 * most / slot
    );
    Ok(said + &table(&TITLES, &rows) + &bound)
}

fn fields((name, side): (&&str, &Taken)) -> Vec<String> {
    let mut fields = vec![name.to_string()];
    fields.extend(spread(side));
    fields
}

fn timed_sides() -> Vec<Taken> {
    let idle = Arrivals::nothing();
    let mut lent = Lent::fresh(1, 1, 1);
    let mut plain = Lent::fresh(1, 1, 1);
    let mut copy = BLANK;
    in_turns(
        SAMPLES,
        &mut [
            &mut |_| Timed {
                nanoseconds: each(|| lent.slot(0, black_box(&idle))),
                answer: numbers(&lent),
            },
            &mut |_| Timed {
                nanoseconds: each(|| accepted(idle_in_place(&mut plain, 0, black_box(&idle)))),
                answer: numbers(&plain),
            },
            &mut |_| Timed {
                nanoseconds: each(|| *black_box(&mut copy) = *black_box(&BLANK)),
                answer: Vec::new(),
            },
        ],
    )
}

/// The nanoseconds of one call.
fn each(mut call: impl FnMut()) -> f64 {
    let (all, ()) = clock(|| {
        for _ in 0..CALLS {
            call();
        }
    });
    all / f64::from(CALLS)
}

fn numbers(card: &Lent) -> Vec<u32> {
    [&card.record[..], &card.report].concat()
}

/// A slot in which nothing arrives and nothing waits, answering its refusal. The record is taken over,
/// tested and given back through references.
fn idle_in_place(card: &mut Lent, hold: u32, arrivals: &Arrivals) -> u32 {
    let mut record = BLANK;
    if !take_over(&card.record, &mut record) || !is_well_formed(&record) {
        return 7;
    }
    let [m, n, d] = record.card;
    let places = (m * n * d) as usize;
    if card.cells.len() != places || card.stamps.len() != places {
        return 2;
    }
    if !stays_below(hold, n) {
        return 3;
    }
    if !arrivals_fit(m, n, arrivals) {
        return 4;
    }
    record.rest[0] = record.rest[0].wrapping_add(1);
    give_back(&record, &mut card.record);
    report_nothing(&mut card.report);
    0
}

/// False where a number is too large for its field.
fn take_over(numbers: &[u32], record: &mut Narrow) -> bool {
    let (card, queues) = numbers.split_at(3);
    let (heads, queues) = queues.split_at(QUEUES);
    let (counts, rest) = queues.split_at(QUEUES);
    record.card.copy_from_slice(card);
    record.rest.copy_from_slice(rest);
    narrowed(heads, &mut record.heads) & narrowed(counts, &mut record.counts)
}

fn narrowed(numbers: &[u32], narrow: &mut [u16]) -> bool {
    let mut fits = true;
    for (to, number) in narrow.iter_mut().zip(numbers) {
        fits &= *number <= u32::from(u16::MAX);
        *to = *number as u16;
    }
    fits
}

fn is_well_formed(record: &Narrow) -> bool {
    let [m, n, d] = record.card;
    ports_fit(m, n) && depth_fits(d) && queues_fit(record, (m * n) as usize, d as u16)
}

/// Every number is looked at, as a loop without an early end is the quicker one here.
fn queues_fit(record: &Narrow, queues: usize, d: u16) -> bool {
    let (heads, heads_beyond) = record.heads.split_at(queues);
    let (counts, counts_beyond) = record.counts.split_at(queues);
    all(heads, |head| head < d)
        & all(counts, |count| count <= d)
        & all(heads_beyond, |head| head == 0)
        & all(counts_beyond, |count| count == 0)
}

fn all(numbers: &[u16], fits: impl Fn(u16) -> bool) -> bool {
    numbers
        .iter()
        .fold(true, |so_far, number| so_far & fits(*number))
}

fn give_back(record: &Narrow, numbers: &mut [u32]) {
    let (card, queues) = numbers.split_at_mut(3);
    let (heads, queues) = queues.split_at_mut(QUEUES);
    let (counts, rest) = queues.split_at_mut(QUEUES);
    card.copy_from_slice(&record.card);
    rest.copy_from_slice(&record.rest);
    widened(&record.heads, heads);
    widened(&record.counts, counts);
}

fn widened(narrow: &[u16], numbers: &mut [u32]) {
    for (to, number) in numbers.iter_mut().zip(narrow) {
        *to = u32::from(*number);
    }
}

fn report_nothing(report: &mut [u32]) {
    let nothing = Report::nothing();
    let (partners, others) = report.split_at_mut(nothing.partners.len());
    widened(&nothing.partners, partners);
    others.fill(0);
}
