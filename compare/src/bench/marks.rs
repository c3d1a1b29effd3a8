//! The stack that each function of the library takes: the greatest depth over calls that it accepts, of
//! cards of all sizes.

use super::lent::{accepted, Lent};
use super::page::{grouped, table};
use super::slots::random_arrivals;
use super::stack::{known, known_with_arguments, on_fresh_stack, Mark, Words};
use crate::card::{Arrivals, PORTS};
use crate::library;
use crate::log::{Slots, MOST_BYTES, TRAILER};
use crate::matching::{table_requests, Requests};
use crate::random::Random;
use crate::samples::{log_of, random};

/// Fill in percent, greatest count and held outputs in percent of the tables at each size of card.
const TABLES: [(u32, u32, u32); 6] = [
    (10, 64, 0),
    (50, 64, 0),
    (100, 64, 0),
    (30, 2, 10),
    (100, 2, 30),
    (50, 65_535, 10),
];
/// Slots run on each card.
const SLOTS: usize = 6;
/// Slots read of each log.
const READ: u32 = 6;

const TITLES: [&str; 3] = ["call", "calls", "stack (bytes)"];

/// A row's name, and the function that makes its calls.
type Named = (&'static str, fn() -> Mark);

const ROWS: [Named; 10] = [
    ("`crosspoint_match_table`", match_table),
    ("`crosspoint_match_weights`", match_weights),
    ("`crosspoint_rank_form`", rank_form),
    ("`crosspoint_fresh`", fresh),
    ("`crosspoint_slot`", slot),
    ("`crosspoint_log_check`", log_check),
    ("`crosspoint_log_read`", log_read),
    ("`crosspoint_log_write`", log_write),
    ("calibration: writes 10,000 bytes", calibration),
    (
        "calibration: the same, with 56 bytes of arguments",
        calibration_with_arguments,
    ),
];

/// All rows as text.
pub fn run() -> String {
    let row = |(name, measure): &Named| {
        let mark = on_fresh_stack(*measure);
        vec![name.to_string(), grouped(mark.calls), grouped(mark.bytes)]
    };
    let rows: Vec<Vec<String>> = ROWS.iter().map(row).collect();
    let said = "## Stack\n\n\
        The most of all calls made: accepted ones, on cards of all sizes. The stack below the caller is painted with a pattern, the\n\
        function is called, and the lowest changed byte is looked for; counted is from there up to the return address, which is\n\
        in it. The frame of the caller and arguments on the stack are not. The mark of `crosspoint_match_weights` is the search's\n\
        with the lists that lead to it.\n\n";
    said.to_string() + &table(&TITLES, &rows)
}

fn calibration() -> Mark {
    let mut mark = Mark::default();
    mark.call(|| known());
    mark
}

fn calibration_with_arguments() -> Mark {
    let mut mark = Mark::default();
    mark.call(|| known_with_arguments(Words([1; 7])));
    mark
}

/// M and N of every size of card.
fn sizes() -> impl Iterator<Item = (u32, u32)> {
    let ports = 1..=PORTS as u32;
    ports
        .clone()
        .flat_map(move |m| ports.clone().map(move |n| (m, n)))
}

/// Hands over tables of every size of card: M, N, counts, hold.
fn for_tables(mut each: impl FnMut(u32, u32, &[u16], u32)) {
    let mut random = Random::seeded(21);
    for (m, n) in sizes() {
        for (fill, most, held) in TABLES {
            let counts = random.table(m * n, fill, most);
            each(m, n, &counts, random.mask(n, held));
        }
    }
}

/// Hands over the same tables as requests.
fn for_requests(mut each: impl FnMut(u32, u32, &Requests)) {
    for_tables(|m, n, counts, hold| each(m, n, &table_requests(m, n, counts, hold)));
}

fn match_table() -> Mark {
    let mut mark = Mark::default();
    let (mut partners, mut totals) = ([0; PORTS], [0; 2]);
    for_tables(|m, n, counts, hold| {
        mark.call(|| {
            accepted(library::match_table(
                m,
                n,
                counts,
                hold,
                &mut partners,
                &mut totals,
            ))
        })
    });
    mark
}

fn match_weights() -> Mark {
    let mut mark = Mark::default();
    let (mut partners, mut totals) = ([0; PORTS], [0; 2]);
    for_requests(|m, n, requests| {
        mark.call(|| {
            accepted(library::match_weights(
                m,
                n,
                &requests.rows,
                &requests.inputs,
                &requests.outputs,
                &mut partners,
                &mut totals,
            ))
        })
    });
    mark
}

fn rank_form() -> Mark {
    let mut mark = Mark::default();
    for_requests(|m, n, requests| {
        let mut ranks = requests.clone();
        mark.call(|| {
            accepted(library::rank_form(
                m,
                n,
                &ranks.rows,
                &mut ranks.inputs,
                &mut ranks.outputs,
            ))
        })
    });
    mark
}

/// Hands over M, N and D of many cards.
fn for_cards(mut each: impl FnMut(u32, u32, u32)) {
    for (m, n) in sizes() {
        for d in [1, 2, 64] {
            each(m, n, d);
        }
    }
}

fn fresh() -> Mark {
    let mut mark = Mark::default();
    for_cards(|m, n, d| {
        let mut card = Lent::fresh(m, n, d);
        mark.call(|| {
            accepted(library::fresh(
                m,
                n,
                d,
                &mut card.record,
                &mut card.cells,
                &mut card.stamps,
            ))
        });
    });
    mark
}

fn slot() -> Mark {
    let mut random = Random::seeded(22);
    let mut mark = Mark::default();
    for_cards(|m, n, d| {
        let mut card = Lent::fresh(m, n, d);
        for _ in 0..SLOTS {
            let arrivals = random_arrivals(&mut random, m, n);
            let hold = random.mask(n, 10);
            mark.call(|| card.slot(hold, &arrivals));
        }
    });
    mark
}

/// Hands over the slots of logs of every number of inputs: none, one, some, and the most.
fn for_slots(mut each: impl FnMut(&Slots)) {
    let mut numbers = Random::seeded(23);
    for m in 1..=PORTS as u32 {
        let most = (MOST_BYTES - TRAILER) as u32 / (4 + 6 * m);
        for count in [0, 1, 20, most] {
            let card = [m, numbers.between(1, 32), numbers.between(1, 64)];
            each(&random(card, count, 60, 10, numbers.next()));
        }
    }
}

fn log_check() -> Mark {
    let mut mark = Mark::default();
    let mut head = [0; 5];
    for_slots(|slots| {
        let log = log_of(slots);
        mark.call(|| accepted(library::log_check(&log, &mut head) as u32));
    });
    mark
}

fn log_read() -> Mark {
    let mut mark = Mark::default();
    let (mut hold, mut arrivals) = ([0], Arrivals::nothing());
    for_slots(|slots| {
        let log = log_of(slots);
        for slot in 0..READ.min(slots.holds.len() as u32) {
            mark.call(|| {
                accepted(library::log_read(
                    &log,
                    slot,
                    &mut hold,
                    &mut arrivals.outputs,
                    &mut arrivals.cells,
                ))
            });
        }
    });
    mark
}

fn log_write() -> Mark {
    let mut mark = Mark::default();
    let mut buffer = vec![0; MOST_BYTES];
    for_slots(|slots| {
        mark.call(|| {
            let answer = library::log_write(
                slots.m,
                slots.n,
                slots.d,
                &slots.holds,
                &slots.outputs,
                &slots.cells,
                &mut buffer,
            );
            accepted(answer as u32);
        })
    });
    mark
}
