//! Time per log: the longest logs, checked whole and then read and run slot by slot. The library beside
//! the plain log reading and slot step with the textbook assignment.

use super::lent::{accepted, Lent};
use super::page::{grouped, microseconds, ratio, table};
use super::time::{clock, in_turns, same_answers, Taken, Timed};
use crate::card::Arrivals;
use crate::hungarian;
use crate::library;
use crate::log::{check, read};
use crate::matching::table_match;
use crate::samples::{log_of, random};
use crate::slot::{fresh, step, Lists, Matching, Record};

/// Logs of each card.
const LOGS: u64 = 15;
/// Inputs of a hundred with an arrival, and outputs of a hundred that are held.
const LOAD: u32 = 80;
const HELD: u32 = 10;
/// M, N and D of a card, and the most slots of its log.
const CARDS: [([u32; 3], u32); 3] = [([32, 32, 2], 163), ([1, 1, 2], 3_200), ([8, 8, 8], 615)];
/// The place of the offered cells in the numbers of a record.
const OFFERED: usize = 2_052;

const TITLES: [&str; 7] = [
    "log",
    "slots",
    "library (µs): median",
    "worst",
    "plain with Hungarian (µs): median",
    "worst",
    "library / plain",
];

/// All rows as text. An error where the library's run is not the exact one.
pub fn run() -> Result<String, String> {
    let rows: Result<Vec<_>, _> = CARDS
        .iter()
        .map(|(card, slots)| row(*card, *slots))
        .collect();
    let said = format!(
        "## Time per log\n\n\
         {LOGS} logs a row, each with the most slots that a log of its card can have; {LOAD} % of the inputs with an arrival, {HELD} % of the\n\
         outputs held. Timed are the whole-log check, the fresh card, and for every slot reading it and running it. The library's\n\
         last record is that of the exact run of this program at every log.\n\n"
    );
    Ok(said + &table(&TITLES, &rows?))
}

fn row(card: [u32; 3], slots: u32) -> Result<Vec<String>, String> {
    let made = |seed| log_of(&random(card, slots, LOAD, HELD, 100 + seed));
    let logs: Vec<Vec<u8>> = (0..LOGS).map(made).collect();
    let mut by_library = |sample: usize| library_timed(&logs[sample]);
    let mut by_textbook = |sample: usize| textbook_timed(&logs[sample]);
    let taken = in_turns(logs.len(), &mut [&mut by_library, &mut by_textbook]);
    same_answers("cells offered in a log", &taken[0], &taken[1])?;
    for log in &logs {
        is_exact(log)?;
    }
    let [m, n, d] = card;
    Ok(fields(format!("{m} × {n} × {d}"), slots, &taken))
}

fn fields(name: String, slots: u32, taken: &[Taken]) -> Vec<String> {
    let mut fields = vec![name, grouped(slots as usize)];
    for side in taken {
        fields.extend([side.median, side.worst].map(microseconds));
    }
    fields.push(ratio(&taken[0], &taken[1]));
    fields
}

fn library_timed(log: &[u8]) -> Timed {
    let (nanoseconds, record) = clock(|| library_run(log));
    Timed {
        nanoseconds,
        answer: vec![record[OFFERED]],
    }
}

fn textbook_timed(log: &[u8]) -> Timed {
    let (nanoseconds, record) = clock(|| plain_run(log, hungarian::table_match));
    Timed {
        nanoseconds,
        answer: vec![record.offered],
    }
}

/// The last record of the library's run.
fn library_run(log: &[u8]) -> Vec<u32> {
    let mut head = [0; 5];
    accepted(library::log_check(log, &mut head) as u32);
    let [m, n, d, count, _] = head;
    let mut card = Lent::fresh(m, n, d);
    let (mut hold, mut arrivals) = ([0], Arrivals::nothing());
    for slot in 0..count {
        accepted(library::log_read(
            log,
            slot,
            &mut hold,
            &mut arrivals.outputs,
            &mut arrivals.cells,
        ));
        card.slot(hold[0], &arrivals);
    }
    card.record
}

/// The last record of this program's run under the given match.
fn plain_run(log: &[u8], matching: Matching) -> Record {
    let head = check(log).head;
    let mut lists = Lists::filled((head.m * head.n * head.d) as usize, 0);
    let (_, mut record) = fresh(head.m, head.n, head.d, &mut lists);
    for slot in 0..head.count {
        let given = read(log, slot);
        let (refusal, _) = step(
            &mut record,
            &mut lists,
            given.hold,
            &given.arrivals,
            matching,
        );
        accepted(refusal);
    }
    record
}

fn is_exact(log: &[u8]) -> Result<(), String> {
    if library_run(log) == plain_run(log, table_match).numbers() {
        Ok(())
    } else {
        Err("the library's run of a log is not the exact one".to_string())
    }
}
