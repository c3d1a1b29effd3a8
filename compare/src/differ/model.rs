//! What each of the eight functions must answer, and what every lent list must hold afterwards:
//! document 01 by this program's own matching, slot and log, and the rules of the C interface.
//!
//! Of those: lists of fixed length are tested first; a refused call changes nothing in any list. A
//! record number that no field can hold is refusal 7; a head or count that is too large for its
//! field is also not below D, so document 01's test of whole numbers is enough.

use super::call::{Call, Function, List};
use crate::card::{Arrivals, PORTS, QUEUES};
use crate::log::{check, read, write, Slots};
use crate::matching::{rank_form, table_match, weighted_match, Match, Requests};
use crate::slot::{fresh, slot, Lists, Record};

/// The answer, and every list after the call.
#[derive(Clone, Debug)]
pub struct Wanted {
    pub answer: u64,
    pub lists: Vec<List>,
}

/// The refusal in the low half, a record's number or a length in the high half.
pub fn halves(low: u32, high: u32) -> u64 {
    u64::from(low) | u64::from(high) << 32
}

/// What must come of a call.
pub fn wanted(call: &Call) -> Wanted {
    if !fixed_lengths_fit(call) {
        return refused(call, 2);
    }
    match call.function {
        Function::MatchTable => of_match_table(call),
        Function::MatchWeights => of_match_weights(call),
        Function::RankForm => of_rank_form(call),
        Function::Fresh => of_fresh(call),
        Function::Slot => of_slot(call),
        Function::LogCheck => of_log_check(call),
        Function::LogRead => of_log_read(call),
        Function::LogWrite => of_log_write(call),
    }
}

fn fixed_lengths_fit(call: &Call) -> bool {
    let mut each = call.function.lists().iter().zip(&call.lists);
    each.all(|(declared, list)| declared.fixed.is_none_or(|length| length == list.len()))
}

/// Nothing is changed.
fn refused(call: &Call, refusal: u32) -> Wanted {
    Wanted {
        answer: u64::from(refusal),
        lists: call.lists.clone(),
    }
}

/// Accepted, with these lists as the answer; all others stay.
fn accepted<const COUNT: usize>(call: &Call, changed: [(&str, List); COUNT]) -> Wanted {
    let mut wanted = refused(call, 0);
    for (name, list) in changed {
        wanted.lists[call.function.place(name)] = list;
    }
    wanted
}

fn shorts(list: &[u32]) -> Vec<u16> {
    list.iter().map(|number| *number as u16).collect()
}

fn bytes(list: &[u32]) -> Vec<u8> {
    list.iter().map(|number| *number as u8).collect()
}

/// A list of one number per port; its length is fixed and has been tested.
fn ports(list: &[u32]) -> [u32; PORTS] {
    list.try_into().expect("a list of 32 numbers")
}

fn of_match_table(call: &Call) -> Wanted {
    let (m, n, hold) = (call.number("m"), call.number("n"), call.number("hold"));
    matched(call, &table_match(m, n, &shorts(call.list("counts")), hold))
}

fn requests_of(call: &Call) -> Requests {
    Requests {
        rows: ports(call.list("rows")),
        inputs: ports(call.list("inputs")),
        outputs: ports(call.list("outputs")),
    }
}

fn of_match_weights(call: &Call) -> Wanted {
    let (m, n) = (call.number("m"), call.number("n"));
    matched(call, &weighted_match(m, n, &requests_of(call)))
}

fn matched(call: &Call, found: &Match) -> Wanted {
    if found.refusal != 0 {
        return refused(call, found.refusal);
    }
    let partners = found.partners.map(u32::from).to_vec();
    let totals = vec![found.size, found.weight];
    accepted(call, [("partners", partners), ("totals", totals)])
}

fn of_rank_form(call: &Call) -> Wanted {
    let (m, n) = (call.number("m"), call.number("n"));
    let found = rank_form(m, n, &requests_of(call));
    if found.refusal != 0 {
        return refused(call, found.refusal);
    }
    let (inputs, outputs) = (found.ranks.inputs.to_vec(), found.ranks.outputs.to_vec());
    accepted(call, [("inputs", inputs), ("outputs", outputs)])
}

fn lists_of(call: &Call) -> Lists {
    Lists {
        cells: call.list("cells").clone(),
        stamps: call.list("stamps").clone(),
    }
}

fn of_fresh(call: &Call) -> Wanted {
    let (m, n, d) = (call.number("m"), call.number("n"), call.number("d"));
    let mut lists = lists_of(call);
    let (refusal, record) = fresh(m, n, d, &mut lists);
    if refusal != 0 {
        return refused(call, refusal);
    }
    let Lists { cells, stamps } = lists;
    let record = record.numbers();
    accepted(
        call,
        [("record", record), ("cells", cells), ("stamps", stamps)],
    )
}

/// The record that these 2,056 numbers make.
fn record_of(numbers: &[u32]) -> Record {
    let (heads, rest) = numbers[3..].split_at(QUEUES);
    let (counts, counters) = rest.split_at(QUEUES);
    Record {
        m: numbers[0],
        n: numbers[1],
        d: numbers[2],
        heads: heads.to_vec(),
        counts: counts.to_vec(),
        slot: counters[0],
        offered: counters[1],
        stored: counters[2],
        dropped: counters[3],
        departed: counters[4],
    }
}

fn of_slot(call: &Call) -> Wanted {
    let record = record_of(call.list("record"));
    let mut lists = lists_of(call);
    let outputs = shorts(call.list("outputs"));
    let arrivals = Arrivals {
        outputs: outputs.try_into().expect("a list of 32 outputs"),
        cells: ports(call.list("arriving")),
    };
    let (refusal, next, report) = slot(&record, &mut lists, call.number("hold"), &arrivals);
    if refusal != 0 {
        return refused(call, refusal);
    }
    accepted(
        call,
        [
            ("record", next.numbers()),
            ("cells", lists.cells),
            ("stamps", lists.stamps),
            ("report", report.numbers()),
        ],
    )
}

fn of_log_check(call: &Call) -> Wanted {
    let found = check(&bytes(call.list("log")));
    if found.refusal != 0 {
        let answer = halves(found.refusal, found.record);
        return Wanted {
            answer,
            ..refused(call, found.refusal)
        };
    }
    let head = found.head;
    let answer = vec![head.m, head.n, head.d, head.count, head.first];
    accepted(call, [("answer", answer)])
}

fn of_log_read(call: &Call) -> Wanted {
    let found = read(&bytes(call.list("log")), call.number("slot"));
    if found.refusal != 0 {
        return refused(call, found.refusal);
    }
    let outputs = found.arrivals.outputs.map(u32::from).to_vec();
    let cells = found.arrivals.cells.to_vec();
    accepted(
        call,
        [
            ("hold", vec![found.hold]),
            ("outputs", outputs),
            ("cells", cells),
        ],
    )
}

fn of_log_write(call: &Call) -> Wanted {
    let slots = Slots {
        m: call.number("m"),
        n: call.number("n"),
        d: call.number("d"),
        holds: call.list("holds").clone(),
        outputs: shorts(call.list("outputs")),
        cells: call.list("cells").clone(),
    };
    let mut buffer = bytes(call.list("buffer"));
    let (refusal, length) = write(&slots, &mut buffer);
    if refusal != 0 {
        return refused(call, refusal);
    }
    let buffer = buffer.into_iter().map(u32::from).collect();
    Wanted {
        answer: halves(0, length),
        ..accepted(call, [("buffer", buffer)])
    }
}
