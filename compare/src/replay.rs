//! The replay of a log as text: one line per slot and one line of counters, or one line for a
//! refusal. Every line, the last too, ends in one line feed.

use crate::card::NONE;
use crate::log::{check, read, Head};
use crate::slot::{fresh, slot, Lists, Record, Report};
use std::fmt::Write;

/// The room of the replay: the most places that a card may have.
const ROOM: usize = 2_048;

/// The whole text for a log.
pub fn replay(log: &[u8]) -> String {
    let checked = check(log);
    let places = (checked.head.m * checked.head.n * checked.head.d) as usize;
    if checked.refusal != 0 {
        format!("R {} {}\n", checked.refusal, checked.record)
    } else if places > ROOM {
        "R 2 0\n".to_string()
    } else {
        run(log, &checked.head, places)
    }
}

/// Runs all slots on a fresh card.
fn run(log: &[u8], head: &Head, places: usize) -> String {
    let mut lists = Lists::filled(places, 0);
    let (refusal, mut record) = fresh(head.m, head.n, head.d, &mut lists);
    assert_eq!(refusal, 0, "a checked log has a card that fits");
    let mut text = String::new();
    for number in 0..head.count {
        let given = read(log, number);
        let (refusal, next, report) = slot(&record, &mut lists, given.hold, &given.arrivals);
        assert_eq!(refusal, 0, "a checked log has slots that fit");
        text += &slot_line(record.slot, &report);
        record = next;
    }
    text + &last_line(&record)
}

fn slot_line(number: u32, report: &Report) -> String {
    let mut line = format!(
        "S {} {} {} {}",
        number, report.size, report.weight, report.dropped
    );
    for (input, output) in report.partners.iter().enumerate() {
        if *output != NONE {
            let (cell, wait) = (report.cells[input], report.waits[input]);
            write!(line, " {input}>{output}:{cell}/{wait}").expect("text takes every write");
        }
    }
    line + "\n"
}

fn last_line(record: &Record) -> String {
    format!(
        "T {} {} {} {} {}\n",
        record.offered,
        record.stored,
        record.dropped,
        record.departed,
        record.waiting()
    )
}
