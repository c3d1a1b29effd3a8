//! Checks of the fresh card and of slots. Runs are compared with a second, plainer card: queues of
//! (cell, stamp) that grow and shrink, with the match by brute force.

use super::brute::{best_match, table_weights};
use super::{Group, REFUSED_SIZES};
use crate::card::{Arrivals, NONE, PORTS, QUEUES};
use crate::random::Random;
use crate::slot::{fresh, slot, Lists, Record, Report};
use std::collections::VecDeque;

/// The plainer card. A head is how often its queue has sent, over D.
struct Plain {
    m: usize,
    n: usize,
    d: usize,
    queues: Vec<VecDeque<(u32, u32)>>,
    sent: Vec<usize>,
    slot: u32,
    offered: u32,
    stored: u32,
    dropped: u32,
    departed: u32,
}

impl Plain {
    fn new(m: u32, n: u32, d: u32) -> Plain {
        let queues = (m * n) as usize;
        Plain {
            m: m as usize,
            n: n as usize,
            d: d as usize,
            queues: vec![VecDeque::new(); queues],
            sent: vec![0; queues],
            slot: 0,
            offered: 0,
            stored: 0,
            dropped: 0,
            departed: 0,
        }
    }

    fn step(&mut self, hold: u32, arrivals: &Arrivals) -> Report {
        let mut report = Report::nothing();
        for input in 0..self.m {
            let output = arrivals.outputs[input];
            if output != NONE && !self.arrive(input, usize::from(output), arrivals.cells[input]) {
                report.dropped += 1 << input;
            }
        }
        self.depart(hold, &mut report);
        self.slot = self.slot.wrapping_add(1);
        report
    }

    /// False when the cell is dropped.
    fn arrive(&mut self, input: usize, output: usize, cell: u32) -> bool {
        self.offered = self.offered.wrapping_add(1);
        let queue = &mut self.queues[input * self.n + output];
        if queue.len() == self.d {
            self.dropped = self.dropped.wrapping_add(1);
            return false;
        }
        queue.push_back((cell, self.slot));
        self.stored = self.stored.wrapping_add(1);
        true
    }

    fn depart(&mut self, hold: u32, report: &mut Report) {
        let counts: Vec<u16> = self.queues.iter().map(|queue| queue.len() as u16).collect();
        let best = best_match(table_weights(self.m as u32, self.n as u32, &counts, hold));
        (report.partners, report.size, report.weight) = (best.partners, best.size, best.weight);
        for input in (0..self.m).filter(|input| best.partners[*input] != NONE) {
            let queue = input * self.n + usize::from(best.partners[input]);
            let (cell, stamp) = self.queues[queue]
                .pop_front()
                .expect("a request has a cell");
            (report.cells[input], report.waits[input]) = (cell, self.slot.wrapping_sub(stamp));
            self.sent[queue] += 1;
            self.departed = self.departed.wrapping_add(1);
        }
    }

    fn record(&self) -> Record {
        let mut record = Record::zeros();
        (record.m, record.n, record.d) = (self.m as u32, self.n as u32, self.d as u32);
        for (index, queue) in self.queues.iter().enumerate() {
            record.heads[index] = (self.sent[index] % self.d) as u32;
            record.counts[index] = queue.len() as u32;
        }
        (record.slot, record.offered, record.stored) = (self.slot, self.offered, self.stored);
        (record.dropped, record.departed) = (self.dropped, self.departed);
        record
    }

    fn lists(&self) -> Lists {
        let mut lists = Lists::filled(self.queues.len() * self.d, 0);
        for (index, queue) in self.queues.iter().enumerate() {
            for (step, (cell, stamp)) in queue.iter().enumerate() {
                let place = index * self.d + (self.sent[index] + step) % self.d;
                (lists.cells[place], lists.stamps[place]) = (*cell, *stamp);
            }
        }
        lists
    }
}

/// A fresh card that must be accepted.
fn card(m: u32, n: u32, d: u32) -> (Record, Lists) {
    let mut lists = Lists::filled((m * n * d) as usize, 9);
    let (refusal, record) = fresh(m, n, d, &mut lists);
    assert_eq!(refusal, 0, "the card fits");
    (record, lists)
}

/// Arrivals given as (input, output, cell).
fn arriving(given: &[(usize, u16, u32)]) -> Arrivals {
    let mut arrivals = Arrivals::nothing();
    for (input, output, cell) in given {
        (arrivals.outputs[*input], arrivals.cells[*input]) = (*output, *cell);
    }
    arrivals
}

pub fn fresh_cards(group: &mut Group) {
    for (m, n, d) in [(1, 1, 1), (32, 32, 64), (2, 3, 5), (32, 1, 64), (1, 32, 1)] {
        let (record, lists) = card(m, n, d);
        let mut wanted = Record::zeros();
        (wanted.m, wanted.n, wanted.d) = (m, n, d);
        group.equal("fresh record", record, wanted);
        group.equal(
            "cleared lists",
            lists,
            Lists::filled((m * n * d) as usize, 0),
        );
    }
    for (m, n, d) in REFUSED_SIZES {
        refused_fresh(group, (m, n, d), Lists::filled(1, 9), 1);
        refused_fresh(group, (m, n, d), Lists::filled(7, 9), 1);
    }
    for (cells, stamps) in [(7, 8), (9, 8), (8, 7), (8, 9), (0, 0)] {
        let lists = Lists {
            cells: vec![9; cells],
            stamps: vec![9; stamps],
        };
        refused_fresh(group, (2, 2, 2), lists, 2);
    }
}

fn refused_fresh(group: &mut Group, (m, n, d): (u32, u32, u32), lists: Lists, refusal: u32) {
    let mut after = lists.clone();
    let found = fresh(m, n, d, &mut after);
    group.equal("refused fresh card", found, (refusal, Record::zeros()));
    group.equal("lists of a refused fresh card", after, lists);
}

/// Random runs on small cards, beside the plainer card.
pub fn runs(group: &mut Group) {
    let mut random = Random::seeded(7);
    for _ in 0..150 {
        let (m, n, d) = (
            random.between(1, 4),
            random.between(1, 4),
            random.between(1, 4),
        );
        let load = random.choose(&[30, 70, 100]);
        one_run(group, &mut random, (m, n, d), load);
    }
    group.equal(
        "numbers of a record",
        card(2, 3, 4).0.numbers().len(),
        2_056,
    );
    group.equal("numbers of a report", Report::nothing().numbers().len(), 99);
}

fn one_run(group: &mut Group, random: &mut Random, (m, n, d): (u32, u32, u32), load: u32) {
    let (mut record, mut lists) = card(m, n, d);
    let mut plain = Plain::new(m, n, d);
    for _ in 0..60 {
        let hold = random.mask(n, 20);
        let arrivals = random_arrivals(random, m, n, load);
        let (refusal, next, report) = slot(&record, &mut lists, hold, &arrivals);
        let wanted = plain.step(hold, &arrivals);
        group.equal("refusal", refusal, 0);
        group.equal("report", report.numbers(), wanted.numbers());
        group.equal("record", next.numbers(), plain.record().numbers());
        group.equal("lists", &lists, &plain.lists());
        group.equal("offered", next.offered, next.stored + next.dropped);
        group.equal("stored", next.stored, next.departed + next.waiting());
        record = next;
    }
}

fn random_arrivals(random: &mut Random, m: u32, n: u32, load: u32) -> Arrivals {
    let mut arrivals = Arrivals::nothing();
    for input in 0..m as usize {
        if random.percent(load) {
            arrivals.outputs[input] = random.below(n) as u16;
            arrivals.cells[input] = if random.percent(80) {
                random.next() as u32
            } else {
                0
            };
        }
    }
    arrivals
}

/// A slot that must be refused, and change nothing.
fn refused(
    group: &mut Group,
    record: &Record,
    lists: &Lists,
    hold: u32,
    arrivals: &Arrivals,
    refusal: u32,
) {
    let mut after = lists.clone();
    let found = slot(record, &mut after, hold, arrivals);
    group.equal(
        "refused slot",
        found,
        (refusal, record.clone(), Report::nothing()),
    );
    group.equal("lists of a refused slot", &after, lists);
}

/// Refusals 7, 2, 3 and 4 from both sides, and their order: each fault is tried with all later
/// faults beside it.
pub fn refusals(group: &mut Group) {
    let (record, lists) = card(2, 3, 2);
    let short = Lists::filled(11, 9);
    let stray = arriving(&[(2, 0, 5)]);
    for broken in broken_records(&record) {
        refused(group, &broken, &lists, 0, &Arrivals::nothing(), 7);
        refused(group, &broken, &short, 1 << 3, &stray, 7);
    }
    for (cells, stamps) in [(11, 12), (13, 12), (12, 11), (12, 13), (0, 0)] {
        let lists = Lists {
            cells: vec![9; cells],
            stamps: vec![9; stamps],
        };
        refused(group, &record, &lists, 0, &Arrivals::nothing(), 2);
        refused(group, &record, &lists, 1 << 3, &stray, 2);
    }
    for hold in [1 << 3, 1 << 31, u32::MAX] {
        refused(group, &record, &lists, hold, &Arrivals::nothing(), 3);
        refused(group, &record, &lists, hold, &stray, 3);
    }
    let wrong = [
        (2, 0, 5),
        (2, NONE, 1),
        (31, 0, 0),
        (1, 3, 5),
        (0, 65_534, 5),
        (0, NONE, 1),
        (31, NONE, 7),
    ];
    for arrival in wrong {
        refused(group, &record, &lists, 0, &arriving(&[arrival]), 4);
    }
    accepted_limits(group);
}

fn broken_records(record: &Record) -> Vec<Record> {
    let mut all = Vec::new();
    let mut broken = |change: &dyn Fn(&mut Record)| {
        let mut next = record.clone();
        change(&mut next);
        all.push(next);
    };
    for ports in [0, 33, 65_538] {
        broken(&|record| record.m = ports);
        broken(&|record| record.n = ports);
    }
    for depth in [0, 65, 65_538] {
        broken(&|record| record.d = depth);
    }
    for (index, number) in [(0, 2), (5, 2), (5, 65_536), (6, 1), (QUEUES - 1, 1)] {
        broken(&|record| record.heads[index] = number);
    }
    for (index, number) in [(0, 3), (5, 3), (5, 65_536), (6, 1), (QUEUES - 1, 1)] {
        broken(&|record| record.counts[index] = number);
    }
    all
}

/// What lies just inside the limits is taken.
fn accepted_limits(group: &mut Group) {
    let (mut record, mut lists) = card(2, 3, 2);
    (record.heads[5], record.counts[5]) = (1, 2);
    let given = arriving(&[(0, 2, 0), (1, 0, u32::MAX)]);
    let (refusal, next, report) = slot(&record, &mut lists, 1 << 2, &given);
    group.equal(
        "head D − 1, count D, hold N − 1, output N − 1, cell 0",
        refusal,
        0,
    );
    group.equal("partners", &report.partners[..2], &[NONE, 0]);
    group.equal("stored", next.stored, 2);
    let (record, mut lists) = card(32, 32, 1);
    let given = arriving(&[(31, 31, 8)]);
    let (refusal, _, report) = slot(&record, &mut lists, u32::MAX >> 1, &given);
    group.equal(
        "the last input and output of a full card",
        (refusal, report.partners[31]),
        (0, 31),
    );
    let (refusal, _, report) = slot(&record, &mut Lists::filled(1_024, 0), u32::MAX, &given);
    group.equal(
        "all outputs held",
        (refusal, report.partners),
        (0, [NONE; PORTS]),
    );
}

/// "Full" is tested before departures; an emptied queue keeps its head; freed places are stored
/// into again.
pub fn shortcuts(group: &mut Group) {
    let (record, mut lists) = card(1, 1, 1);
    let (_, record, _) = slot(&record, &mut lists, 1, &arriving(&[(0, 0, 5)]));
    let (_, record, report) = slot(&record, &mut lists, 0, &arriving(&[(0, 0, 6)]));
    group.equal(
        "dropped though the queue sends",
        (report.dropped, report.cells[0], report.waits[0]),
        (1, 5, 1),
    );
    group.equal("counters", &record.numbers()[2_051..], &[2, 2, 1, 1, 1]);
    let (record, mut lists) = card(1, 1, 2);
    let (_, record, _) = slot(&record, &mut lists, 0, &arriving(&[(0, 0, 7)]));
    group.equal(
        "an emptied queue's head",
        (record.heads[0], record.counts[0]),
        (1, 0),
    );
    let (_, record, _) = slot(&record, &mut lists, 1, &arriving(&[(0, 0, 8)]));
    group.equal("stored behind the head", &lists.cells, &vec![0, 8]);
    let (_, record, _) = slot(&record, &mut lists, 1, &arriving(&[(0, 0, 9)]));
    group.equal("stored in the freed place", &lists.cells, &vec![9, 8]);
    let (_, _, report) = slot(&record, &mut lists, 0, &Arrivals::nothing());
    group.equal(
        "the oldest is sent",
        (report.cells[0], report.waits[0]),
        (8, 2),
    );
}

/// The slot number, the waits and the counters run over the end of 32 bits.
pub fn wraps(group: &mut Group) {
    let (mut record, mut lists) = card(1, 2, 1);
    (record.slot, record.offered, record.stored) = (u32::MAX, u32::MAX, u32::MAX);
    (record.dropped, record.departed) = (u32::MAX, u32::MAX);
    let (_, record, _) = slot(&record, &mut lists, 1, &arriving(&[(0, 0, 5)]));
    group.equal("stamp", lists.stamps[0], u32::MAX);
    group.equal(
        "after the wrap",
        &record.numbers()[2_051..],
        &[0, 0, 0, u32::MAX, u32::MAX],
    );
    let (_, record, _) = slot(&record, &mut lists, 1, &arriving(&[(0, 0, 6)]));
    group.equal(
        "dropped wraps",
        &record.numbers()[2_051..],
        &[1, 1, 0, 0, u32::MAX],
    );
    let (_, record, report) = slot(&record, &mut lists, 0, &Arrivals::nothing());
    group.equal(
        "wait over the wrap",
        (report.cells[0], report.waits[0]),
        (5, 2),
    );
    group.equal("departed wraps", record.departed, 0);
    let (mut record, mut lists) = card(1, 1, 1);
    (record.counts[0], lists.stamps[0]) = (1, 3);
    let (_, _, report) = slot(&record, &mut lists, 0, &Arrivals::nothing());
    group.equal(
        "a stamp ahead of the slot number",
        report.waits[0],
        u32::MAX - 2,
    );
}
