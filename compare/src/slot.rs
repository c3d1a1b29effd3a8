//! The card record, the fresh card and one slot in order.

use crate::card::{
    arrival_fits, depth_fits, ports_fit, stays_below, Arrivals, NONE, PORTS, QUEUES,
};
use crate::matching::{table_match, Match};

/// The card record. Heads and counts are 1,024 each; queue (i, j) has index i × N + j.
#[derive(Clone, Debug, PartialEq)]
pub struct Record {
    pub m: u32,
    pub n: u32,
    pub d: u32,
    pub heads: Vec<u32>,
    pub counts: Vec<u32>,
    pub slot: u32,
    pub offered: u32,
    pub stored: u32,
    pub dropped: u32,
    pub departed: u32,
}

/// The two lent lists; queue (i, j) has the D places from (i × N + j) × D on.
#[derive(Clone, Debug, PartialEq)]
pub struct Lists {
    pub cells: Vec<u32>,
    pub stamps: Vec<u32>,
}

/// What one slot reports; `dropped` is a mask of inputs.
#[derive(Clone, Debug, PartialEq)]
pub struct Report {
    pub partners: [u16; PORTS],
    pub cells: [u32; PORTS],
    pub waits: [u32; PORTS],
    pub size: u32,
    pub weight: u32,
    pub dropped: u32,
}

impl Record {
    pub fn zeros() -> Record {
        Record {
            m: 0,
            n: 0,
            d: 0,
            heads: vec![0; QUEUES],
            counts: vec![0; QUEUES],
            slot: 0,
            offered: 0,
            stored: 0,
            dropped: 0,
            departed: 0,
        }
    }

    /// The record as 2,056 numbers: M, N, D, heads, counts, slot number and the four counters.
    pub fn numbers(&self) -> Vec<u32> {
        let mut numbers = vec![self.m, self.n, self.d];
        numbers.extend(&self.heads);
        numbers.extend(&self.counts);
        numbers.extend([self.slot, self.offered, self.stored]);
        numbers.extend([self.dropped, self.departed]);
        numbers
    }

    /// The sum of queue lengths.
    pub fn waiting(&self) -> u32 {
        self.counts.iter().sum()
    }

    fn queues(&self) -> usize {
        (self.m * self.n) as usize
    }

    fn queue(&self, input: usize, output: usize) -> usize {
        input * self.n as usize + output
    }

    /// The place in the lists that lies `steps` after the head of this queue.
    fn place(&self, queue: usize, steps: u32) -> usize {
        let within = (self.heads[queue] + steps) % self.d;
        queue * self.d as usize + within as usize
    }

    /// The counts as a table of M × N.
    fn table(&self) -> Vec<u16> {
        let inside = &self.counts[..self.queues()];
        inside.iter().map(|count| *count as u16).collect()
    }

    fn is_well_formed(&self) -> bool {
        ports_fit(self.m, self.n) && depth_fits(self.d) && self.queues_fit()
    }

    fn queues_fit(&self) -> bool {
        (0..QUEUES).all(|index| {
            let (head, count) = (self.heads[index], self.counts[index]);
            if index < self.queues() {
                head < self.d && count <= self.d
            } else {
                head == 0 && count == 0
            }
        })
    }
}

impl Lists {
    /// Both lists with so many places, all holding the same number.
    pub fn filled(places: usize, number: u32) -> Lists {
        Lists {
            cells: vec![number; places],
            stamps: vec![number; places],
        }
    }

    fn have(&self, places: u32) -> bool {
        self.cells.len() == places as usize && self.stamps.len() == places as usize
    }
}

impl Report {
    pub fn nothing() -> Report {
        Report {
            partners: [NONE; PORTS],
            cells: [0; PORTS],
            waits: [0; PORTS],
            size: 0,
            weight: 0,
            dropped: 0,
        }
    }

    /// The report as 99 numbers: partners, cells, waits, size, weight, dropped.
    pub fn numbers(&self) -> Vec<u32> {
        let mut numbers: Vec<u32> = self.partners.map(u32::from).to_vec();
        numbers.extend(self.cells);
        numbers.extend(self.waits);
        numbers.extend([self.size, self.weight, self.dropped]);
        numbers
    }
}

/// A fresh card: the refusal (0 for none) and the record. Both lists are cleared.
pub fn fresh(m: u32, n: u32, d: u32, lists: &mut Lists) -> (u32, Record) {
    let mut record = Record::zeros();
    if !ports_fit(m, n) || !depth_fits(d) {
        return (1, record);
    }
    if !lists.have(m * n * d) {
        return (2, record);
    }
    lists.cells.fill(0);
    lists.stamps.fill(0);
    (record.m, record.n, record.d) = (m, n, d);
    (0, record)
}

/// A match from M, N, a table of counts and a hold.
pub type Matching = fn(u32, u32, &[u16], u32) -> Match;

/// One slot: the refusal (0 for none), the next record and the report. A refused slot changes
/// nothing.
pub fn slot(
    record: &Record,
    lists: &mut Lists,
    hold: u32,
    arrivals: &Arrivals,
) -> (u32, Record, Report) {
    let mut next = record.clone();
    let (refusal, report) = step(&mut next, lists, hold, arrivals, table_match);
    (refusal, next, report)
}

/// The same slot on the record where it stands, under a match of the caller's choice.
pub fn step(
    record: &mut Record,
    lists: &mut Lists,
    hold: u32,
    arrivals: &Arrivals,
    matching: Matching,
) -> (u32, Report) {
    let refusal = slot_refusal(record, lists, hold, arrivals);
    let mut report = Report::nothing();
    if refusal == 0 {
        take_arrivals(record, lists, arrivals, &mut report);
        let found = matching(record.m, record.n, &record.table(), hold);
        send_cells(record, lists, &found, &mut report);
        record.slot = record.slot.wrapping_add(1);
    }
    (refusal, report)
}

fn slot_refusal(record: &Record, lists: &Lists, hold: u32, arrivals: &Arrivals) -> u32 {
    if !record.is_well_formed() {
        7
    } else if !lists.have(record.m * record.n * record.d) {
        2
    } else if !stays_below(hold, record.n) {
        3
    } else if !arrivals_fit(record.m, record.n, arrivals) {
        4
    } else {
        0
    }
}

/// Refusal 4 does not apply to these arrivals at a card of M inputs and N outputs.
pub fn arrivals_fit(m: u32, n: u32, arrivals: &Arrivals) -> bool {
    (0..PORTS).all(|input| {
        let (output, cell) = (arrivals.outputs[input], arrivals.cells[input]);
        if input < m as usize {
            arrival_fits(output, cell, n)
        } else {
            output == NONE && cell == 0
        }
    })
}

/// Step 1, for every input in order.
fn take_arrivals(record: &mut Record, lists: &mut Lists, arrivals: &Arrivals, report: &mut Report) {
    for input in 0..record.m as usize {
        let output = arrivals.outputs[input];
        if output == NONE {
            continue;
        }
        record.offered = record.offered.wrapping_add(1);
        let queue = record.queue(input, usize::from(output));
        if record.counts[queue] == record.d {
            record.dropped = record.dropped.wrapping_add(1);
            report.dropped |= 1 << input;
        } else {
            store(record, lists, queue, arrivals.cells[input]);
        }
    }
}

fn store(record: &mut Record, lists: &mut Lists, queue: usize, cell: u32) {
    let place = record.place(queue, record.counts[queue]);
    lists.cells[place] = cell;
    lists.stamps[place] = record.slot;
    record.counts[queue] += 1;
    record.stored = record.stored.wrapping_add(1);
}

/// Step 3, for every matched input in order.
fn send_cells(record: &mut Record, lists: &mut Lists, found: &Match, report: &mut Report) {
    report.size = found.size;
    report.weight = found.weight;
    for input in 0..record.m as usize {
        let output = found.partners[input];
        if output != NONE {
            let queue = record.queue(input, usize::from(output));
            report.partners[input] = output;
            (report.cells[input], report.waits[input]) = send(record, lists, queue);
        }
    }
}

/// Sends the oldest cell of this queue; answers the cell and its wait.
fn send(record: &mut Record, lists: &mut Lists, queue: usize) -> (u32, u32) {
    let place = record.place(queue, 0);
    let cell = std::mem::take(&mut lists.cells[place]);
    let stamp = std::mem::take(&mut lists.stamps[place]);
    record.heads[queue] = (record.heads[queue] + 1) % record.d;
    record.counts[queue] -= 1;
    record.departed = record.departed.wrapping_add(1);
    (cell, record.slot.wrapping_sub(stamp))
}
