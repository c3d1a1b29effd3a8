//! Cases for the fresh card and for one slot, and runs of slots on one card.

use super::call::{leftovers, Call, Function, List, COUNTS, HEADS, RECORD, REPORT, SLOT_NUMBER};
use super::edits::{depths_refused, edge, element, fixed_lengths, lengths, ports_refused};
use super::edits::{unchanged, Edge, Edit};
use super::matches::holds_around;
use super::{sizes, Run};
use crate::card::{NONE, PORTS, QUEUES};
use crate::random::Random;

const FRESH: u32 = 40;
const SLOTS: u32 = 300;
const RUNS: u32 = 4;
const RUN_SLOTS: u32 = 40;

/// Cards whose pairs of faults are tried: the smallest, the most queues, and a random one.
fn bases(random: &mut Random) -> [[u32; 3]; 3] {
    let other = sizes::card(random, 1_000);
    [[1, 1, 1], [32, 32, 1], other]
}

fn places([m, n, d]: [u32; 3]) -> usize {
    (m * n * d) as usize
}

fn fresh_call(random: &mut Random, card: [u32; 3], length: usize) -> Call {
    let function = Function::Fresh;
    Call {
        function,
        numbers: card.to_vec(),
        lists: vec![
            leftovers(random, function, "record", RECORD),
            leftovers(random, function, "cells", length),
            leftovers(random, function, "stamps", length),
        ],
    }
}

pub fn fresh_cards(run: &mut Run) {
    for card in sizes::deep_grid() {
        for length in sizes::lengths(&card) {
            let call = fresh_call(&mut run.random, card, length);
            run.compare("sizes around the limits", &call);
        }
    }
    for card in bases(&mut run.random) {
        let call = fresh_call(&mut run.random, card, places(card));
        run.around(&call, &fresh_edges(&call));
    }
    for _ in 0..FRESH {
        let card = sizes::card(&mut run.random, 65_536);
        let call = fresh_call(&mut run.random, card, places(card));
        run.stated("a fresh card", &call, 0);
    }
}

fn fresh_edges(call: &Call) -> Vec<Edge> {
    [
        unchanged(0),
        ports_refused(),
        depths_refused(),
        lengths(call, "cells"),
        lengths(call, "stamps"),
        fixed_lengths(call),
    ]
    .concat()
}

/// Arrivals of one slot: the list of outputs and the list of cells.
fn arrivals(random: &mut Random, m: u32, n: u32, load: u32) -> [List; 2] {
    let (mut outputs, mut cells) = (vec![u32::from(NONE); PORTS], vec![0; PORTS]);
    for input in 0..m as usize {
        if random.percent(load) {
            let any = random.next() as u32;
            outputs[input] = random.below(n);
            cells[input] = random.choose(&[any, any, any, 0, u32::MAX]);
        }
    }
    [outputs, cells]
}

/// A record that is well formed, with any head, any count up to D, and counters near their end.
fn record(random: &mut Random, card: [u32; 3]) -> List {
    let [m, n, d] = card;
    let mut record = vec![0; RECORD];
    record[..HEADS].copy_from_slice(&card);
    let (fill, full) = (
        random.choose(&[0, 5, 50, 100]),
        random.choose(&[0, 50, 100]),
    );
    for queue in 0..(m * n) as usize {
        record[HEADS + queue] = random.below(d);
        if random.percent(fill) {
            let some = random.between(1, d);
            record[COUNTS + queue] = if random.percent(full) { d } else { some };
        }
    }
    for number in &mut record[SLOT_NUMBER..] {
        let any = random.next() as u32;
        *number = random.choose(&[0, u32::MAX, u32::MAX - 1, any]);
    }
    record
}

/// Stamps before the slot number, ahead of it, or any.
fn stamps(random: &mut Random, slot: u32, length: usize) -> List {
    let style = random.below(3);
    let mut stamp = || {
        let near = random.below(100);
        match style {
            0 => slot.wrapping_sub(near),
            1 => slot.wrapping_add(near),
            _ => random.next() as u32,
        }
    };
    (0..length).map(|_| stamp()).collect()
}

fn slot_call(random: &mut Random, card: [u32; 3]) -> Call {
    let function = Function::Slot;
    let [m, n, _] = card;
    let record = record(random, card);
    let load = random.choose(&[0, 30, 90, 100]);
    let [outputs, arriving] = arrivals(random, m, n, load);
    let held = random.choose(&[0, 0, 20, 100]);
    Call {
        function,
        numbers: vec![random.mask(n, held)],
        lists: vec![
            record.clone(),
            leftovers(random, function, "cells", places(card)),
            stamps(random, record[SLOT_NUMBER], places(card)),
            outputs,
            arriving,
            leftovers(random, function, "report", REPORT),
        ],
    }
}

pub fn slots(run: &mut Run) {
    for card in sizes::deep_grid() {
        for length in sizes::lengths(&card) {
            let call = empty_slot(&mut run.random, card, length);
            run.compare("sizes around the limits", &call);
        }
    }
    for card in bases(&mut run.random) {
        let call = slot_call(&mut run.random, card);
        let edges = slot_edges(&mut run.random, &call, card);
        run.around(&call, &edges);
    }
    for _ in 0..SLOTS {
        let most = run.random.choose(&[2_000, 2_000, 10_000, 65_536]);
        let card = sizes::card(&mut run.random, most);
        let call = slot_call(&mut run.random, card);
        run.stated("a random slot", &call, 0);
    }
}

/// A slot of an empty card of any numbers, with lists of this length.
fn empty_slot(random: &mut Random, card: [u32; 3], length: usize) -> Call {
    let mut call = slot_call(random, [1, 1, 1]);
    let mut record = vec![0; RECORD];
    record[..HEADS].copy_from_slice(&card);
    *call.list_mut("record") = record;
    for name in ["cells", "stamps"] {
        *call.list_mut(name) = leftovers(random, Function::Slot, name, length);
    }
    call
}

fn slot_edges(random: &mut Random, call: &Call, card: [u32; 3]) -> Vec<Edge> {
    let [m, n, _] = card;
    let last = (m * n) as usize - 1;
    let queue = random.below(m * n) as usize;
    let input = random.below(m) as usize;
    [
        unchanged(0),
        record_sizes(card),
        queue_numbers(card, last),
        queue_numbers(card, queue),
        numbers_beyond(card),
        lengths(call, "cells"),
        lengths(call, "stamps"),
        holds_around(n),
        arrivals_around(n, input),
        arrivals_beyond(m),
        counters_at_the_end(call),
        fixed_lengths(call),
    ]
    .concat()
}

/// M, N and D outside their limits, also with a low half or a low byte that would fit.
fn record_sizes([m, n, d]: [u32; 3]) -> Vec<Edge> {
    let wrong = |place: usize, number: u32| element(7, "record", place, number);
    let mut edges = Vec::new();
    for above in [256, 65_536] {
        edges.extend([
            wrong(0, m + above),
            wrong(1, n + above),
            wrong(2, d + above),
        ]);
    }
    edges.extend(sizes::PORTS_REFUSED.map(|ports| wrong(0, ports)));
    edges.extend(sizes::PORTS_REFUSED.map(|ports| wrong(1, ports)));
    edges.extend(sizes::DEPTHS_REFUSED.map(|depth| wrong(2, depth)));
    edges
}

/// Head and count of one queue: the greatest that are taken, the least that are not, and numbers
/// that no field can hold, whose low half would fit.
fn queue_numbers([_, _, d]: [u32; 3], queue: usize) -> Vec<Edge> {
    let heads = [d, 65_535, 65_536, 65_536 + d - 1, u32::MAX];
    let counts = [d + 1, 65_535, 65_536, 65_536 + d, u32::MAX];
    let mut edges = vec![
        element(0, "record", HEADS + queue, d - 1),
        element(0, "record", COUNTS + queue, d),
    ];
    edges.extend(heads.map(|head| element(7, "record", HEADS + queue, head)));
    edges.extend(counts.map(|count| element(7, "record", COUNTS + queue, count)));
    edges
}

/// Heads and counts at index M·N and at the last index, where the card does not have it.
fn numbers_beyond([m, n, _]: [u32; 3]) -> Vec<Edge> {
    let first = (m * n) as usize;
    if first == QUEUES {
        return Vec::new();
    }
    let starts = [HEADS, COUNTS].into_iter();
    let places = starts.flat_map(|start| [start + first, start + QUEUES - 1]);
    let wrong = |place| [1, 65_536].map(|number| element(7, "record", place, number));
    places.flat_map(wrong).collect()
}

/// An arrival at an input.
fn arrival(answer: u32, input: usize, output: u32, cell: u32) -> Edge {
    let edits = vec![
        Edit::Elements("outputs", input, vec![output]),
        Edit::Elements("arriving", input, vec![cell]),
    ];
    edge(answer, edits)
}

/// Outputs N − 1 and N and the last before none, and none with and without a cell.
fn arrivals_around(n: u32, input: usize) -> Vec<Edge> {
    vec![
        arrival(0, input, n - 1, 0),
        arrival(0, input, n - 1, u32::MAX),
        arrival(0, input, 65_535, 0),
        arrival(4, input, n, 0),
        arrival(4, input, n, 7),
        arrival(4, input, 65_534, 0),
        arrival(4, input, 65_535, 1),
        arrival(4, input, 65_535, 1 << 31),
    ]
}

/// Arrivals at input M and at the last input where the card does not have it.
fn arrivals_beyond(m: u32) -> Vec<Edge> {
    if m as usize == PORTS {
        return Vec::new();
    }
    let each = [m as usize, PORTS - 1].map(|input| {
        [
            arrival(4, input, 0, 0),
            arrival(4, input, 0, 9),
            arrival(4, input, 65_535, 1),
            arrival(4, input, 65_534, 0),
        ]
    });
    each.concat()
}

/// Slot number and counters at their last number, and stamps ahead of the slot number.
fn counters_at_the_end(call: &Call) -> Vec<Edge> {
    let slot = call.list("record")[SLOT_NUMBER];
    let ahead = vec![slot.wrapping_add(5); call.list("stamps").len()];
    let counters = SLOT_NUMBER..RECORD;
    let mut edges: Vec<Edge> = counters
        .map(|place| element(0, "record", place, u32::MAX))
        .collect();
    let all = Edit::Elements("record", SLOT_NUMBER, vec![u32::MAX; 5]);
    edges.push(edge(0, vec![all]));
    edges.push(edge(0, vec![Edit::Whole("stamps", ahead)]));
    edges
}

/// Slots one after another on one card: the record and the lists that came go into the next call.
pub fn runs(run: &mut Run) {
    for _ in 0..RUNS {
        let card = sizes::card(&mut run.random, 2_048);
        let mut call = slot_call(&mut run.random, card);
        for _ in 0..RUN_SLOTS {
            call.lists = run.compare("a slot of a run", &call).lists;
            next_arrivals(&mut run.random, &mut call, card);
        }
    }
}

fn next_arrivals(random: &mut Random, call: &mut Call, [m, n, _]: [u32; 3]) {
    let load = random.choose(&[20, 60, 100]);
    let [outputs, arriving] = arrivals(random, m, n, load);
    *call.list_mut("outputs") = outputs;
    *call.list_mut("arriving") = arriving;
    let held = random.choose(&[0, 0, 30]);
    call.set_number("hold", random.mask(n, held));
}
