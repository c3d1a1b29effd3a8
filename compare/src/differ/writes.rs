//! Cases for the writer of logs, and round trips through the library: what it writes it checks and
//! reads back.

use super::call::{leftovers, Call, Function, List};
use super::edits::{
    arrival_edges, depths_refused, edge, element, lengths, ports_refused, unchanged, Edge, Edit,
};
use super::logs::{bases, check_call, most_slots, random_slots, read_call};
use super::model::halves;
use super::{sizes, Run};
use crate::log::{record_bytes, Slots, TRAILER};
use crate::random::Random;

const TRIPS: u32 = 12;

fn write_call(random: &mut Random, slots: &Slots, room: usize) -> Call {
    let function = Function::LogWrite;
    let outputs = slots.outputs.iter().map(|output| u32::from(*output));
    Call {
        function,
        numbers: vec![slots.m, slots.n, slots.d],
        lists: vec![
            slots.holds.clone(),
            outputs.collect(),
            slots.cells.clone(),
            leftovers(random, function, "buffer", room),
        ],
    }
}

/// The bytes of a log of so many slots.
fn log_bytes(m: u32, count: usize) -> usize {
    count * record_bytes(m) as usize + TRAILER
}

pub fn writer(run: &mut Run) {
    sizes_around(run);
    for (card, count) in bases(&mut run.random) {
        let slots = random_slots(&mut run.random, card, count);
        let room = log_bytes(slots.m, count as usize);
        let call = write_call(&mut run.random, &slots, room);
        let edges = write_edges(&mut run.random, &call);
        run.around(&call, &edges);
    }
    for m in [1, 32, sizes::ports(&mut run.random)] {
        longest(run, m);
    }
}

/// One slot of a card of any numbers, with lists of the length that M asks for or might be thought
/// to ask for.
fn sizes_around(run: &mut Run) {
    for [m, n] in sizes::grid() {
        for length in sizes::lengths(&[m]) {
            let slots = Slots {
                m,
                n,
                d: run.random.choose(&sizes::DEPTHS_AROUND),
                holds: vec![0],
                outputs: vec![0; length],
                cells: vec![1; length],
            };
            let call = write_call(&mut run.random, &slots, 300);
            run.compare("sizes around the limits", &call);
        }
    }
}

/// As many slots as a log can have, and one more.
fn longest(run: &mut Run, m: u32) {
    let n = sizes::ports(&mut run.random);
    let most = most_slots(m);
    let room = log_bytes(m, most as usize);
    let slots = random_slots(&mut run.random, [m, n, 64], most);
    let call = write_call(&mut run.random, &slots, room);
    run.stated("the longest log", &call, halves(0, room as u32));
    let slots = random_slots(&mut run.random, [m, n, 64], most + 1);
    let call = write_call(&mut run.random, &slots, 2 * room);
    run.stated("a slot more than a log can have", &call, 8);
}

/// Every change to a call whose buffer is as long as the log.
fn write_edges(random: &mut Random, call: &Call) -> Vec<Edge> {
    let count = call.list("holds").len() as u32;
    let room = call.list("buffer").len() as u32;
    let middle = random.below(count);
    let mut edges = [
        unchanged(0),
        ports_refused(),
        depths_refused(),
        lengths(call, "holds"),
        lengths(call, "outputs"),
        lengths(call, "cells"),
        slots_around(call),
    ]
    .concat();
    for slot in [0, middle, count - 1] {
        let input = random.below(call.number("m"));
        edges.extend(record_edges(call, slot, input));
    }
    for edge in edges.iter_mut().filter(|edge| edge.answer == 0) {
        edge.answer = halves(0, room);
    }
    edges.extend(rooms(room));
    edges
}

/// So many slots, the added ones with a cell for output 0 at every input.
fn slots_of(m: u32, count: u32) -> Vec<Edit> {
    let entries = (count * m) as usize;
    vec![
        Edit::Length("holds", count as usize),
        Edit::Length("outputs", entries),
        Edit::Length("cells", entries),
    ]
}

/// More slots than the log can have, and more than the buffer has room for.
fn slots_around(call: &Call) -> Vec<Edge> {
    let m = call.number("m");
    let count = call.list("holds").len() as u32;
    vec![
        edge(8, slots_of(m, most_slots(m) + 1)),
        edge(10, slots_of(m, most_slots(m))),
        edge(10, slots_of(m, count + 1)),
    ]
}

/// The hold and one arrival of a record, from both sides.
fn record_edges(call: &Call, slot: u32, input: u32) -> Vec<Edge> {
    let (m, n) = (call.number("m"), call.number("n"));
    let hold = |answer, mask| element(answer, "holds", slot as usize, mask);
    let entry = |answer, output, cell| {
        let place = (slot * m + input) as usize;
        let output = Edit::Elements("outputs", place, vec![output]);
        let cell = Edit::Elements("cells", place, vec![cell]);
        edge(answer, vec![output, cell])
    };
    arrival_edges(n, hold, entry)
}

/// Buffers of other lengths; a log without slots leaves most of the buffer.
fn rooms(room: u32) -> Vec<Edge> {
    let buffer = |answer, length: u32| Edge {
        answer,
        edits: vec![Edit::Length("buffer", length as usize)],
    };
    vec![
        buffer(10, 0),
        buffer(10, room - 1),
        buffer(halves(0, room), room + 1),
        buffer(halves(0, room), room + 100),
        buffer(halves(0, room), 65_536),
        Edge {
            answer: halves(0, TRAILER as u32),
            edits: slots_of(0, 0),
        },
    ]
}

/// Slots written, checked, read back and written again by the library.
pub fn round_trips(run: &mut Run) {
    for _ in 0..TRIPS {
        let card = sizes::card(&mut run.random, 65_536);
        let most = run.random.choose(&[0, 1, 20, 163]);
        let count = most_slots(card[0]).min(most);
        let slots = random_slots(&mut run.random, card, count);
        let (call, log) = written(run, &slots);
        let check = check_call(&mut run.random, &log);
        run.stated("a log that the library wrote", &check, 0);
        let back = read_back(run, &log, &slots);
        let again = written(run, &back).1;
        if back != slots || again != log {
            run.differs(
                "a round trip",
                &call,
                "  what is read back is not what was written\n",
            );
        }
    }
}

/// The log that the library writes of these slots, and the call that did it.
fn written(run: &mut Run, slots: &Slots) -> (Call, List) {
    let length = log_bytes(slots.m, slots.holds.len());
    let room = length + run.random.choose(&[0, 1, 50]);
    let call = write_call(&mut run.random, slots, room);
    let came = run.compare("slots to be read back", &call);
    let buffer = &came.lists[call.function.place("buffer")];
    (call, buffer[..length].to_vec())
}

/// What the library reads of each slot, as the writer takes it.
fn read_back(run: &mut Run, log: &[u32], slots: &Slots) -> Slots {
    let m = slots.m as usize;
    let mut back = Slots {
        holds: Vec::new(),
        outputs: Vec::new(),
        cells: Vec::new(),
        ..*slots
    };
    for slot in 0..slots.holds.len() {
        let call = read_call(&mut run.random, log, slot as u32);
        let came = run.compare("a slot that the library wrote", &call);
        let list = |name| &came.lists[call.function.place(name)];
        back.holds.push(list("hold")[0]);
        let outputs = list("outputs")[..m].iter().map(|output| *output as u16);
        back.outputs.extend(outputs);
        back.cells.extend(&list("cells")[..m]);
    }
    back
}
