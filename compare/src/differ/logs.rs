//! Cases for the whole check of a log and for reading one slot: every limit, pairs of faults, damaged
//! logs and long ones.

use super::call::{leftovers, Call, Function, List};
use super::edits::{arrival_edges, edge, fixed_lengths, number, unchanged, Edge, Edit};
use super::model::halves;
use super::{sizes, Run};
use crate::card::PORTS;
use crate::log::{record_bytes, Slots, MOST_BYTES, TRAILER};
use crate::random::Random;
use crate::samples;

const DAMAGED: u32 = 3;
const CUTS: u32 = 30;

/// A good log: its slots, and their bytes behind a banner.
struct Log {
    slots: Slots,
    banner: usize,
    bytes: List,
}

/// A change to a log with its refusal, and the record in which that lies, 0 for none.
struct LogEdge {
    refusal: u32,
    record: u32,
    edits: Vec<Edit>,
}

fn head_edge(refusal: u32, edit: Edit) -> LogEdge {
    LogEdge {
        refusal,
        record: 0,
        edits: vec![edit],
    }
}

/// The most slots that a log can have.
pub fn most_slots(m: u32) -> u32 {
    (MOST_BYTES - TRAILER) as u32 / record_bytes(m) as u32
}

pub fn random_slots(random: &mut Random, card: [u32; 3], count: u32) -> Slots {
    let (load, held) = (random.choose(&[0, 50, 100]), random.choose(&[0, 30, 100]));
    samples::random(card, count, load, held, random.next())
}

fn random_log(random: &mut Random, card: [u32; 3], count: u32, banner: usize) -> Log {
    let slots = random_slots(random, card, count);
    let mut bytes = leftovers(random, Function::LogCheck, "log", banner);
    bytes.extend(samples::log_of(&slots).into_iter().map(u32::from));
    Log {
        slots,
        banner,
        bytes,
    }
}

impl Log {
    fn count(&self) -> u32 {
        self.slots.holds.len() as u32
    }

    fn trailer(&self) -> usize {
        self.bytes.len() - TRAILER
    }

    fn back(&self) -> u32 {
        (self.trailer() - self.banner) as u32
    }

    fn record(&self, slot: u32) -> usize {
        self.banner + slot as usize * record_bytes(self.slots.m) as usize
    }
}

fn four(number: u32) -> List {
    number.to_le_bytes().map(u32::from).to_vec()
}

fn two(number: u32) -> List {
    four(number)[..2].to_vec()
}

pub fn check_call(random: &mut Random, log: &[u32]) -> Call {
    let function = Function::LogCheck;
    Call {
        function,
        numbers: Vec::new(),
        lists: vec![log.to_vec(), leftovers(random, function, "answer", 5)],
    }
}

pub fn read_call(random: &mut Random, log: &[u32], slot: u32) -> Call {
    let function = Function::LogRead;
    Call {
        function,
        numbers: vec![slot],
        lists: vec![
            log.to_vec(),
            leftovers(random, function, "hold", 1),
            leftovers(random, function, "outputs", PORTS),
            leftovers(random, function, "cells", PORTS),
        ],
    }
}

/// The smallest card, the largest, and a random one, each with a few slots.
pub fn bases(random: &mut Random) -> [([u32; 3], u32); 3] {
    let other = sizes::card(random, 65_536);
    let mut count = || random.between(2, 5);
    [
        ([1, 1, 1], count()),
        ([32, 32, 64], count()),
        (other, count()),
    ]
}

/// Good logs, and each change to them, for the whole check and for reading one slot.
pub fn checks_and_reads(run: &mut Run) {
    for (card, count) in bases(&mut run.random) {
        let banner = run.random.choose(&[0, 1, 7, 40]);
        let log = random_log(&mut run.random, card, count, banner);
        let edges = log_edges(&mut run.random, &log);
        let call = check_call(&mut run.random, &log.bytes);
        let checked: Vec<Edge> = edges.iter().map(of_check).collect();
        run.around(
            &call,
            &[unchanged(0), checked, fixed_lengths(&call)].concat(),
        );
        let slot = run.random.below(count);
        let call = read_call(&mut run.random, &log.bytes, slot);
        let read: Vec<Edge> = edges.iter().map(|edge| of_read(edge, slot)).collect();
        let lengths = fixed_lengths(&call);
        let edges = [unchanged(0), read, slots_around(count), lengths].concat();
        run.around(&call, &edges);
    }
}

fn of_check(edge: &LogEdge) -> Edge {
    Edge {
        answer: halves(edge.refusal, edge.record),
        edits: edge.edits.clone(),
    }
}

/// A bad record matters only where it is the one that is read.
fn of_read(given: &LogEdge, slot: u32) -> Edge {
    let matters = given.record == 0 || given.record == slot + 1;
    let refusal = if matters { given.refusal } else { 0 };
    edge(refusal, given.edits.clone())
}

/// Slots asked for: the last, and those past the count.
fn slots_around(count: u32) -> Vec<Edge> {
    let past = [count, count + 1, 1 << 28, 1 << 31, u32::MAX];
    let mut edges = past.map(|slot| number(11, "slot", slot)).to_vec();
    edges.push(number(0, "slot", count - 1));
    edges
}

fn log_edges(random: &mut Random, log: &Log) -> Vec<LogEdge> {
    let mut edges = marks(log);
    edges.extend(trailer_cards(log));
    edges.extend(trailer_products(log));
    let middle = random.below(log.count());
    for slot in [0, middle, log.count() - 1] {
        let input = random.below(log.slots.m);
        edges.extend(record_edges(log, slot, input));
    }
    edges
}

/// Lengths under 16, and logs that do not end in the mark; a banner is not read.
fn marks(log: &Log) -> Vec<LogEdge> {
    let length = log.bytes.len();
    let mut edges = vec![
        head_edge(8, Edit::Length("log", 0)),
        head_edge(8, Edit::Length("log", 15)),
        head_edge(8, Edit::Whole("log", log.bytes[length - 15..].to_vec())),
        head_edge(8, Edit::Length("log", length - 1)),
        head_edge(8, Edit::Length("log", length + 1)),
        head_edge(8, Edit::Elements("log", length - 2, vec![0x4D])),
        head_edge(8, Edit::Elements("log", length - 1, vec![0x51])),
        head_edge(8, Edit::Elements("log", length - 2, vec![0x50, 0x4C])),
    ];
    if log.banner > 0 {
        edges.push(head_edge(
            0,
            Edit::Elements("log", 0, vec![0xFF; log.banner]),
        ));
        edges.push(head_edge(
            0,
            Edit::Whole("log", log.bytes[log.banner..].to_vec()),
        ));
    }
    edges
}

/// M, N and D of the trailer outside their limits, also with a low byte that would fit.
fn trailer_cards(log: &Log) -> Vec<LogEdge> {
    let field = |at: usize, number: u32| {
        let edit = Edit::Elements("log", log.trailer() + at, two(number));
        head_edge(1, edit)
    };
    let Slots { m, n, d, .. } = log.slots;
    let mut edges = Vec::new();
    for ports in [0, 33, 255, 65_535] {
        edges.extend([field(4, ports), field(6, ports)]);
    }
    edges.extend([256 + m, 32_768 + m].map(|ports| field(4, ports)));
    edges.extend([256 + n, 32_768 + n].map(|ports| field(6, ports)));
    edges.extend([0, 65, 257, 256 + d, 65_535].map(|depth| field(8, depth)));
    edges
}

/// Back lengths and counts that do not belong together, that do so only modulo 2^32, or that reach
/// before the first byte.
fn trailer_products(log: &Log) -> Vec<LogEdge> {
    let (back, count, each) = (log.back(), log.count(), record_bytes(log.slots.m) as u32);
    let past = (1u64 << 32).div_ceil(u64::from(each)) as u32;
    let wrong = [
        (back + 1, count),
        (back - 1, count),
        (back | 1 << 31, count),
        (u32::MAX, count),
        (0, count),
        (back, 0),
        (back, count + 1),
        (back, count - 1),
        (back, u32::MAX),
        (back, count + (1 << 31)),
        (past.wrapping_mul(each), past),
        (back + each * 200, count + 200),
        (each.wrapping_mul(u32::MAX), u32::MAX),
    ];
    let made = |(back, count)| LogEdge {
        refusal: 9,
        record: 0,
        edits: vec![
            Edit::Elements("log", log.trailer(), four(back)),
            Edit::Elements("log", log.trailer() + 10, four(count)),
        ],
    };
    let mut edges: Vec<LogEdge> = wrong.map(made).into_iter().collect();
    let short = log.bytes[log.banner + 1..].to_vec();
    edges.push(head_edge(9, Edit::Whole("log", short)));
    edges
}

/// The hold and one arrival of a record, from both sides.
fn record_edges(log: &Log, slot: u32, input: u32) -> Vec<LogEdge> {
    let n = log.slots.n;
    let start = log.record(slot);
    let made = |refusal: u32, at: usize, bytes: List| LogEdge {
        refusal,
        record: if refusal == 0 { 0 } else { slot + 1 },
        edits: vec![Edit::Elements("log", at, bytes)],
    };
    let hold = |refusal, hold| made(refusal, start, four(hold));
    let entry = |refusal, output, cell| {
        let at = start + 4 + 6 * input as usize;
        made(refusal, at, [two(output), four(cell)].concat())
    };
    arrival_edges(n, hold, entry)
}

/// Checks a log and reads these slots of it.
fn check_and_read(run: &mut Run, what: &str, log: &[u32], slots: impl Iterator<Item = u32>) {
    let call = check_call(&mut run.random, log);
    run.compare(what, &call);
    for slot in slots {
        let call = read_call(&mut run.random, log, slot);
        run.compare(what, &call);
    }
}

/// Good logs that were damaged: each byte changed, cut at both ends, and extended. Of each all slots
/// are read.
pub fn damaged_logs(run: &mut Run) {
    for _ in 0..DAMAGED {
        let card = sizes::card(&mut run.random, 65_536);
        let count = run.random.between(0, 4);
        let banner = run.random.choose(&[0, 0, 5, 30]);
        let log = random_log(&mut run.random, card, count, banner);
        for place in 0..log.bytes.len() {
            let mut bytes = log.bytes.clone();
            bytes[place] = other_byte(&mut run.random, bytes[place]);
            let what = format!("a log with byte {place} changed");
            check_and_read(run, &what, &bytes, 0..count + 2);
        }
        cut_logs(run, &log);
        stretched_logs(run, &log);
    }
}

/// A byte that is different: one bit of it turned, or any other.
fn other_byte(random: &mut Random, byte: u32) -> u32 {
    let (bit, any) = (1 << random.below(8), random.between(1, 255));
    byte ^ random.choose(&[bit, any])
}

fn cut_logs(run: &mut Run, log: &Log) {
    let length = log.bytes.len();
    for _ in 0..CUTS {
        let cut = run.random.below(length as u32 + 1) as usize;
        let slots = 0..log.count() + 1;
        check_and_read(run, "a log cut short", &log.bytes[..cut], slots.clone());
        check_and_read(run, "a log cut in front", &log.bytes[cut..], slots.clone());
        let (head, tail) = (&log.bytes[..cut], &log.bytes[(cut + 1).min(length)..]);
        check_and_read(
            run,
            "a log with a byte missing",
            &[head, tail].concat(),
            slots,
        );
    }
}

/// Bytes in front are a banner; bytes behind move the trailer away, also where they end in the mark.
fn stretched_logs(run: &mut Run, log: &Log) {
    for _ in 0..CUTS {
        let more = run.random.between(1, 40) as usize;
        let more = leftovers(&mut run.random, Function::LogCheck, "log", more);
        let slots = 0..log.count() + 1;
        let banner = [&more, &log.bytes[..]].concat();
        check_and_read(run, "a log behind a banner", &banner, slots.clone());
        let behind = [&log.bytes[..], &more, &[0x4C, 0x50]].concat();
        check_and_read(run, "a log with bytes behind", &behind, slots.clone());
        let twice = [&log.bytes[..], &more, &log.bytes].concat();
        check_and_read(run, "a log behind another", &twice, slots);
    }
}

/// Logs of 32,016 bytes and of one more, by a banner or by their slots, and the sample logs.
pub fn long_logs(run: &mut Run) {
    for m in [1, 32, sizes::ports(&mut run.random)] {
        let n = sizes::ports(&mut run.random);
        let count = run.random.choose(&[0, 1, most_slots(m)]);
        let log = random_log(&mut run.random, [m, n, 1], count, 0);
        let room = MOST_BYTES - log.bytes.len();
        for banner in [0, room, room + 1] {
            let bytes = [vec![0x50; banner], log.bytes.clone()].concat();
            let slots = [0, count / 2, count.wrapping_sub(1), count, u32::MAX];
            check_and_read(run, "a long log", &bytes, slots.into_iter());
        }
    }
    for sample in samples::all() {
        let bytes: List = sample.log.iter().map(|byte| u32::from(*byte)).collect();
        check_and_read(
            run,
            sample.name,
            &bytes,
            [0, 1, 2, 3_199, 3_200].into_iter(),
        );
    }
}
