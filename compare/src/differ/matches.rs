//! Cases for the table match, the weighted match and the rank form.

use super::call::{leftovers, Call, Function, List};
use super::edits::{edge, element, fixed_lengths, lengths, number, ports_refused, unchanged};
use super::edits::{Edge, Edit};
use super::{sizes, Run};
use crate::card::{names, PORTS, WEIGHT};
use crate::cases::{self, Problem};
use crate::matching::Requests;
use crate::random::Random;

const TABLES: u32 = 300;
const REQUESTS: u32 = 300;
const RANKS: u32 = 300;
const TIES: u32 = 2_000;

/// Counts to choose from: few distinct ones, so that many matches weigh the same, and the greatest.
const COUNTS: [&[u32]; 7] = [
    &[1],
    &[65_535],
    &[0, 1],
    &[0, 0, 0, 0, 1],
    &[0, 65_535],
    &[0, 1, 2, 3],
    &[0, 1, 65_534, 65_535],
];
/// Weights to choose from, likewise.
const WEIGHTS: [&[u32]; 7] = [
    &[1],
    &[WEIGHT],
    &[1, 2],
    &[1, WEIGHT],
    &[WEIGHT - 1, WEIGHT],
    &[1, 2, 3, 5, 8],
    &[7, 7, 7, 1_000_000],
];
/// Weights of ports without a request: they count for nothing.
const IGNORED: [u32; 4] = [0, 1, WEIGHT + 1, u32::MAX];

/// So many numbers, each one of these.
fn chosen(random: &mut Random, from: &[u32], length: u32) -> List {
    (0..length).map(|_| random.choose(from)).collect()
}

/// One of the problems that stand in `cases.rs`.
fn problem_call(random: &mut Random, problem: &Problem) -> Call {
    match problem {
        Problem::Table { m, n, hold, counts } => {
            let counts = counts.iter().map(|count| u32::from(*count)).collect();
            table_call(random, [*m, *n], counts, *hold)
        }
        Problem::Weighted { m, n, requests } => {
            requests_call(random, Function::MatchWeights, [*m, *n], requests)
        }
        Problem::Rank { m, n, requests } => {
            requests_call(random, Function::RankForm, [*m, *n], requests)
        }
    }
}

/// The bench table, the limits, the shortcuts and the random problems of `cases.rs`.
pub fn known_cases(run: &mut Run) {
    for case in cases::all() {
        let call = problem_call(&mut run.random, &case.problem);
        run.compare("one of the known cases", &call);
    }
}

fn table_call(random: &mut Random, [m, n]: [u32; 2], counts: List, hold: u32) -> Call {
    let function = Function::MatchTable;
    Call {
        function,
        numbers: vec![m, n, hold],
        lists: vec![
            counts,
            leftovers(random, function, "partners", PORTS),
            leftovers(random, function, "totals", 2),
        ],
    }
}

pub fn tables(run: &mut Run) {
    for card in sizes::grid() {
        for length in sizes::lengths(&card) {
            let call = table_call(&mut run.random, card, vec![1; length], 0);
            run.compare("sizes around the limits", &call);
        }
    }
    for card in bases(&mut run.random) {
        let call = random_table(&mut run.random, card);
        run.around(&call, &table_edges(&call));
    }
    for _ in 0..TABLES {
        let card = [sizes::ports(&mut run.random), sizes::ports(&mut run.random)];
        let call = random_table(&mut run.random, card);
        run.compare("a random table", &call);
    }
}

/// The smallest card, the largest, and a random one.
fn bases(random: &mut Random) -> [[u32; 2]; 3] {
    let other = [sizes::ports(random), sizes::ports(random)];
    [[1, 1], [32, 32], other]
}

fn random_table(random: &mut Random, [m, n]: [u32; 2]) -> Call {
    let counts = match random.below(3) {
        0 => {
            let from = random.choose(&COUNTS);
            chosen(random, from, m * n)
        }
        1 => {
            let fill = random.choose(&[2, 10, 50, 100]);
            let most = random.choose(&[1, 2, 64, 65_535]);
            let table = random.table(m * n, fill, most);
            table.into_iter().map(u32::from).collect()
        }
        _ => chain(random, [m, n]),
    };
    let held = random.choose(&[0, 0, 0, 10, 50, 100]);
    let hold = random.mask(n, held);
    table_call(random, [m, n], counts, hold)
}

/// Every input has the same count for a few outputs in a row, the next input one output further:
/// exchanges go all through the card, and nearly everything ties.
fn chain(random: &mut Random, [m, n]: [u32; 2]) -> List {
    let (width, start) = (random.between(1, 3), random.below(n));
    let count = random.choose(&[1, 5, 65_535]);
    let stands = |input: u32, output: u32| (output + start + n - input % n) % n < width;
    let row = |input: u32| (0..n).map(move |output| count * u32::from(stands(input, output)));
    (0..m).flat_map(row).collect()
}

fn table_edges(call: &Call) -> Vec<Edge> {
    let last = call.list("counts").len() - 1;
    let counts = [0, 1, 65_535].map(|count| element(0, "counts", last, count));
    [
        unchanged(0),
        ports_refused(),
        lengths(call, "counts"),
        holds_around(call.number("n")),
        counts.to_vec(),
        fixed_lengths(call),
    ]
    .concat()
}

/// Holds that name output N − 1 and all outputs, and holds that name output N and beyond.
pub fn holds_around(n: u32) -> Vec<Edge> {
    let all = u32::MAX >> (32 - n);
    let mut edges = vec![number(0, "hold", 1 << (n - 1)), number(0, "hold", all)];
    if n < 32 {
        let beyond = [1 << n, 1 << 31, u32::MAX, 1 << n | 1];
        edges.extend(beyond.map(|hold| number(3, "hold", hold)));
    }
    edges
}

fn requests_call(
    random: &mut Random,
    function: Function,
    [m, n]: [u32; 2],
    requests: &Requests,
) -> Call {
    let mut lists = vec![
        requests.rows.to_vec(),
        requests.inputs.to_vec(),
        requests.outputs.to_vec(),
    ];
    if function == Function::MatchWeights {
        lists.push(leftovers(random, function, "partners", PORTS));
        lists.push(leftovers(random, function, "totals", 2));
    }
    Call {
        function,
        numbers: vec![m, n],
        lists,
    }
}

pub fn weights(run: &mut Run) {
    requests(run, Function::MatchWeights, REQUESTS);
}

pub fn ranks(run: &mut Run) {
    requests(run, Function::RankForm, RANKS);
}

fn requests(run: &mut Run, function: Function, count: u32) {
    let mut one = Requests::zeros();
    (one.rows[0], one.inputs[0], one.outputs[0]) = (1, 1, 1);
    for card in sizes::grid() {
        let call = requests_call(&mut run.random, function, card, &one);
        run.compare("sizes around the limits", &call);
    }
    for card in bases(&mut run.random) {
        let (call, edges) = requests_with_edges(&mut run.random, function, card);
        run.around(&call, &edges);
    }
    for _ in 0..count {
        let card = [sizes::ports(&mut run.random), sizes::ports(&mut run.random)];
        let given = random_requests(&mut run.random, card);
        let call = requests_call(&mut run.random, function, card, &given);
        run.compare("random requests", &call);
    }
}

/// Small cards with few requests and hardly any distinct weights: what decides is the dictionary
/// order, among many matches of one weight.
pub fn ties(run: &mut Run) {
    for _ in 0..TIES {
        let random = &mut run.random;
        let card = [random.between(3, 10), random.between(3, 8)];
        let fill = random.choose(&[20, 30, 40, 60]);
        let weights = random.choose(&[&[1][..], &[5, 6], &[1, 2, 3]]);
        let given = cases::requests_of(random, card[0], card[1], fill, weights);
        let call = requests_call(random, Function::MatchWeights, card, &given);
        run.compare("ties of requests", &call);
        let random = &mut run.random;
        let table = random.table(card[0] * card[1], fill, 2);
        let counts = table.into_iter().map(u32::from).collect();
        let call = table_call(random, card, counts, 0);
        run.compare("ties of a table", &call);
    }
}

/// Random requests; the ports without one have any weight.
fn random_requests(random: &mut Random, [m, n]: [u32; 2]) -> Requests {
    let any: Vec<u32> = (0..PORTS).map(|_| random.between(1, WEIGHT)).collect();
    let weights = if random.percent(20) {
        &any[..]
    } else {
        random.choose(&WEIGHTS)
    };
    let fill = random.choose(&[0, 3, 10, 30, 60, 100]);
    let mut requests = cases::requests_of(random, m, n, fill, weights);
    let asked = requests.rows.iter().fold(0, |all, row| all | row);
    for port in 0..PORTS {
        if requests.rows[port] == 0 {
            requests.inputs[port] = random.choose(&IGNORED);
        }
        if !names(asked, port) {
            requests.outputs[port] = random.choose(&IGNORED);
        }
    }
    requests
}

/// Random requests with one at a pair of ports that is known, and the edges around them.
fn requests_with_edges(
    random: &mut Random,
    function: Function,
    [m, n]: [u32; 2],
) -> (Call, Vec<Edge>) {
    let mut given = random_requests(random, [m, n]);
    let (input, output) = (random.below(m) as usize, random.below(n) as usize);
    given.rows[input] |= 1 << output;
    (given.inputs[input], given.outputs[output]) = (3, 4);
    let edges = [
        unchanged(0),
        ports_refused(),
        rows_around([m, n], &given, input),
        weights_around("inputs", input),
        weights_around("outputs", output),
        ignored_weights(&given),
    ];
    let call = requests_call(random, function, [m, n], &given);
    let lengths = fixed_lengths(&call);
    (call, [edges.concat(), lengths].concat())
}

/// A row with bit N − 1, with bit N and beyond, and rows at M and beyond.
fn rows_around([m, n]: [u32; 2], given: &Requests, input: usize) -> Vec<Edge> {
    let row = given.rows[input];
    let last = n - 1;
    let taken = vec![
        Edit::Elements("rows", input, vec![row | 1 << last]),
        Edit::Elements("outputs", last as usize, vec![WEIGHT]),
    ];
    let mut edges = vec![edge(0, taken)];
    if n < 32 {
        edges.push(element(5, "rows", input, row | 1 << n));
        edges.push(element(5, "rows", input, row | 1 << 31));
    }
    if m < 32 {
        edges.push(element(5, "rows", m as usize, 1));
        edges.push(element(5, "rows", PORTS - 1, 1 << last));
    }
    edges
}

/// The weight of a port that requests.
fn weights_around(name: &'static str, port: usize) -> Vec<Edge> {
    let weights = [(0, 6), (1, 0), (WEIGHT, 0), (WEIGHT + 1, 6), (u32::MAX, 6)];
    let made = |(weight, answer)| element(answer, name, port, weight);
    weights.map(made).to_vec()
}

/// The weight of the first and of the last port without a request.
fn ignored_weights(given: &Requests) -> Vec<Edge> {
    let asked = given.rows.iter().fold(0, |all, row| all | row);
    let inputs: Vec<usize> = (0..PORTS).filter(|port| given.rows[*port] == 0).collect();
    let outputs: Vec<usize> = (0..PORTS).filter(|port| !names(asked, *port)).collect();
    let ends = |ports: &[usize]| [ports.first().copied(), ports.last().copied()];
    let ignored = |name, port| IGNORED.map(|weight| element(0, name, port, weight));
    let inputs = ends(&inputs)
        .into_iter()
        .flatten()
        .flat_map(|port| ignored("inputs", port));
    let outputs = ends(&outputs)
        .into_iter()
        .flatten()
        .flat_map(|port| ignored("outputs", port));
    inputs.chain(outputs).collect()
}
