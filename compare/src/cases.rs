//! Problems for the match and the rank form, with the answers that document 01 gives or that were
//! worked by hand: the bench table, the limits from both sides, the shortcuts, and random problems
//! (from a fixed seed) without a stated answer. The selftest compares the stated answers, and the
//! vectors are written from all problems.

use crate::card::{NONE, PORTS};
use crate::matching::{rank_form, Requests};
use crate::random::Random;

/// One call.
#[derive(Clone, Debug)]
pub enum Problem {
    Table {
        m: u32,
        n: u32,
        hold: u32,
        counts: Vec<u16>,
    },
    Weighted {
        m: u32,
        n: u32,
        requests: Requests,
    },
    Rank {
        m: u32,
        n: u32,
        requests: Requests,
    },
}

/// What is known beforehand of the answer.
#[derive(Clone, Debug)]
pub enum Want {
    Anything,
    Refusal(u32),
    Match { partners: Vec<u16>, weight: u32 },
    Ranks { inputs: Vec<u32>, outputs: Vec<u32> },
}

#[derive(Clone, Debug)]
pub struct Case {
    pub problem: Problem,
    pub want: Want,
}

/// All cases, in the order of the vectors.
pub fn all() -> Vec<Case> {
    [bench(), limits(), shortcuts(), random()].concat()
}

fn case(problem: Problem, want: Want) -> Case {
    Case { problem, want }
}

/// A table given by its rows.
fn table(rows: &[&[u16]], hold: u32) -> Problem {
    Problem::Table {
        m: rows.len() as u32,
        n: rows[0].len() as u32,
        hold,
        counts: rows.concat(),
    }
}

/// A table of so many equal counts, whatever M and N say.
fn even_table(m: u32, n: u32, hold: u32, places: usize, count: u16) -> Problem {
    Problem::Table {
        m,
        n,
        hold,
        counts: vec![count; places],
    }
}

/// A row of a full card: the given numbers, then zeros.
fn filled(numbers: &[u32]) -> [u32; PORTS] {
    let mut all = [0; PORTS];
    all[..numbers.len()].copy_from_slice(numbers);
    all
}

fn requests(rows: &[u32], inputs: &[u32], outputs: &[u32]) -> Requests {
    Requests {
        rows: filled(rows),
        inputs: filled(inputs),
        outputs: filled(outputs),
    }
}

fn found(partners: &[u16], weight: u32) -> Want {
    Want::Match {
        partners: partners.to_vec(),
        weight,
    }
}

/// The same requests as a weighted match and as a rank form, with the same refusal (0 for none).
fn both(m: u32, n: u32, requests: &Requests, refusal: u32) -> Vec<Case> {
    each(
        m,
        n,
        requests,
        Want::Refusal(refusal),
        Want::Refusal(refusal),
    )
}

/// The same requests as a weighted match and as a rank form, with what each must answer.
fn each(m: u32, n: u32, requests: &Requests, matched: Want, ranked: Want) -> Vec<Case> {
    let weighted = Problem::Weighted {
        m,
        n,
        requests: requests.clone(),
    };
    let rank = Problem::Rank {
        m,
        n,
        requests: requests.clone(),
    };
    vec![case(weighted, matched), case(rank, ranked)]
}

/// Every line of the bench table that is about a match.
pub fn bench() -> Vec<Case> {
    [bench_tables(), bench_weights()].concat()
}

fn bench_tables() -> Vec<Case> {
    vec![
        case(table(&[&[0]], 0), found(&[NONE], 0)),
        case(table(&[&[1]], 0), found(&[0], 2)),
        case(table(&[&[3, 1], &[2, 0]], 0), found(&[1, 0], 12)),
        case(table(&[&[1, 1], &[1, 1]], 0), found(&[0, 1], 8)),
        case(table(&[&[1], &[1]], 0), found(&[0, NONE], 3)),
        case(table(&[&[1], &[2]], 0), found(&[NONE, 0], 5)),
        case(table(&[&[5, 1], &[1, 0]], 0), found(&[1, 0], 14)),
        case(
            table(&[&[4, 0, 0], &[3, 2, 0], &[0, 1, 0]], 0),
            found(&[0, 1, NONE], 19),
        ),
        case(table(&[&[1, 1], &[1, 1]], 1), found(&[1, NONE], 4)),
        case(table(&[&[5, 1], &[0, 2]], 1), found(&[1, NONE], 9)),
    ]
}

fn bench_weights() -> Vec<Case> {
    let given = requests(&[0b11, 0b01], &[9, 2], &[5, 1]);
    let ranked = requests(&[0b11, 0b01], &[2, 1], &[2, 1]);
    let ranks = Want::Ranks {
        inputs: vec![2, 1],
        outputs: vec![2, 1],
    };
    let weighted = |requests: &Requests| Problem::Weighted {
        m: 2,
        n: 2,
        requests: requests.clone(),
    };
    vec![
        case(weighted(&given), found(&[1, 0], 17)),
        case(
            Problem::Rank {
                m: 2,
                n: 2,
                requests: given.clone(),
            },
            ranks,
        ),
        case(weighted(&ranked), found(&[1, 0], 6)),
    ]
}

/// Every limit from both sides, and pairs of faults for the order of refusals.
pub fn limits() -> Vec<Case> {
    [
        table_ports(),
        table_lengths(),
        table_holds(),
        table_counts(),
        table_fault_pairs(),
        weighted_ports(),
        weighted_rows(),
        port_weights(),
        ignored_weights(),
        greatest_weights(),
        weighted_fault_pairs(),
    ]
    .concat()
}

/// M and N at their limits. The lists have the length that a number cut to 16 or 8 bits would ask
/// for.
fn table_ports() -> Vec<Case> {
    let numbers = [
        (0, 0, 1),
        (1, 1, 0),
        (32, 32, 0),
        (33, 33, 1),
        (257, 1, 1),
        (65_537, 1, 1),
    ];
    let mut cases = Vec::new();
    for (ports, places, refusal) in numbers {
        cases.push(case(
            even_table(ports, 1, 0, places, 1),
            Want::Refusal(refusal),
        ));
        cases.push(case(
            even_table(1, ports, 0, places, 1),
            Want::Refusal(refusal),
        ));
    }
    cases.push(case(even_table(65_536, 65_536, 0, 0, 1), Want::Refusal(1)));
    cases
}

fn table_lengths() -> Vec<Case> {
    let lengths = [(5, 2), (6, 0), (7, 2), (0, 2)];
    let made = |(places, refusal)| case(even_table(2, 3, 0, places, 1), Want::Refusal(refusal));
    lengths.map(made).to_vec()
}

fn table_holds() -> Vec<Case> {
    let row = |n: u32, hold: u32| even_table(1, n, hold, n as usize, 1);
    vec![
        case(row(1, 1 << 0), found(&[NONE], 0)),
        case(row(1, 1 << 1), Want::Refusal(3)),
        case(row(3, 1 << 2), found(&[0], 4)),
        case(row(3, 1 << 3), Want::Refusal(3)),
        case(row(3, 1 << 31), Want::Refusal(3)),
        case(row(31, 1 << 30), found(&[0], 32)),
        case(row(31, 1 << 31), Want::Refusal(3)),
        case(row(32, 1 << 31), found(&[0], 33)),
        case(row(32, u32::MAX >> 1), found(&[31], 33)),
        case(row(32, u32::MAX), found(&[NONE], 0)),
    ]
}

/// The greatest counts: one alone, and a full table, whose match has the greatest weight of all.
fn table_counts() -> Vec<Case> {
    let straight: Vec<u16> = (0..32).collect();
    vec![
        case(table(&[&[65_535]], 0), found(&[0], 131_070)),
        case(
            even_table(32, 32, 0, 1_024, 65_535),
            found(&straight, 134_215_680),
        ),
    ]
}

fn table_fault_pairs() -> Vec<Case> {
    vec![
        case(even_table(33, 1, 0, 1, 1), Want::Refusal(1)),
        case(even_table(1, 0, 0, 1, 1), Want::Refusal(1)),
        case(even_table(33, 2, 1 << 2, 66, 1), Want::Refusal(1)),
        case(even_table(2, 0, 1, 0, 1), Want::Refusal(1)),
        case(even_table(0, 2, 1 << 2, 1, 1), Want::Refusal(1)),
        case(even_table(2, 2, 1 << 2, 3, 1), Want::Refusal(2)),
        case(even_table(2, 2, 1 << 2, 5, 1), Want::Refusal(2)),
        case(even_table(2, 2, 1 << 2, 4, 1), Want::Refusal(3)),
    ]
}

fn weighted_ports() -> Vec<Case> {
    let one = requests(&[1], &[1], &[1]);
    let numbers = [(0, 1), (1, 0), (32, 0), (33, 1), (65_537, 1)];
    let made =
        |(ports, refusal)| [both(ports, 1, &one, refusal), both(1, ports, &one, refusal)].concat();
    numbers.map(made).concat()
}

/// Rows with their highest bit at N − 1 and at N, and a last row at M − 1 and at M.
fn weighted_rows() -> Vec<Case> {
    let even = |rows: &[u32]| requests(rows, &[3; PORTS], &[5; PORTS]);
    let mut last = [0; PORTS];
    last[PORTS - 1] = 1 << 31;
    [
        both(2, 3, &even(&[0b001, 0b100]), 0),
        both(2, 3, &even(&[0b001, 0b1000]), 5),
        both(2, 3, &even(&[0b001, 0b100, 0b001]), 5),
        both(32, 32, &even(&last), 0),
        both(32, 31, &even(&last), 5),
        both(31, 32, &even(&last), 5),
    ]
    .concat()
}

/// Weights at their limits on a requesting input, then on a requesting output.
fn port_weights() -> Vec<Case> {
    let weights = [(0, 6), (1, 0), (2_097_120, 0), (2_097_121, 6)];
    let rows = [0b11, 0b01];
    let made = |(weight, refusal)| {
        let input = requests(&rows, &[7, weight], &[5, 1]);
        let output = requests(&rows, &[7, 2], &[5, weight]);
        [both(2, 2, &input, refusal), both(2, 2, &output, refusal)].concat()
    };
    weights.map(made).concat()
}

/// Weights of ports without a request, inside and outside the card, count for nothing, in the ranks
/// too.
fn ignored_weights() -> Vec<Case> {
    let made = |weight: u32| {
        let mut given = requests(&[0b101, 0, 0b100], &[9, weight, 4], &[6, weight, 8]);
        given.inputs[3..].fill(weight);
        given.outputs[3..].fill(weight);
        let ranks = Want::Ranks {
            inputs: vec![2, 0, 1],
            outputs: vec![1, 0, 2],
        };
        each(3, 3, &given, found(&[0, NONE, 2], 27), ranks)
    };
    [0, 5, u32::MAX].map(made).concat()
}

fn greatest_weights() -> Vec<Case> {
    let all = Requests {
        rows: [u32::MAX; PORTS],
        inputs: [2_097_120; PORTS],
        outputs: [2_097_120; PORTS],
    };
    let straight: Vec<u16> = (0..32).collect();
    let ranks = Want::Ranks {
        inputs: vec![1; PORTS],
        outputs: vec![1; PORTS],
    };
    each(32, 32, &all, found(&straight, 134_215_680), ranks)
}

fn weighted_fault_pairs() -> Vec<Case> {
    [
        both(33, 2, &requests(&[0b100], &[1], &[1, 1, 1]), 1),
        both(2, 0, &requests(&[0b1], &[1], &[0]), 1),
        both(2, 33, &requests(&[0b1], &[0], &[2_097_121]), 1),
        both(2, 2, &requests(&[0b101], &[0], &[1, 1, 1]), 5),
        both(2, 2, &requests(&[0b1, 0, 0b1], &[1, 1, 0], &[1]), 5),
        both(
            2,
            2,
            &requests(&[0b10, 0, 0b10], &[1, 1, 1], &[0, 2_097_121]),
            5,
        ),
    ]
    .concat()
}

/// The shortcuts that show in a match: weighing by queue length, stopping without exchanging
/// partners, and ties settled by the order of the search.
pub fn shortcuts() -> Vec<Case> {
    [queue_length(), exchanges(), ties()].concat()
}

fn queue_length() -> Vec<Case> {
    vec![
        case(table(&[&[5, 1], &[1, 0]], 0), found(&[1, 0], 14)),
        case(
            table(&[&[9, 0, 1], &[7, 0, 0], &[0, 0, 0]], 0),
            found(&[2, 0, NONE], 34),
        ),
    ]
}

fn exchanges() -> Vec<Case> {
    let chain: [&[u16]; 4] = [&[1, 1, 0, 0], &[0, 1, 1, 0], &[0, 0, 1, 1], &[1, 0, 0, 0]];
    vec![
        case(table(&[&[3, 1], &[2, 0]], 0), found(&[1, 0], 12)),
        case(table(&chain, 0), found(&[1, 2, 3, 0], 14)),
    ]
}

/// Exchanges around a cycle, of an output for a free one of equal total, and of an input for an
/// idle one.
fn ties() -> Vec<Case> {
    vec![
        case(
            table(&[&[1, 1, 1], &[1, 1, 1], &[1, 1, 1]], 0),
            found(&[0, 1, 2], 18),
        ),
        case(table(&[&[1, 1, 1]], 0), found(&[0], 4)),
        case(table(&[&[1, 1, 1], &[1, 1, 1]], 0), found(&[0, 1], 10)),
        case(table(&[&[1, 1, 1], &[1, 1, 1]], 1), found(&[1, 2], 10)),
        case(table(&[&[2], &[2], &[2]], 0), found(&[0, NONE, NONE], 8)),
        case(
            table(&[&[1, 1], &[1, 1], &[1, 1]], 0),
            found(&[0, 1, NONE], 10),
        ),
        case(
            table(&[&[0, 2], &[2, 2], &[2, 0]], 0),
            found(&[1, 0, NONE], 14),
        ),
    ]
}

/// Random tables and random requests, always the same ones.
pub fn random() -> Vec<Case> {
    let mut random = Random::seeded(1);
    [random_tables(&mut random), random_requests(&mut random)].concat()
}

/// M, N, fill in percent, greatest count, held outputs in percent.
const TABLES: [(u32, u32, u32, u32, u32); 22] = [
    (2, 3, 50, 3, 0),
    (3, 2, 100, 3, 0),
    (3, 3, 10, 64, 30),
    (4, 4, 50, 3, 30),
    (4, 4, 100, 64, 0),
    (5, 3, 100, 3, 30),
    (4, 7, 50, 64, 0),
    (6, 6, 10, 3, 0),
    (7, 5, 50, 3, 20),
    (8, 8, 100, 3, 20),
    (9, 12, 10, 3, 10),
    (12, 9, 50, 64, 20),
    (10, 10, 50, 3, 0),
    (16, 16, 10, 3, 20),
    (16, 8, 50, 3, 0),
    (8, 16, 100, 3, 50),
    (1, 32, 50, 3, 50),
    (32, 1, 100, 3, 0),
    (24, 20, 10, 64, 10),
    (32, 32, 10, 3, 10),
    (32, 32, 50, 64, 20),
    (32, 32, 100, 3, 5),
];

fn random_tables(random: &mut Random) -> Vec<Case> {
    let made = |(m, n, fill, most, held)| {
        let hold = random.mask(n, held);
        let counts = random.table(m * n, fill, most);
        case(Problem::Table { m, n, hold, counts }, Want::Anything)
    };
    TABLES.map(made).to_vec()
}

/// M, N, fill in percent, and the weights to choose from.
const REQUESTS: [(u32, u32, u32, &[u32]); 10] = [
    (3, 3, 50, &[1, 2]),
    (4, 4, 100, &[7, 7, 2_097_120]),
    (5, 8, 50, &[1, 2, 3]),
    (8, 5, 50, &[1, 2, 3]),
    (8, 8, 30, &[40, 1_000, 2_097_120]),
    (12, 12, 20, &[1]),
    (16, 16, 10, &[1, 2]),
    (20, 32, 10, &[5, 6]),
    (32, 20, 10, &[5, 6, 7]),
    (32, 32, 10, &[1, 2_097_119, 2_097_120]),
];

/// Each as a weighted match, as a rank form, and the match of the ranks.
fn random_requests(random: &mut Random) -> Vec<Case> {
    let made = |(m, n, fill, weights): (u32, u32, u32, &[u32])| {
        let given = requests_of(random, m, n, fill, weights);
        let requests = rank_form(m, n, &given).ranks;
        let ranked = Problem::Weighted { m, n, requests };
        [both(m, n, &given, 0), vec![case(ranked, Want::Refusal(0))]].concat()
    };
    REQUESTS.map(made).concat()
}

/// Random requests; every port of the full card has one of the weights.
pub fn requests_of(random: &mut Random, m: u32, n: u32, fill: u32, weights: &[u32]) -> Requests {
    let mut requests = Requests::zeros();
    for row in requests.rows.iter_mut().take(m as usize) {
        *row = random.mask(n, fill);
    }
    for port in 0..PORTS {
        requests.inputs[port] = random.choose(weights);
        requests.outputs[port] = random.choose(weights);
    }
    requests
}
