//! The table match, the weighted match and the rank form.
//!
//! The match is an exact assignment in which the tie order stands inside the weight. The pair
//! (input i, output j) is worth one wide number: the pair's weight × 2^192, plus a digit of 32 − j
//! in input i's own six bits, bits 6 × (31 − i) on. A pair without a request, and a port beyond the
//! card, is worth 0.
//!
//! Why the greatest total is the answer:
//! - A digit is 1 to 32 and fits in six bits (0 to 63). An input is in at most one pair, so each
//!   six bits hold one digit or 0: nothing is carried from one input's bits to the next, and as all
//!   32 digits end below bit 192, nothing is carried into the weight. Thus a heavier match always
//!   has the greater total.
//! - Among equal weights the digits decide, input 0 in the highest place, input 1 next and so on. A
//!   lower output has the larger digit and none has 0: the greatest digits are the first match in
//!   dictionary order.
//! - Two different matches differ in a digit, so only one match has the greatest total.
//! - Any match can be filled up to a full assignment, and every worth is 0 or more, so the greatest
//!   assignment is worth what the greatest match is worth, and its pairs with a request are that
//!   match.
//!
//! Why 256 bits are enough: a pair weighs at most 2 × 2,097,120 < 2^22, so its worth is below
//! 2^214. An output's price starts at 0 and grows in each of at most 32 placements by less than
//! 2^214 (placing an input never lowers the total), so it stays below 2^219; an input's price is
//! below 2^214 and above −2^219. Gaps then stay below 2^220 and sums of all prices below 2^225.
//! `Wide` stops the program should a number ever leave its 256 bits.

use crate::assignment::{greatest, is_greatest};
use crate::card::{names, ports_fit, stays_below, NONE, PORTS, WEIGHT};
use crate::wide::Wide;
use std::collections::BTreeSet;

const DIGIT_BITS: usize = 6;
const WEIGHT_BIT: usize = DIGIT_BITS * PORTS;

/// Request rows with the weights (or ranks) of the inputs and of the outputs.
#[derive(Clone, Debug, PartialEq)]
pub struct Requests {
    pub rows: [u32; PORTS],
    pub inputs: [u32; PORTS],
    pub outputs: [u32; PORTS],
}

/// The answer of a match; refusal 0 is an accepted call.
#[derive(Clone, Debug, PartialEq)]
pub struct Match {
    pub refusal: u32,
    pub partners: [u16; PORTS],
    pub size: u32,
    pub weight: u32,
}

/// The answer of the rank form.
#[derive(Clone, Debug, PartialEq)]
pub struct RankForm {
    pub refusal: u32,
    pub ranks: Requests,
}

impl Requests {
    pub fn zeros() -> Requests {
        Requests {
            rows: [0; PORTS],
            inputs: [0; PORTS],
            outputs: [0; PORTS],
        }
    }

    fn input_requests(&self, input: usize) -> bool {
        self.rows[input] != 0
    }

    fn output_requests(&self, output: usize) -> bool {
        self.rows.iter().any(|row| names(*row, output))
    }

    pub fn pair_weight(&self, input: usize, output: usize) -> u32 {
        self.inputs[input] + self.outputs[output]
    }
}

impl Match {
    /// No pair, with this refusal.
    pub fn empty(refusal: u32) -> Match {
        Match {
            refusal,
            partners: [NONE; PORTS],
            size: 0,
            weight: 0,
        }
    }
}

/// The match of a table of counts (row i from place i × N on) under a hold.
pub fn table_match(m: u32, n: u32, counts: &[u16], hold: u32) -> Match {
    match table_refusal(m, n, counts, hold) {
        0 => heaviest(m, n, &table_requests(m, n, counts, hold)),
        refusal => Match::empty(refusal),
    }
}

/// The match of requests and port weights.
pub fn weighted_match(m: u32, n: u32, requests: &Requests) -> Match {
    match requests_refusal(m, n, requests) {
        0 => heaviest(m, n, requests),
        refusal => Match::empty(refusal),
    }
}

/// The same rows with each weight replaced by its rank.
pub fn rank_form(m: u32, n: u32, requests: &Requests) -> RankForm {
    match requests_refusal(m, n, requests) {
        0 => RankForm {
            refusal: 0,
            ranks: ranks_of(requests),
        },
        refusal => RankForm {
            refusal,
            ranks: Requests::zeros(),
        },
    }
}

fn table_refusal(m: u32, n: u32, counts: &[u16], hold: u32) -> u32 {
    if !ports_fit(m, n) {
        1
    } else if counts.len() != (m * n) as usize {
        2
    } else if !stays_below(hold, n) {
        3
    } else {
        0
    }
}

fn requests_refusal(m: u32, n: u32, requests: &Requests) -> u32 {
    if !ports_fit(m, n) {
        1
    } else if !rows_fit(m, n, &requests.rows) {
        5
    } else if !weights_fit(requests) {
        6
    } else {
        0
    }
}

fn rows_fit(m: u32, n: u32, rows: &[u32; PORTS]) -> bool {
    let (inside, outside) = rows.split_at(m as usize);
    inside.iter().all(|row| stays_below(*row, n)) && outside.iter().all(|row| *row == 0)
}

fn weights_fit(requests: &Requests) -> bool {
    let fits = |weight: u32| (1..=WEIGHT).contains(&weight);
    (0..PORTS).all(|port| {
        (!requests.input_requests(port) || fits(requests.inputs[port]))
            && (!requests.output_requests(port) || fits(requests.outputs[port]))
    })
}

/// The requests of a table under a hold, with R(i) and C(j) as weights; held outputs are in both
/// totals.
pub fn table_requests(m: u32, n: u32, counts: &[u16], hold: u32) -> Requests {
    let mut requests = Requests::zeros();
    for input in 0..m as usize {
        for output in 0..n as usize {
            let count = u32::from(counts[input * n as usize + output]);
            requests.inputs[input] += count;
            requests.outputs[output] += count;
            if count > 0 && !names(hold, output) {
                requests.rows[input] |= 1 << output;
            }
        }
    }
    requests
}

/// The heaviest match, the first in dictionary order among those; the prices that prove it are read
/// each time.
fn heaviest(m: u32, n: u32, requests: &Requests) -> Match {
    let size = m.max(n) as usize;
    let worth: Vec<Vec<Wide>> = (0..size)
        .map(|input| worth_row(size, requests, input))
        .collect();
    let found = greatest(&worth);
    assert!(
        is_greatest(&worth, &found),
        "the prices do not prove the match"
    );
    chosen_requests(requests, &found.output_of)
}

fn worth_row(size: usize, requests: &Requests, input: usize) -> Vec<Wide> {
    let pair = |output: usize| {
        if names(requests.rows[input], output) {
            pair_worth(input, output, requests.pair_weight(input, output))
        } else {
            Wide::ZERO
        }
    };
    (0..size).map(pair).collect()
}

/// The pair's weight above, and below it the digit of its input.
fn pair_worth(input: usize, output: usize, weight: u32) -> Wide {
    let digit = (PORTS - output) as u32;
    let place = DIGIT_BITS * (PORTS - 1 - input);
    Wide::at_bit(weight, WEIGHT_BIT) + Wide::at_bit(digit, place)
}

/// The pairs of an assignment, given by the output of each input, that are requests.
pub fn chosen_requests(requests: &Requests, output_of: &[usize]) -> Match {
    let mut answer = Match::empty(0);
    for (input, output) in output_of.iter().enumerate() {
        if names(requests.rows[input], *output) {
            answer.partners[input] = *output as u16;
            answer.size += 1;
            answer.weight += requests.pair_weight(input, *output);
        }
    }
    answer
}

fn ranks_of(requests: &Requests) -> Requests {
    let inputs = |port: usize| requests.input_requests(port);
    let outputs = |port: usize| requests.output_requests(port);
    Requests {
        rows: requests.rows,
        inputs: ranks(&requests.inputs, &inputs),
        outputs: ranks(&requests.outputs, &outputs),
    }
}

/// 1 plus the number of distinct smaller weights among the requesting ports; 0 for a port without a
/// request.
fn ranks(weights: &[u32; PORTS], requesting: &dyn Fn(usize) -> bool) -> [u32; PORTS] {
    let ports = (0..PORTS).filter(|port| requesting(*port));
    let distinct: BTreeSet<u32> = ports.map(|port| weights[port]).collect();
    let mut ranks = [0; PORTS];
    for (port, rank) in ranks.iter_mut().enumerate() {
        if requesting(port) {
            *rank = 1 + distinct.range(..weights[port]).count() as u32;
        }
    }
    ranks
}
