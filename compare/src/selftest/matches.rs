//! Checks of the wide numbers, of the stated answers of matches and ranks, and of large cards.

use super::Group;
use crate::card::{names, NONE, PORTS};
use crate::cases::{self, Case, Problem, Want};
use crate::matching::{rank_form, table_match, weighted_match, Match, RankForm, Requests};
use crate::random::Random;
use crate::vectors;
use crate::wide::Wide;

/// Sums, differences and order, beside the same ones in the 128 bits that the language has, at
/// several bits.
pub fn wide_numbers(group: &mut Group) {
    let mut random = Random::seeded(4);
    for _ in 0..10_000 {
        let bit = random.choose(&[0, 6, 33, 60, 64, 127, 186, 190]);
        let numbers = [
            random.next() as u32,
            random.next() as u32,
            random.next() as u32,
        ];
        let [a, b, c] = numbers.map(i128::from);
        let [wide_a, wide_b, wide_c] = numbers.map(|number| Wide::at_bit(number, bit));
        let (found, wanted) = (wide_a + wide_b - wide_c, a + b - c);
        group.equal(
            "order of sums",
            (wide_a + wide_b).cmp(&wide_c),
            (a + b).cmp(&c),
        );
        group.equal(
            "order of differences",
            (wide_a - wide_b).cmp(&(wide_b - wide_c)),
            (a - b).cmp(&(b - c)),
        );
        group.equal("sign", found.is_negative(), wanted < 0);
        let size = Wide::at_bit(wanted.unsigned_abs() as u32, bit) + high_part(wanted, bit);
        let back = if wanted < 0 { Wide::ZERO - size } else { size };
        group.equal("sum and difference", found, back);
    }
}

/// What of the number lies above its low 32 bits, set at the bit.
fn high_part(number: i128, bit: usize) -> Wide {
    Wide::at_bit((number.unsigned_abs() >> 32) as u32, bit + 32)
}

/// Compares a case with its stated answer.
fn stated(group: &mut Group, case: &Case) {
    let what = format!("{:?}", case.problem);
    match &case.problem {
        Problem::Table { m, n, hold, counts } => stated_match(
            group,
            &what,
            &table_match(*m, *n, counts, *hold),
            &case.want,
        ),
        Problem::Weighted { m, n, requests } => {
            stated_match(group, &what, &weighted_match(*m, *n, requests), &case.want)
        }
        Problem::Rank { m, n, requests } => stated_ranks(
            group,
            &what,
            &rank_form(*m, *n, requests),
            requests,
            &case.want,
        ),
    }
}

fn stated_match(group: &mut Group, what: &str, found: &Match, want: &Want) {
    match want {
        Want::Refusal(0) => group.equal(what, found.refusal, 0),
        Want::Refusal(refusal) => group.equal(what, found, &Match::empty(*refusal)),
        Want::Match { partners, weight } => {
            group.equal(what, found, &full_match(partners, *weight))
        }
        _ => group.holds("a match has a match stated", false),
    }
}

fn full_match(partners: &[u16], weight: u32) -> Match {
    let mut wanted = Match::empty(0);
    wanted.partners[..partners.len()].copy_from_slice(partners);
    wanted.size = partners.iter().filter(|partner| **partner != NONE).count() as u32;
    wanted.weight = weight;
    wanted
}

fn stated_ranks(group: &mut Group, what: &str, found: &RankForm, given: &Requests, want: &Want) {
    match want {
        Want::Refusal(0) => group.equal(what, found, &counted_ranks(given)),
        Want::Refusal(refusal) => group.equal(
            what,
            found,
            &RankForm {
                refusal: *refusal,
                ranks: Requests::zeros(),
            },
        ),
        Want::Ranks { inputs, outputs } => {
            group.equal(what, found, &full_ranks(given, inputs, outputs))
        }
        _ => group.holds("a rank form has ranks stated", false),
    }
}

fn full_ranks(given: &Requests, inputs: &[u32], outputs: &[u32]) -> RankForm {
    let mut ranks = Requests::zeros();
    ranks.rows = given.rows;
    ranks.inputs[..inputs.len()].copy_from_slice(inputs);
    ranks.outputs[..outputs.len()].copy_from_slice(outputs);
    RankForm { refusal: 0, ranks }
}

/// The rank form once more, counting the first port of each distinct smaller weight.
fn counted_ranks(given: &Requests) -> RankForm {
    let columns: u32 = given.rows.iter().fold(0, |all, row| all | row);
    let lines = (0..PORTS).fold(0, |all, input| {
        all | u32::from(given.rows[input] != 0) << input
    });
    let ranks = Requests {
        rows: given.rows,
        inputs: counted(&given.inputs, lines),
        outputs: counted(&given.outputs, columns),
    };
    RankForm { refusal: 0, ranks }
}

fn counted(weights: &[u32; PORTS], requesting: u32) -> [u32; PORTS] {
    let first_of_its_weight = |port: usize| {
        let same = |other: usize| names(requesting, other) && weights[other] == weights[port];
        (0..PORTS).find(|other| same(*other)) == Some(port)
    };
    let rank = |port: usize| {
        let smaller = (0..PORTS).filter(|other| weights[*other] < weights[port]);
        1 + smaller.filter(|other| first_of_its_weight(*other)).count() as u32
    };
    std::array::from_fn(|port| {
        if names(requesting, port) {
            rank(port)
        } else {
            0
        }
    })
}

pub fn bench_table(group: &mut Group) {
    cases::bench().iter().for_each(|case| stated(group, case));
}

pub fn limits(group: &mut Group) {
    cases::limits().iter().for_each(|case| stated(group, case));
}

pub fn shortcuts(group: &mut Group) {
    cases::shortcuts()
        .iter()
        .for_each(|case| stated(group, case));
}

/// Large cards: the matching itself reads the prices that prove each answer; beside that the pairs
/// are requests and add up, the ranks have the same partners, and the card turned on its side has
/// the same weight and size.
pub fn large_cards(group: &mut Group) {
    let mut random = Random::seeded(5);
    for _ in 0..300 {
        let (m, n) = (random.between(6, 32), random.between(6, 32));
        let fill = random.choose(&[5, 10, 30, 60, 100]);
        let weights = random.choose(&[&[1][..], &[1, 2], &[3, 4, 9, 2_097_120]]);
        let requests = cases::requests_of(&mut random, m, n, fill, weights);
        one_large_card(group, m, n, &requests);
    }
}

fn one_large_card(group: &mut Group, m: u32, n: u32, requests: &Requests) {
    let found = weighted_match(m, n, requests);
    group.equal("refusal", found.refusal, 0);
    adds_up(group, requests, &found);
    let ranked = weighted_match(m, n, &rank_form(m, n, requests).ranks);
    group.equal("partners of the ranks", ranked.partners, found.partners);
    let turned = weighted_match(n, m, &on_its_side(requests));
    group.equal(
        "weight and size on its side",
        (turned.weight, turned.size),
        (found.weight, found.size),
    );
}

fn adds_up(group: &mut Group, requests: &Requests, found: &Match) {
    let (mut taken, mut size, mut weight) = (0u32, 0, 0);
    for (input, partner) in found
        .partners
        .iter()
        .enumerate()
        .filter(|(_, partner)| **partner != NONE)
    {
        let output = usize::from(*partner);
        group.holds("a pair is a request", names(requests.rows[input], output));
        group.holds("an output is taken once", !names(taken, output));
        taken |= 1 << output;
        size += 1;
        weight += requests.inputs[input] + requests.outputs[output];
    }
    group.equal(
        "size and weight add up",
        (found.size, found.weight),
        (size, weight),
    );
}

/// Inputs and outputs changed for each other.
fn on_its_side(requests: &Requests) -> Requests {
    let row = |output: usize| {
        let asked = |input: usize| u32::from(names(requests.rows[input], output)) << input;
        (0..PORTS).fold(0, |row, input| row | asked(input))
    };
    Requests {
        rows: std::array::from_fn(row),
        inputs: requests.outputs,
        outputs: requests.inputs,
    }
}

/// Ranks by a second count, and ranks of ranks are the ranks.
pub fn rank_forms(group: &mut Group) {
    let mut random = Random::seeded(6);
    for _ in 0..2_000 {
        let (m, n) = (random.between(1, 32), random.between(1, 32));
        let fill = random.choose(&[3, 10, 50]);
        let weights = [
            random.between(1, 9),
            random.between(1, 2_097_120),
            5,
            5,
            2_097_120,
        ];
        let requests = cases::requests_of(&mut random, m, n, fill, &weights);
        let found = rank_form(m, n, &requests);
        group.equal("ranks", &found, &counted_ranks(&requests));
        group.equal("ranks of ranks", &rank_form(m, n, &found.ranks), &found);
    }
}

/// The vectors have a line per case and whole numbers of 4 bytes, and are the same when made again.
pub fn vector_files(group: &mut Group) {
    let (bytes, lines) = (vectors::case_bytes(), vectors::case_lines());
    group.holds("at most 60,000 bytes", bytes.len() <= 60_000);
    group.equal("whole numbers of 4 bytes", bytes.len() % 4, 0);
    group.equal("a line per case", lines.lines().count(), cases::all().len());
    group.holds("the same bytes again", bytes == vectors::case_bytes());
    group.holds("the same lines again", lines == vectors::case_lines());
}
