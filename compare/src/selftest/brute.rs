//! Plain brute force: every match of a small card is made, weighed and compared by the words of
//! document 01. The random problems are small and have many ties.

use super::Group;
use crate::card::NONE;
use crate::cases::requests_of;
use crate::matching::{rank_form, table_match, weighted_match, Match, Requests};
use crate::random::Random;

const PROBLEMS: u32 = 100_000;
const MOST_PORTS: u32 = 5;
/// Few distinct weights, so that many matches weigh the same.
const WEIGHTS: [&[u32]; 4] = [&[1], &[1, 2], &[1, 2, 3, 5], &[1, 2_097_119, 2_097_120]];

/// The weight of every request (nothing where there is no request), the match being made, and the
/// best so far.
struct Search {
    weights: Vec<Vec<Option<u32>>>,
    partners: Vec<u16>,
    best: Vec<u16>,
    best_weight: u32,
}

/// The best match over all matches. `weights` has a row per input.
pub fn best_match(weights: Vec<Vec<Option<u32>>>) -> Match {
    let empty = vec![NONE; weights.len()];
    let mut search = Search {
        weights,
        partners: empty.clone(),
        best: empty,
        best_weight: 0,
    };
    search.visit(0, 0);
    search.answer()
}

impl Search {
    /// Tries everything for this input and those after it: none first, then the outputs from the
    /// last.
    fn visit(&mut self, input: usize, weight: u32) {
        if input == self.weights.len() {
            self.compare(weight);
            return;
        }
        self.visit(input + 1, weight);
        for output in (0..self.weights[input].len()).rev() {
            let free = !self.partners[..input].contains(&(output as u16));
            if let (true, Some(pair)) = (free, self.weights[input][output]) {
                self.partners[input] = output as u16;
                self.visit(input + 1, weight + pair);
                self.partners[input] = NONE;
            }
        }
    }

    /// Heavier is better; of equal weights the first in dictionary order (none, 65535, is after
    /// every output).
    fn compare(&mut self, weight: u32) {
        let first = self.partners < self.best;
        if weight > self.best_weight || weight == self.best_weight && first {
            self.best_weight = weight;
            self.best.clone_from(&self.partners);
        }
    }

    fn answer(self) -> Match {
        let mut answer = Match::empty(0);
        answer.partners[..self.best.len()].copy_from_slice(&self.best);
        answer.size = self.best.iter().filter(|partner| **partner != NONE).count() as u32;
        answer.weight = self.best_weight;
        answer
    }
}

/// The weights of a table's requests, each total summed anew from the table.
pub fn table_weights(m: u32, n: u32, counts: &[u16], hold: u32) -> Vec<Vec<Option<u32>>> {
    let count = |input: u32, output: u32| u32::from(counts[(input * n + output) as usize]);
    let row = |input: u32| (0..n).map(|output| count(input, output)).sum::<u32>();
    let column = |output: u32| (0..m).map(|input| count(input, output)).sum::<u32>();
    let weight = |input: u32, output: u32| {
        let requested = count(input, output) != 0 && hold & (1 << output) == 0;
        requested.then(|| row(input) + column(output))
    };
    let weights = |input: u32| (0..n).map(|output| weight(input, output)).collect();
    (0..m).map(weights).collect()
}

fn request_weights(m: u32, n: u32, requests: &Requests) -> Vec<Vec<Option<u32>>> {
    let weight = |input: usize, output: usize| {
        let requested = requests.rows[input] & (1 << output) != 0;
        requested.then(|| requests.inputs[input] + requests.outputs[output])
    };
    let weights = |input: usize| {
        (0..n as usize)
            .map(|output| weight(input, output))
            .collect()
    };
    (0..m as usize).map(weights).collect()
}

/// Half of the problems are tables, half are requests with weights.
pub fn against_all_matches(group: &mut Group) {
    let mut random = Random::seeded(3);
    for _ in 0..PROBLEMS / 2 {
        one_table(group, &mut random);
        one_weighted(group, &mut random);
    }
}

fn one_table(group: &mut Group, random: &mut Random) {
    let (m, n) = (random.between(1, MOST_PORTS), random.between(1, MOST_PORTS));
    let fill = random.choose(&[20, 50, 80, 100]);
    let most = random.choose(&[1, 2, 3, 64]);
    let counts = random.table(m * n, fill, most);
    let held = random.choose(&[0, 0, 30]);
    let hold = random.mask(n, held);
    let found = table_match(m, n, &counts, hold);
    let wanted = best_match(table_weights(m, n, &counts, hold));
    group.equal(&format!("{m} by {n} {counts:?} hold {hold}"), found, wanted);
}

fn one_weighted(group: &mut Group, random: &mut Random) {
    let (m, n) = (random.between(1, MOST_PORTS), random.between(1, MOST_PORTS));
    let fill = random.choose(&[20, 50, 80, 100]);
    let weights = random.choose(&WEIGHTS);
    let requests = requests_of(random, m, n, fill, weights);
    let found = weighted_match(m, n, &requests);
    let wanted = best_match(request_weights(m, n, &requests));
    group.equal(&format!("{m} by {n} {requests:?}"), found.clone(), wanted);
    let ranked = weighted_match(m, n, &rank_form(m, n, &requests).ranks);
    group.equal(
        "the ranks have the same partners",
        ranked.partners,
        found.partners,
    );
}
