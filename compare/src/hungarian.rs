//! The textbook assignment, what the benchmark sets beside the library: the Hungarian method by
//! shortest augmenting paths, cubic in the number of ports, on a square matrix of 64-bit costs. A
//! request costs its weight below 0 and every other pair 0, so that the cheapest assignment holds a
//! heaviest match. It knows no order among equal weights.
//!
//! Of the two forms in the books this is the quicker: the prices are changed once for each input, at
//! the end of its search, and not at every step of it.

use crate::card::names;
use crate::matching::{chosen_requests, table_requests, Match, Requests};

/// In place of an input or output: none yet.
const FREE: usize = usize::MAX;

/// The costs, prices and pairs so far, and of the search under way the outputs reached, the
/// distance of each output and the input before it.
struct Work {
    size: usize,
    costs: Vec<i64>,
    input_prices: Vec<i64>,
    output_prices: Vec<i64>,
    output_of: Vec<usize>,
    input_of: Vec<usize>,
    reached: Vec<bool>,
    distances: Vec<i64>,
    before: Vec<usize>,
}

/// A heaviest match of an accepted table of counts under an accepted hold.
pub fn table_match(m: u32, n: u32, counts: &[u16], hold: u32) -> Match {
    heaviest(m, n, &table_requests(m, n, counts, hold))
}

/// A heaviest match of accepted requests.
pub fn heaviest(m: u32, n: u32, requests: &Requests) -> Match {
    let size = m.max(n) as usize;
    let mut work = Work::new(size, costs(size, requests));
    for input in 0..size {
        work.place(input);
    }
    chosen_requests(requests, &work.output_of)
}

/// The matrix of costs, row by row.
fn costs(size: usize, requests: &Requests) -> Vec<i64> {
    let mut costs = vec![0; size * size];
    for (input, row) in costs.chunks_exact_mut(size).enumerate() {
        for (output, cost) in row.iter_mut().enumerate() {
            if names(requests.rows[input], output) {
                *cost = -i64::from(requests.pair_weight(input, output));
            }
        }
    }
    costs
}

impl Work {
    fn new(size: usize, costs: Vec<i64>) -> Work {
        Work {
            size,
            costs,
            input_prices: vec![0; size],
            output_prices: vec![0; size],
            output_of: vec![FREE; size],
            input_of: vec![FREE; size],
            reached: vec![false; size],
            distances: vec![0; size],
            before: vec![FREE; size],
        }
    }

    /// Gives one more input an output, along the shortest path to a free one.
    fn place(&mut self, root: usize) {
        self.reached.fill(false);
        self.distances.fill(i64::MAX);
        let (mut input, mut distance) = (root, 0);
        let last = loop {
            let output = self.nearest(input, distance);
            distance = self.distances[output];
            self.reached[output] = true;
            input = self.input_of[output];
            if input == FREE {
                break output;
            }
        };
        self.change_prices(root, distance);
        self.hand_over(root, last);
    }

    /// Shortens distances by paths over this input, and finds the nearest output not yet reached.
    fn nearest(&mut self, input: usize, distance: i64) -> usize {
        let costs = &self.costs[input * self.size..][..self.size];
        let prices = &self.output_prices[..self.size];
        let reached = &self.reached[..self.size];
        let distances = &mut self.distances[..self.size];
        let before = &mut self.before[..self.size];
        let start = distance - self.input_prices[input];
        let (mut nearest, mut least) = (FREE, i64::MAX);
        for output in (0..self.size).filter(|output| !reached[*output]) {
            let over_input = start + costs[output] - prices[output];
            if over_input < distances[output] {
                distances[output] = over_input;
                before[output] = input;
            }
            if distances[output] < least {
                (nearest, least) = (output, distances[output]);
            }
        }
        nearest
    }

    /// Changes the prices of the ports reached, so that no pair costs less than its two prices and
    /// the pairs of the path cost just that.
    fn change_prices(&mut self, root: usize, distance: i64) {
        self.input_prices[root] += distance;
        for output in 0..self.size {
            if self.reached[output] {
                let change = distance - self.distances[output];
                self.output_prices[output] -= change;
                if self.input_of[output] != FREE {
                    self.input_prices[self.input_of[output]] += change;
                }
            }
        }
    }

    /// Moves each input of the path one output on, from the free output back to the root.
    fn hand_over(&mut self, root: usize, last: usize) {
        let mut output = last;
        loop {
            let input = self.before[output];
            self.input_of[output] = input;
            std::mem::swap(&mut self.output_of[input], &mut output);
            if input == root {
                break;
            }
        }
    }
}
