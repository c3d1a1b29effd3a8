//! The exact assignment (Hungarian method, cubic in the number of ports): every input of a square
//! table gets one output and every output one input, with the greatest total worth.
//!
//! Each input and each output has a price, and the prices of a pair together are never below the
//! pair's worth. Inputs are placed one by one. From the new input a tree of pairs without a gap
//! (prices equal worth) is grown, and where it is stuck the prices are shifted by the least gap,
//! until it reaches an output that is still free. At the end every pair that was chosen has no gap,
//! so that the total worth equals the total of the prices, which no other assignment can exceed:
//! the prices prove the answer, and `is_greatest` reads that proof.

use crate::wide::Wide;

/// An assignment with the prices that prove it.
pub struct Assignment {
    pub output_of: Vec<usize>,
    pub input_prices: Vec<Wide>,
    pub output_prices: Vec<Wide>,
}

/// The work: the table, the prices so far, and the input placed at each output so far.
struct Work<'a> {
    worth: &'a [Vec<Wide>],
    input_prices: Vec<Wide>,
    output_prices: Vec<Wide>,
    input_of: Vec<Option<usize>>,
}

/// The tree grown from one new input: the outputs it has reached, and for each of the others the
/// least gap to an input of the tree, and the output at which that input is placed (nothing for the
/// new input).
struct Tree {
    root: usize,
    reached: Vec<bool>,
    gaps: Vec<Wide>,
    before: Vec<Option<usize>>,
}

/// The assignment of greatest total worth in a square table of worths of 0 or more.
pub fn greatest(worth: &[Vec<Wide>]) -> Assignment {
    let size = worth.len();
    let mut work = Work {
        worth,
        input_prices: vec![Wide::ZERO; size],
        output_prices: vec![Wide::ZERO; size],
        input_of: vec![None; size],
    };
    for input in 0..size {
        work.place(input);
    }
    work.finish()
}

impl Work<'_> {
    fn gap(&self, input: usize, output: usize) -> Wide {
        self.input_prices[input] + self.output_prices[output] - self.worth[input][output]
    }

    /// Gives the new input an output, moving others where that is needed.
    fn place(&mut self, root: usize) {
        self.input_prices[root] = self.opening_price(root);
        let mut tree = self.tree(root);
        let last = loop {
            let output = tree.nearest();
            self.shift(&mut tree, output);
            tree.reached[output] = true;
            match self.input_of[output] {
                Some(input) => self.widen(&mut tree, input, output),
                None => break output,
            }
        };
        self.hand_over(&tree, last);
    }

    /// The least price of an input that covers all its pairs.
    fn opening_price(&self, input: usize) -> Wide {
        let needed = self.worth[input].iter().zip(&self.output_prices);
        needed
            .map(|(worth, price)| *worth - *price)
            .max()
            .expect("a table has at least one output")
    }

    fn tree(&self, root: usize) -> Tree {
        let size = self.worth.len();
        Tree {
            root,
            reached: vec![false; size],
            gaps: (0..size).map(|output| self.gap(root, output)).collect(),
            before: vec![None; size],
        }
    }

    /// Shifts the prices by the gap of this output: down at the tree's inputs, up at its outputs.
    fn shift(&mut self, tree: &mut Tree, nearest: usize) {
        let step = tree.gaps[nearest];
        self.lower(tree.root, step);
        for output in 0..self.worth.len() {
            if tree.reached[output] {
                self.output_prices[output] = self.output_prices[output] + step;
                self.lower(self.placed_at(output), step);
            } else {
                tree.gaps[output] = tree.gaps[output] - step;
            }
        }
    }

    fn lower(&mut self, input: usize, step: Wide) {
        self.input_prices[input] = self.input_prices[input] - step;
    }

    fn placed_at(&self, output: usize) -> usize {
        self.input_of[output].expect("an input is placed at this output")
    }

    /// Takes the input placed at this output into the tree.
    fn widen(&self, tree: &mut Tree, input: usize, placed_at: usize) {
        for output in 0..self.worth.len() {
            if tree.reached[output] {
                continue;
            }
            let gap = self.gap(input, output);
            if gap < tree.gaps[output] {
                tree.gaps[output] = gap;
                tree.before[output] = Some(placed_at);
            }
        }
    }

    /// Moves each input on the way from the free output back to the root one output on.
    fn hand_over(&mut self, tree: &Tree, last: usize) {
        let mut output = last;
        while let Some(before) = tree.before[output] {
            self.input_of[output] = self.input_of[before];
            output = before;
        }
        self.input_of[output] = Some(tree.root);
    }

    fn finish(self) -> Assignment {
        let mut output_of = vec![0; self.worth.len()];
        for output in 0..self.worth.len() {
            output_of[self.placed_at(output)] = output;
        }
        Assignment {
            output_of,
            input_prices: self.input_prices,
            output_prices: self.output_prices,
        }
    }
}

impl Tree {
    /// The output not yet reached with the least gap.
    fn nearest(&self) -> usize {
        let open = (0..self.gaps.len()).filter(|output| !self.reached[*output]);
        open.min_by_key(|output| self.gaps[*output])
            .expect("an output is still free")
    }
}

/// Whether the prices prove the assignment: every output is given once, the two prices of every
/// pair cover its worth, and the total worth of the chosen pairs is the total of all prices.
pub fn is_greatest(worth: &[Vec<Wide>], found: &Assignment) -> bool {
    gives_each_output_once(found)
        && prices_cover(worth, found)
        && total(worth, found) == prices(found)
}

fn gives_each_output_once(found: &Assignment) -> bool {
    let mut given = found.output_of.clone();
    given.sort_unstable();
    given.into_iter().eq(0..found.output_of.len())
}

fn prices_cover(worth: &[Vec<Wide>], found: &Assignment) -> bool {
    worth
        .iter()
        .zip(&found.input_prices)
        .all(|(row, input_price)| {
            let mut pairs = row.iter().zip(&found.output_prices);
            pairs.all(|(worth, output_price)| *input_price + *output_price >= *worth)
        })
}

fn total(worth: &[Vec<Wide>], found: &Assignment) -> Wide {
    let chosen = worth.iter().zip(&found.output_of);
    chosen.fold(Wide::ZERO, |sum, (row, output)| sum + row[*output])
}

fn prices(found: &Assignment) -> Wide {
    let all = found.input_prices.iter().chain(&found.output_prices);
    all.fold(Wide::ZERO, |sum, price| sum + *price)
}
