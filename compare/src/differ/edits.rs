//! Changes to a call that is accepted. A limit is a change with the answer that it must bring; a
//! pair of faults is two of them in one call.

use super::call::{Call, List};
use super::{sizes, Run};
use std::fmt;

/// One change.
#[derive(Clone, Debug)]
pub enum Edit {
    Number(&'static str, u32),
    /// Elements from a place on; those past the end of the list fall away.
    Elements(&'static str, usize, List),
    /// The list is cut, or goes on with zeros.
    Length(&'static str, usize),
    Whole(&'static str, List),
}

/// Changes that together bring this answer.
#[derive(Clone, Debug)]
pub struct Edge {
    pub answer: u64,
    pub edits: Vec<Edit>,
}

/// An edge of one number.
pub fn number(answer: u32, name: &'static str, number: u32) -> Edge {
    edge(answer, vec![Edit::Number(name, number)])
}

/// An edge of one element.
pub fn element(answer: u32, name: &'static str, place: usize, number: u32) -> Edge {
    edge(answer, vec![Edit::Elements(name, place, vec![number])])
}

/// An edge of several changes.
pub fn edge(answer: u32, edits: Vec<Edit>) -> Edge {
    let answer = u64::from(answer);
    Edge { answer, edits }
}

/// The call as it stands, with its answer.
pub fn unchanged(answer: u64) -> Vec<Edge> {
    let edits = Vec::new();
    vec![Edge { answer, edits }]
}

/// Every M and every N that is refused with 1.
pub fn ports_refused() -> Vec<Edge> {
    let each = |name| sizes::PORTS_REFUSED.map(|ports| number(1, name, ports));
    [each("m"), each("n")].concat()
}

/// Every D that is refused with 1.
pub fn depths_refused() -> Vec<Edge> {
    let each = sizes::DEPTHS_REFUSED.map(|depth| number(1, "d", depth));
    each.to_vec()
}

/// The wrong lengths of a list: none, one less and one more, all refused with 2.
pub fn lengths(call: &Call, name: &'static str) -> Vec<Edge> {
    let length = call.list(name).len();
    let wrong = [0, length.saturating_sub(1), length + 1];
    let made = wrong.into_iter().filter(|other| *other != length);
    made.map(|other| edge(2, vec![Edit::Length(name, other)]))
        .collect()
}

/// The wrong lengths of every list whose length is fixed.
pub fn fixed_lengths(call: &Call) -> Vec<Edge> {
    let declared = call.function.lists().iter();
    let fixed = declared.filter(|list| list.fixed.is_some());
    fixed.flat_map(|list| lengths(call, list.name)).collect()
}

impl Edit {
    fn apply(&self, call: &mut Call) {
        match self {
            Edit::Number(name, number) => call.set_number(name, *number),
            Edit::Elements(name, from, numbers) => {
                let places = call.list_mut(name).iter_mut().skip(*from);
                places
                    .zip(numbers)
                    .for_each(|(place, number)| *place = *number);
            }
            Edit::Length(name, length) => call.list_mut(name).resize(*length, 0),
            Edit::Whole(name, list) => call.list_mut(name).clone_from(list),
        }
    }
}

impl Edge {
    /// The call with these changes.
    pub fn of(&self, base: &Call) -> Call {
        let mut call = base.clone();
        self.edits.iter().for_each(|edit| edit.apply(&mut call));
        call
    }

    fn is_fault(&self) -> bool {
        self.answer as u32 != 0
    }
}

impl fmt::Display for Edit {
    fn fmt(&self, text: &mut fmt::Formatter) -> fmt::Result {
        match self {
            Edit::Number(name, number) => write!(text, "{name} = {number}"),
            Edit::Elements(name, from, numbers) => write!(text, "{name} from {from}: {numbers:?}"),
            Edit::Length(name, length) => write!(text, "{name} of length {length}"),
            Edit::Whole(name, list) => write!(text, "{name}: {} other elements", list.len()),
        }
    }
}

impl fmt::Display for Edge {
    fn fmt(&self, text: &mut fmt::Formatter) -> fmt::Result {
        let edits: Vec<String> = self.edits.iter().map(Edit::to_string).collect();
        match edits.len() {
            0 => write!(text, "unchanged"),
            _ => write!(text, "{}", edits.join("; ")),
        }
    }
}

impl Run {
    /// Every length of every list, each edge alone with the answer stated for it, and each pair of
    /// faults.
    pub fn around(&mut self, base: &Call, edges: &[Edge]) {
        self.each_length(base);
        for edge in edges {
            self.stated(&edge.to_string(), &edge.of(base), edge.answer);
        }
        self.each_pair(base, edges);
    }

    fn each_pair(&mut self, base: &Call, edges: &[Edge]) {
        let faults: Vec<&Edge> = edges.iter().filter(|edge| edge.is_fault()).collect();
        for (place, first) in faults.iter().enumerate() {
            for second in &faults[place + 1..] {
                self.one_pair(base, first, second);
            }
        }
    }

    /// Both changes in one call; in both orders where that makes a difference.
    fn one_pair(&mut self, base: &Call, first: &Edge, second: &Edge) {
        let call = second.of(&first.of(base));
        self.compare(&format!("{first}; {second}"), &call);
        let turned = first.of(&second.of(base));
        if turned != call {
            self.compare(&format!("{second}; {first}"), &turned);
        }
    }

    /// Each list in turn empty, one shorter and one longer, and longer by a number that is 0 when it is
    /// cut to 8 or to 16 bits.
    fn each_length(&mut self, base: &Call) {
        for declared in base.function.lists() {
            let length = base.list(declared.name).len();
            let longer = [256, 65_536].map(|more| Edit::Length(declared.name, length + more));
            let longer = longer.map(|edit| edge(2, vec![edit])).to_vec();
            for edge in [lengths(base, declared.name), longer].concat() {
                self.compare(&edge.to_string(), &edge.of(base));
            }
        }
    }
}

/// Holds and arrivals at the limits of N outputs, each with the refusal that it gets; `hold` and
/// `entry` make the case of a mask, and of an output with a cell.
pub fn arrival_edges<Case>(
    n: u32,
    hold: impl Fn(u32, u32) -> Case,
    entry: impl Fn(u32, u32, u32) -> Case,
) -> Vec<Case> {
    let mut edges = vec![
        hold(0, 1 << (n - 1)),
        hold(0, u32::MAX >> (32 - n)),
        entry(0, n - 1, 0),
        entry(0, n - 1, u32::MAX),
        entry(0, 65_535, 0),
        entry(4, n, 0),
        entry(4, 256 + n - 1, 3),
        entry(4, 65_534, 5),
        entry(4, 65_535, 1),
        entry(4, 65_535, 1 << 24),
    ];
    if n < 32 {
        edges.extend([1 << n, 1 << 31, u32::MAX].map(|mask| hold(3, mask)));
    }
    edges
}
