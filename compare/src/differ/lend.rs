//! Makes a call of the library. Every list is lent from the middle of a longer stretch of memory:
//! before and after it stand guards, numbers with a pattern that no call may change.

use super::call::{Call, Declared, Function, List, Width};
use crate::library;

/// The least number of guards on each side; a list of fixed length has as many as that length, so
/// that a library which writes its full answer into a shorter list is seen and not just stopped.
const GUARDS: usize = 64;

/// What came back: the answer, each list, and the names of lists whose guards were changed.
#[derive(Clone, Debug)]
pub struct Came {
    pub answer: u64,
    pub lists: Vec<List>,
    pub torn: Vec<&'static str>,
}

/// A list between its guards.
struct Guarded<T> {
    all: Vec<T>,
    guards: usize,
}

/// A number of a list's width.
trait Element: Copy + PartialEq + Into<u32> + TryFrom<u32> {}
impl Element for u8 {}
impl Element for u16 {}
impl Element for u32 {}

impl<T: Element> Guarded<T> {
    fn of(list: &List, guards: usize) -> Guarded<T> {
        let narrow = |number: u32| T::try_from(number).ok().expect("a number fits its list");
        let pattern = (0..guards).map(guard);
        let numbers = pattern.clone().chain(list.iter().copied()).chain(pattern);
        Guarded {
            all: numbers.map(narrow).collect(),
            guards,
        }
    }

    fn inside(&mut self) -> &mut [T] {
        let end = self.all.len() - self.guards;
        &mut self.all[self.guards..end]
    }

    fn back(&mut self) -> List {
        self.inside()
            .iter()
            .map(|number| (*number).into())
            .collect()
    }

    fn is_whole(&self) -> bool {
        let (before, rest) = self.all.split_at(self.guards);
        let after = &rest[rest.len() - self.guards..];
        let kept = |guards: &[T]| {
            let mut each = guards.iter().enumerate();
            each.all(|(place, number)| (*number).into() == guard(place))
        };
        kept(before) && kept(after)
    }
}

/// The guard at a place: it fits in a byte and is never 0.
fn guard(place: usize) -> u32 {
    1 + (place as u32 * 37) % 251
}

enum Lent {
    Bytes(Guarded<u8>),
    Shorts(Guarded<u16>),
    Numbers(Guarded<u32>),
}

impl Lent {
    fn of(list: &List, declared: &Declared) -> Lent {
        let guards = declared.fixed.unwrap_or(GUARDS).max(GUARDS);
        match declared.width {
            Width::Byte => Lent::Bytes(Guarded::of(list, guards)),
            Width::Short => Lent::Shorts(Guarded::of(list, guards)),
            Width::Number => Lent::Numbers(Guarded::of(list, guards)),
        }
    }

    fn bytes(&mut self) -> &mut [u8] {
        match self {
            Lent::Bytes(list) => list.inside(),
            _ => panic!("this list is not one of bytes"),
        }
    }

    fn shorts(&mut self) -> &mut [u16] {
        match self {
            Lent::Shorts(list) => list.inside(),
            _ => panic!("this list is not one of 16-bit numbers"),
        }
    }

    fn numbers(&mut self) -> &mut [u32] {
        match self {
            Lent::Numbers(list) => list.inside(),
            _ => panic!("this list is not one of 32-bit numbers"),
        }
    }

    fn back(&mut self) -> List {
        match self {
            Lent::Bytes(list) => list.back(),
            Lent::Shorts(list) => list.back(),
            Lent::Numbers(list) => list.back(),
        }
    }

    fn is_whole(&self) -> bool {
        match self {
            Lent::Bytes(list) => list.is_whole(),
            Lent::Shorts(list) => list.is_whole(),
            Lent::Numbers(list) => list.is_whole(),
        }
    }
}

/// Asks the library.
pub fn ask(call: &Call) -> Came {
    let declared = call.function.lists();
    let lend = |(list, declared): (&List, &Declared)| Lent::of(list, declared);
    let mut lent: Vec<Lent> = call.lists.iter().zip(declared).map(lend).collect();
    let answer = match call.function {
        Function::MatchTable | Function::MatchWeights | Function::RankForm => {
            ask_match(call, &mut lent)
        }
        Function::Fresh | Function::Slot => ask_card(call, &mut lent),
        _ => ask_log(call, &mut lent),
    };
    // Lists that the interface promises not to change are read again as they stand in memory.
    let lent = std::hint::black_box(&mut lent);
    let torn = declared.iter().zip(lent.iter());
    Came {
        answer,
        torn: torn
            .filter(|(_, lent)| !lent.is_whole())
            .map(|(declared, _)| declared.name)
            .collect(),
        lists: lent.iter_mut().map(Lent::back).collect(),
    }
}

const MISFIT: &str = "a call has the numbers and lists of its function";

fn ask_match(call: &Call, lent: &mut [Lent]) -> u64 {
    let refusal = match (&call.numbers[..], lent) {
        (&[m, n, hold], [counts, partners, totals]) => {
            let (partners, totals) = (partners.shorts(), totals.numbers());
            library::match_table(m, n, counts.shorts(), hold, partners, totals)
        }
        (&[m, n], [rows, inputs, outputs, partners, totals]) => library::match_weights(
            m,
            n,
            rows.numbers(),
            inputs.numbers(),
            outputs.numbers(),
            partners.shorts(),
            totals.numbers(),
        ),
        (&[m, n], [rows, inputs, outputs]) => {
            let (inputs, outputs) = (inputs.numbers(), outputs.numbers());
            library::rank_form(m, n, rows.numbers(), inputs, outputs)
        }
        _ => panic!("{MISFIT}"),
    };
    u64::from(refusal)
}

fn ask_card(call: &Call, lent: &mut [Lent]) -> u64 {
    let refusal = match (&call.numbers[..], lent) {
        (&[m, n, d], [record, cells, stamps]) => {
            let (cells, stamps) = (cells.numbers(), stamps.numbers());
            library::fresh(m, n, d, record.numbers(), cells, stamps)
        }
        (&[hold], [record, cells, stamps, outputs, arriving, report]) => library::slot(
            record.numbers(),
            cells.numbers(),
            stamps.numbers(),
            hold,
            outputs.shorts(),
            arriving.numbers(),
            report.numbers(),
        ),
        _ => panic!("{MISFIT}"),
    };
    u64::from(refusal)
}

fn ask_log(call: &Call, lent: &mut [Lent]) -> u64 {
    match (&call.numbers[..], lent) {
        (&[], [log, answer]) => library::log_check(log.bytes(), answer.numbers()),
        (&[slot], [log, hold, outputs, cells]) => {
            let (hold, outputs, cells) = (hold.numbers(), outputs.shorts(), cells.numbers());
            u64::from(library::log_read(log.bytes(), slot, hold, outputs, cells))
        }
        (&[m, n, d], [holds, outputs, cells, buffer]) => library::log_write(
            m,
            n,
            d,
            holds.numbers(),
            outputs.shorts(),
            cells.numbers(),
            buffer.bytes(),
        ),
        _ => panic!("{MISFIT}"),
    }
}
