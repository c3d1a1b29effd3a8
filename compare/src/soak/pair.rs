//! One card on both sides: this program's record and lists, and those that are lent to the library.
//! After every call of the library all of them are compared.

use crate::card::{Arrivals, NONE, QUEUES};
use crate::differ::{first_places, COUNTS, HEADS, RECORD, REPORT};
use crate::library;
use crate::random::Random;
use crate::slot::{fresh, slot, Lists, Record};

/// What answer lists hold before the first call.
pub const LEFTOVER: u32 = 7;

pub struct Pair {
    record: Record,
    lists: Lists,
    /// The last report, as numbers; before the first slot what the list was lent with.
    report: Vec<u32>,
    lent: Lent,
}

/// The library's lists.
struct Lent {
    record: Vec<u32>,
    cells: Vec<u32>,
    stamps: Vec<u32>,
    report: Vec<u32>,
}

/// A call with one thing wrong: its arguments, a number of the record that is changed while it lasts,
/// and the refusal.
struct Wrong {
    hold: u32,
    arrivals: Arrivals,
    cells: usize,
    stamps: usize,
    report: usize,
    record: Option<(usize, u32)>,
    refusal: u32,
}

impl Pair {
    /// A fresh card; in some of them the slot number and the counters then stand near their end, or
    /// the queues hold cells.
    pub fn start(random: &mut Random, [m, n, d]: [u32; 3]) -> Result<Pair, String> {
        let places = (m * n * d) as usize;
        let mut lists = Lists::filled(places, LEFTOVER);
        let (own, record) = fresh(m, n, d, &mut lists);
        let mut lent = Lent {
            record: vec![LEFTOVER; RECORD],
            cells: vec![LEFTOVER; places],
            stamps: vec![LEFTOVER; places],
            report: vec![LEFTOVER; REPORT],
        };
        let Lent {
            record: numbers,
            cells,
            stamps,
            ..
        } = &mut lent;
        let came = library::fresh(m, n, d, numbers, cells, stamps);
        let mut pair = Pair {
            record,
            lists,
            report: lent.report.clone(),
            lent,
        };
        same_number("fresh card", own, came)?;
        pair.same()?;
        pair.move_on(random);
        Ok(pair)
    }

    fn move_on(&mut self, random: &mut Random) {
        if random.percent(25) {
            self.near_the_end(random);
        }
        if random.percent(25) {
            self.fill_queues(random);
        }
        self.lent.record = self.record.numbers();
        self.lent.cells.clone_from(&self.lists.cells);
        self.lent.stamps.clone_from(&self.lists.stamps);
    }

    /// Slot number and counters a few steps before they wrap.
    fn near_the_end(&mut self, random: &mut Random) {
        let mut late = || u32::MAX - random.below(300);
        self.record.slot = late();
        self.record.offered = late();
        self.record.stored = late();
        self.record.dropped = late();
        self.record.departed = late();
    }

    /// Any head, any count, and cells with stamps of the last slots.
    fn fill_queues(&mut self, random: &mut Random) {
        let Record { m, n, d, .. } = self.record;
        let fill = random.choose(&[10, 50, 100]);
        for queue in 0..(m * n) as usize {
            self.record.heads[queue] = random.below(d);
            if random.percent(fill) {
                self.record.counts[queue] = random.between(1, d);
            }
        }
        for place in 0..self.lists.cells.len() {
            self.lists.cells[place] = random.next() as u32;
            self.lists.stamps[place] = self.record.slot.wrapping_sub(random.below(1_000));
        }
    }

    /// One slot on both sides; answers how many arrivals were dropped.
    pub fn step(&mut self, hold: u32, arrivals: &Arrivals) -> Result<u32, String> {
        let (own, next, report) = slot(&self.record, &mut self.lists, hold, arrivals);
        self.record = next;
        self.report = report.numbers();
        let Lent {
            record,
            cells,
            stamps,
            report: said,
        } = &mut self.lent;
        let Arrivals {
            outputs,
            cells: arriving,
        } = arrivals;
        let came = library::slot(record, cells, stamps, hold, outputs, arriving, said);
        same_number("slot", own, came)?;
        self.same()?;
        Ok(report.dropped.count_ones())
    }

    /// A call that must be refused and change nothing.
    pub fn refused(
        &mut self,
        random: &mut Random,
        hold: u32,
        arrivals: &Arrivals,
    ) -> Result<(), String> {
        let wrong = self.wrong(random, hold, arrivals);
        let lent = &mut self.lent;
        let kept = wrong.record.map(|(place, _)| (place, lent.record[place]));
        set(&mut lent.record, wrong.record);
        let before = lent.record.clone();
        let came = library::slot(
            &mut lent.record,
            &mut lent.cells[..wrong.cells],
            &mut lent.stamps[..wrong.stamps],
            wrong.hold,
            &wrong.arrivals.outputs,
            &wrong.arrivals.cells,
            &mut lent.report[..wrong.report],
        );
        same_number("refused slot", wrong.refusal, came)?;
        same_list("record of a refused slot", &before, &lent.record)?;
        set(&mut lent.record, kept);
        self.same()
    }

    /// One thing wrong, whichever comes up; an arrival where nothing else is said.
    fn wrong(&self, random: &mut Random, hold: u32, arrivals: &Arrivals) -> Wrong {
        let Record { m, n, d, .. } = self.record;
        let queue = random.below(m * n) as usize;
        let input = random.below(m) as usize;
        let mut wrong = Wrong {
            hold,
            arrivals: arrivals.clone(),
            cells: self.lent.cells.len(),
            stamps: self.lent.stamps.len(),
            report: self.lent.report.len(),
            record: None,
            refusal: 4,
        };
        let Arrivals { outputs, cells } = &mut wrong.arrivals;
        let beyond = (m * n) as usize;
        let in_record = |place: usize, number: u32| (Some((place, number)), 7);
        match random.below(12) {
            0 if n < 32 => (wrong.hold, wrong.refusal) = (hold | 1 << n, 3),
            1 if m < 32 => outputs[m as usize] = 0,
            2 if m < 32 => cells[m as usize] = 1,
            3 => outputs[input] = n as u16,
            4 => (outputs[input], cells[input]) = (NONE, 1),
            5 => (wrong.cells, wrong.refusal) = (wrong.cells - 1, 2),
            6 => (wrong.stamps, wrong.refusal) = (wrong.stamps - 1, 2),
            7 => (wrong.report, wrong.refusal) = (wrong.report - 1, 2),
            8 => (wrong.record, wrong.refusal) = in_record(HEADS + queue, d),
            9 => (wrong.record, wrong.refusal) = in_record(COUNTS + queue, d + 1),
            10 if beyond < QUEUES => (wrong.record, wrong.refusal) = in_record(COUNTS + beyond, 1),
            _ => (wrong.record, wrong.refusal) = in_record(HEADS + queue, 65_536),
        }
        wrong
    }

    /// Record, both lists and report are the same on both sides.
    fn same(&self) -> Result<(), String> {
        same_list("record", &self.record.numbers(), &self.lent.record)?;
        same_list("cells", &self.lists.cells, &self.lent.cells)?;
        same_list("stamps", &self.lists.stamps, &self.lent.stamps)?;
        same_list("report", &self.report, &self.lent.report)
    }
}

fn set(record: &mut [u32], change: Option<(usize, u32)>) {
    if let Some((place, number)) = change {
        record[place] = number;
    }
}

pub fn same_number<T: PartialEq + std::fmt::Display>(
    what: &str,
    own: T,
    came: T,
) -> Result<(), String> {
    if own == came {
        Ok(())
    } else {
        Err(format!("{what}: expected {own}, came {came}"))
    }
}

pub fn same_list(what: &str, own: &[u32], came: &[u32]) -> Result<(), String> {
    if own == came {
        Ok(())
    } else {
        Err(format!("{what}: {}", first_places(own, came)))
    }
}
