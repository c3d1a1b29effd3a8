//! The selftest: groups of checks, one printed line per group, and `all well` at the end.

mod brute;
mod logs;
mod matches;
mod replays;
mod slots;

use std::fmt::Debug;

/// Differences printed in full per group.
const SHOWN: u32 = 5;

/// Cards of a size just outside a limit, or far outside: M, N, D.
const REFUSED_SIZES: [(u32, u32, u32); 8] = [
    (0, 1, 1),
    (33, 1, 1),
    (1, 0, 1),
    (1, 33, 1),
    (1, 1, 0),
    (1, 1, 65),
    (65_537, 1, 1),
    (1, 1, 65_537),
];

/// A group of checks with the number made and the number that differed.
pub struct Group {
    name: &'static str,
    checks: u32,
    differences: u32,
}

impl Group {
    fn named(name: &'static str) -> Group {
        Group {
            name,
            checks: 0,
            differences: 0,
        }
    }

    /// Compares what was found with what is wanted.
    pub fn equal<T: PartialEq + Debug>(&mut self, what: &str, found: T, wanted: T) {
        self.checks += 1;
        if found != wanted {
            self.differences += 1;
            if self.differences <= SHOWN {
                println!(
                    "  {}: {what}: found {found:?}, wanted {wanted:?}",
                    self.name
                );
            }
        }
    }

    pub fn holds(&mut self, what: &str, truth: bool) {
        self.equal(what, truth, true);
    }

    fn close(self) -> bool {
        match self.differences {
            0 => println!("{}: {} checks, well", self.name, self.checks),
            some => println!("{}: {} of {} checks differ", self.name, some, self.checks),
        }
        self.differences == 0
    }
}

/// A group's name and the function that makes its checks.
type Named = (&'static str, fn(&mut Group));

/// The groups in the order of their lines.
const GROUPS: [Named; 19] = [
    ("wide numbers", matches::wide_numbers),
    ("brute force", brute::against_all_matches),
    ("bench table", matches::bench_table),
    ("limits of matches and ranks", matches::limits),
    ("shortcuts", matches::shortcuts),
    ("large cards", matches::large_cards),
    ("rank form", matches::rank_forms),
    ("vectors", matches::vector_files),
    ("fresh card", slots::fresh_cards),
    ("slot runs", slots::runs),
    ("slot refusals", slots::refusals),
    ("slot shortcuts", slots::shortcuts),
    ("wraps", slots::wraps),
    ("log round trips", logs::round_trips),
    ("log refusals", logs::refusals),
    ("reading one slot", logs::reading),
    ("writer", logs::writer),
    ("replay example", replays::example),
    ("replay limits", replays::limits),
];

/// Runs every group; true when nothing differed.
pub fn run() -> bool {
    let mut well = true;
    for (name, checks) in GROUPS {
        let mut group = Group::named(name);
        checks(&mut group);
        well &= group.close();
    }
    println!("{}", if well { "all well" } else { "NOT well" });
    well
}
