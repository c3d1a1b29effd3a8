//! One call of the library as data: the function, its numbers and its lists, under the names of the
//! C interface. A list is kept as 32-bit numbers, whatever the width of its elements.

use crate::card::{PORTS, QUEUES};
use crate::random::Random;
use std::fmt;

/// The numbers of a list.
pub type List = Vec<u32>;

/// The longest list that is printed in full.
const PRINTED: usize = 64;
/// Of a longer list, so many numbers other than 0 are printed.
const SAMPLED: usize = 24;

/// Where a record's heads, counts and slot number stand; the counters follow. Its length, and that of
/// a report.
pub const HEADS: usize = 3;
pub const COUNTS: usize = HEADS + QUEUES;
pub const SLOT_NUMBER: usize = COUNTS + QUEUES;
pub const RECORD: usize = SLOT_NUMBER + 5;
pub const REPORT: usize = 3 * PORTS + 3;

/// The eight functions, in the order of the C interface.
#[derive(Clone, Copy, Debug, PartialEq)]
pub enum Function {
    MatchTable,
    MatchWeights,
    RankForm,
    Fresh,
    Slot,
    LogCheck,
    LogRead,
    LogWrite,
}

pub const FUNCTIONS: [Function; 8] = [
    Function::MatchTable,
    Function::MatchWeights,
    Function::RankForm,
    Function::Fresh,
    Function::Slot,
    Function::LogCheck,
    Function::LogRead,
    Function::LogWrite,
];

/// The width of a list's elements.
#[derive(Clone, Copy, Debug, PartialEq)]
pub enum Width {
    Byte,
    Short,
    Number,
}

/// A list as the interface declares it: its name, its width, and its length where that is fixed.
pub struct Declared {
    pub name: &'static str,
    pub width: Width,
    pub fixed: Option<usize>,
}

const fn free(name: &'static str, width: Width) -> Declared {
    let fixed = None;
    Declared { name, width, fixed }
}

const fn fixed(name: &'static str, width: Width, length: usize) -> Declared {
    let fixed = Some(length);
    Declared { name, width, fixed }
}

const MATCH_TABLE: &[Declared] = &[
    free("counts", Width::Short),
    fixed("partners", Width::Short, PORTS),
    fixed("totals", Width::Number, 2),
];
const MATCH_WEIGHTS: &[Declared] = &[
    fixed("rows", Width::Number, PORTS),
    fixed("inputs", Width::Number, PORTS),
    fixed("outputs", Width::Number, PORTS),
    fixed("partners", Width::Short, PORTS),
    fixed("totals", Width::Number, 2),
];
const RANK_FORM: &[Declared] = &[
    fixed("rows", Width::Number, PORTS),
    fixed("inputs", Width::Number, PORTS),
    fixed("outputs", Width::Number, PORTS),
];
const FRESH: &[Declared] = &[
    fixed("record", Width::Number, RECORD),
    free("cells", Width::Number),
    free("stamps", Width::Number),
];
const SLOT: &[Declared] = &[
    fixed("record", Width::Number, RECORD),
    free("cells", Width::Number),
    free("stamps", Width::Number),
    fixed("outputs", Width::Short, PORTS),
    fixed("arriving", Width::Number, PORTS),
    fixed("report", Width::Number, REPORT),
];
const LOG_CHECK: &[Declared] = &[free("log", Width::Byte), fixed("answer", Width::Number, 5)];
const LOG_READ: &[Declared] = &[
    free("log", Width::Byte),
    fixed("hold", Width::Number, 1),
    fixed("outputs", Width::Short, PORTS),
    fixed("cells", Width::Number, PORTS),
];
const LOG_WRITE: &[Declared] = &[
    free("holds", Width::Number),
    free("outputs", Width::Short),
    free("cells", Width::Number),
    free("buffer", Width::Byte),
];

impl Function {
    pub fn name(self) -> &'static str {
        match self {
            Function::MatchTable => "crosspoint_match_table",
            Function::MatchWeights => "crosspoint_match_weights",
            Function::RankForm => "crosspoint_rank_form",
            Function::Fresh => "crosspoint_fresh",
            Function::Slot => "crosspoint_slot",
            Function::LogCheck => "crosspoint_log_check",
            Function::LogRead => "crosspoint_log_read",
            Function::LogWrite => "crosspoint_log_write",
        }
    }

    /// The names of the numbers it takes.
    fn numbers(self) -> &'static [&'static str] {
        match self {
            Function::MatchTable => &["m", "n", "hold"],
            Function::MatchWeights | Function::RankForm => &["m", "n"],
            Function::Fresh | Function::LogWrite => &["m", "n", "d"],
            Function::Slot => &["hold"],
            Function::LogCheck => &[],
            Function::LogRead => &["slot"],
        }
    }

    /// The lists it is lent.
    pub fn lists(self) -> &'static [Declared] {
        match self {
            Function::MatchTable => MATCH_TABLE,
            Function::MatchWeights => MATCH_WEIGHTS,
            Function::RankForm => RANK_FORM,
            Function::Fresh => FRESH,
            Function::Slot => SLOT,
            Function::LogCheck => LOG_CHECK,
            Function::LogRead => LOG_READ,
            Function::LogWrite => LOG_WRITE,
        }
    }

    /// Where the list of this name stands.
    pub fn place(self, name: &str) -> usize {
        let found = self.lists().iter().position(|list| list.name == name);
        found.expect("the function has a list of this name")
    }
}

/// A call: numbers and lists in the order of the interface.
#[derive(Clone, Debug, PartialEq)]
pub struct Call {
    pub function: Function,
    pub numbers: Vec<u32>,
    pub lists: Vec<List>,
}

impl Call {
    pub fn number(&self, name: &str) -> u32 {
        self.numbers[self.number_place(name)]
    }

    pub fn set_number(&mut self, name: &str, number: u32) {
        let place = self.number_place(name);
        self.numbers[place] = number;
    }

    fn number_place(&self, name: &str) -> usize {
        let mut names = self.function.numbers().iter();
        let found = names.position(|known| *known == name);
        found.expect("the function takes a number of this name")
    }

    pub fn list(&self, name: &str) -> &List {
        &self.lists[self.function.place(name)]
    }

    pub fn list_mut(&mut self, name: &str) -> &mut List {
        &mut self.lists[self.function.place(name)]
    }
}

/// Numbers that stand in an answer list before the call: any that its elements can hold.
pub fn leftovers(random: &mut Random, function: Function, name: &str, length: usize) -> List {
    let most = match function.lists()[function.place(name)].width {
        Width::Byte => 0xFF,
        Width::Short => 0xFFFF,
        Width::Number => u32::MAX,
    };
    (0..length).map(|_| random.next() as u32 & most).collect()
}

/// The arguments in short: every number, and each list in full where it is short.
impl fmt::Display for Call {
    fn fmt(&self, text: &mut fmt::Formatter) -> fmt::Result {
        for (name, number) in self.function.numbers().iter().zip(&self.numbers) {
            writeln!(text, "  {name} = {number}")?;
        }
        for (declared, list) in self.function.lists().iter().zip(&self.lists) {
            writeln!(
                text,
                "  {} ({}): {}",
                declared.name,
                list.len(),
                in_short(list)
            )?;
        }
        Ok(())
    }
}

fn in_short(list: &List) -> String {
    if list.len() <= PRINTED {
        return format!("{list:?}");
    }
    let marked = list.iter().enumerate().filter(|(_, number)| **number != 0);
    let shown = marked.clone().take(SAMPLED);
    let shown: Vec<String> = shown
        .map(|(place, number)| format!("{number} at {place}"))
        .collect();
    let more = marked.count() - shown.len();
    format!("all 0 but {}; {more} more", shown.join(", "))
}
