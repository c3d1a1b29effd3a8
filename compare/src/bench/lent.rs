//! A card as the library sees it: the record, the lists and the report, lent to it as numbers.

use crate::card::Arrivals;
use crate::library;

/// The numbers of a record.
pub const RECORD: usize = 2_056;
/// The numbers of a report.
const REPORT: usize = 99;

#[derive(Clone)]
pub struct Lent {
    pub record: Vec<u32>,
    pub cells: Vec<u32>,
    pub stamps: Vec<u32>,
    pub report: Vec<u32>,
}

impl Lent {
    /// A fresh card of a size that fits.
    pub fn fresh(m: u32, n: u32, d: u32) -> Lent {
        let places = (m * n * d) as usize;
        let mut card = Lent {
            record: vec![0; RECORD],
            cells: vec![0; places],
            stamps: vec![0; places],
            report: vec![0; REPORT],
        };
        let refusal = library::fresh(m, n, d, &mut card.record, &mut card.cells, &mut card.stamps);
        accepted(refusal);
        card
    }

    /// One slot that is accepted. Built in, so that the stack mark has no frame of this function.
    #[inline(always)]
    pub fn slot(&mut self, hold: u32, arrivals: &Arrivals) {
        accepted(library::slot(
            &mut self.record,
            &mut self.cells,
            &mut self.stamps,
            hold,
            &arrivals.outputs,
            &arrivals.cells,
            &mut self.report,
        ));
    }

    /// What a report says of the match and of drops: size, weight, mask of dropped inputs.
    pub fn last(&self) -> Vec<u32> {
        self.report[REPORT - 3..].to_vec()
    }
}

/// Stops where what must be taken is refused.
pub fn accepted(refusal: u32) {
    assert_eq!(refusal, 0, "what must be taken is refused");
}
