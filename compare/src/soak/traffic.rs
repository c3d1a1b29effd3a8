//! The traffic of a soak: card sizes, and slots whose load changes by phases, so that queues fill,
//! overflow, stand held for a while and run empty again.

use crate::card::{names, NONE};
use crate::differ::most_slots;
use crate::log::Slots;
use crate::random::Random;

/// The most slots of a short log.
const FEW: u32 = 50;

/// A card of any size: a fifth of them 32 by 32, a fifth small.
pub fn card(random: &mut Random) -> [u32; 3] {
    let depth = random.between(1, 64);
    match random.below(10) {
        0 | 1 => [32, 32, random.choose(&[1, 2, 64, depth])],
        2 | 3 => [1, 2, 3].map(|_| random.between(1, 4)),
        _ => [random.between(1, 32), random.between(1, 32), depth],
    }
}

/// The present phase: for so many slots more the inputs that are awake have arrivals by this load,
/// a share of them for one hot output, and these outputs are held, others now and then.
pub struct Traffic {
    card: [u32; 3],
    left: u32,
    load: u32,
    awake: u32,
    hot: u32,
    heat: u32,
    held: u32,
    flicker: u32,
}

impl Traffic {
    pub fn on(card: [u32; 3]) -> Traffic {
        Traffic {
            card,
            left: 0,
            load: 0,
            awake: 0,
            hot: 0,
            heat: 0,
            held: 0,
            flicker: 0,
        }
    }

    /// The slots of the next log: as many as a log can have, any number of them, or a few.
    pub fn log(&mut self, random: &mut Random) -> Slots {
        let [m, n, d] = self.card;
        let most = most_slots(m);
        let (some, few) = (random.between(0, most), random.between(0, FEW));
        let count = random.choose(&[most, some, few]);
        let mut slots = Slots {
            m,
            n,
            d,
            holds: Vec::new(),
            outputs: Vec::new(),
            cells: Vec::new(),
        };
        for _ in 0..count {
            self.slot(random, &mut slots);
        }
        slots
    }

    fn slot(&mut self, random: &mut Random, slots: &mut Slots) {
        if self.left == 0 {
            self.next_phase(random);
        }
        self.left -= 1;
        let [m, n, _] = self.card;
        slots.holds.push(self.held | random.mask(n, self.flicker));
        for input in 0..m as usize {
            let arrives = names(self.awake, input) && random.percent(self.load);
            let (output, cell) = if arrives {
                self.arrival(random)
            } else {
                (NONE, 0)
            };
            slots.outputs.push(output);
            slots.cells.push(cell);
        }
    }

    fn arrival(&self, random: &mut Random) -> (u16, u32) {
        let (any, cell) = (random.below(self.card[1]), random.next() as u32);
        let output = if random.percent(self.heat) {
            self.hot
        } else {
            any
        };
        (
            output as u16,
            random.choose(&[cell, cell, cell, 0, u32::MAX]),
        )
    }

    fn next_phase(&mut self, random: &mut Random) {
        let [m, n, _] = self.card;
        let (awake, held) = (
            random.choose(&[100, 100, 40]),
            random.choose(&[0, 0, 0, 0, 20, 60, 100]),
        );
        self.left = random.choose(&[1, 5, 20, 60, 200]);
        self.load = random.choose(&[0, 5, 20, 50, 80, 100, 100]);
        self.awake = random.mask(m, awake);
        self.hot = random.below(n);
        self.heat = random.choose(&[0, 0, 50, 90, 100]);
        self.held = random.mask(n, held);
        self.flicker = random.choose(&[0, 0, 0, 10, 40]);
    }
}
