//! The card's limits, the arrivals of one slot, and the small tests that several refusals share.

/// The most inputs and the most outputs of a card.
pub const PORTS: usize = 32;
/// The most cells of one queue.
pub const DEPTH: u32 = 64;
/// The number of heads, and of counts, that a record has.
pub const QUEUES: usize = PORTS * PORTS;
/// In place of an output: none.
pub const NONE: u16 = 65535;
/// The greatest weight of a requesting port: 32 × 65,535.
pub const WEIGHT: u32 = 2_097_120;

/// What arrives in one slot: an output (or none) and a cell for each input.
#[derive(Clone, Debug, PartialEq)]
pub struct Arrivals {
    pub outputs: [u16; PORTS],
    pub cells: [u32; PORTS],
}

impl Arrivals {
    pub fn nothing() -> Arrivals {
        Arrivals {
            outputs: [NONE; PORTS],
            cells: [0; PORTS],
        }
    }
}

/// M and N are each 1 to 32.
pub fn ports_fit(m: u32, n: u32) -> bool {
    let fits = |ports: u32| (1..=PORTS as u32).contains(&ports);
    fits(m) && fits(n)
}

/// D is 1 to 64.
pub fn depth_fits(d: u32) -> bool {
    (1..=DEPTH).contains(&d)
}

/// The mask names this port.
pub fn names(mask: u32, port: usize) -> bool {
    (mask >> port) & 1 == 1
}

/// The mask names no port at `ports` or above; `ports` may be 32.
pub fn stays_below(mask: u32, ports: u32) -> bool {
    u64::from(mask) >> ports == 0
}

/// The arrival at an input of the card is none with cell 0, or an output of the card.
pub fn arrival_fits(output: u16, cell: u32, n: u32) -> bool {
    if output == NONE {
        cell == 0
    } else {
        u32::from(output) < n
    }
}
