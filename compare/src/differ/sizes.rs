//! Sizes of cards: the limits of M, N and D with what lies around them, and random sizes with the
//! extremes often among them.

use crate::random::Random;
use std::collections::BTreeSet;

/// Numbers of ports at and around their limits.
pub const PORTS_AROUND: [u32; 7] = [0, 1, 32, 33, 65_536, 65_537, u32::MAX];
/// Those among them that are refused.
pub const PORTS_REFUSED: [u32; 5] = [0, 33, 65_536, 65_537, u32::MAX];
/// Depths at and around their limits.
pub const DEPTHS_AROUND: [u32; 8] = [0, 1, 64, 65, 257, 65_536, 65_537, u32::MAX];
/// Those among them that are refused.
pub const DEPTHS_REFUSED: [u32; 6] = [0, 65, 257, 65_536, 65_537, u32::MAX];

/// The longest list that is lent for a card outside its limits.
const LONGEST: u128 = 70_000;

/// A number of inputs or outputs.
pub fn ports(random: &mut Random) -> u32 {
    match random.below(8) {
        0 => 1,
        1 => 2,
        2 => 31,
        3 => 32,
        4 | 5 => random.between(3, 6),
        _ => random.between(1, 32),
    }
}

/// A depth.
pub fn depth(random: &mut Random) -> u32 {
    match random.below(6) {
        0 => 1,
        1 => 2,
        2 => 64,
        3 => random.between(3, 6),
        _ => random.between(1, 64),
    }
}

/// A card of at most so many places.
pub fn card(random: &mut Random, most: u32) -> [u32; 3] {
    loop {
        let [m, n, d] = [ports(random), ports(random), depth(random)];
        if m * n * d <= most {
            return [m, n, d];
        }
    }
}

/// Every M with every N at and around the limits.
pub fn grid() -> impl Iterator<Item = [u32; 2]> {
    PORTS_AROUND
        .into_iter()
        .flat_map(|m| PORTS_AROUND.map(|n| [m, n]))
}

/// The same with every D.
pub fn deep_grid() -> impl Iterator<Item = [u32; 3]> {
    grid().flat_map(|[m, n]| DEPTHS_AROUND.map(|d| [m, n, d]))
}

/// The lengths that a list of this card might be thought to have: the product over whole numbers,
/// cut to 32 bits, and of numbers cut to 16 or to 8 bits.
pub fn lengths(card: &[u32]) -> BTreeSet<usize> {
    let product = |mask: u32| {
        let numbers = card.iter().map(|number| u128::from(number & mask));
        numbers.product::<u128>()
    };
    let whole = product(u32::MAX);
    let thought = [
        whole,
        whole & 0xFFFF_FFFF,
        whole & 0xFFFF,
        product(0xFFFF),
        product(0xFF),
    ];
    let short = thought.into_iter().filter(|length| *length <= LONGEST);
    short.map(|length| length as usize).collect()
}
