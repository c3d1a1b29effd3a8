//! A whole number of 256 bits with a sign (two's complement), with only what the assignment needs:
//! plus, minus, order, and a small number set at a given bit.
//! A sum or difference that leaves the 256 bits stops the program.

use std::cmp::Ordering;
use std::ops::{Add, Sub};

const WORDS: usize = 4;

/// The words stand least first.
#[derive(Clone, Copy, Debug, PartialEq, Eq)]
pub struct Wide {
    words: [u64; WORDS],
}

impl Wide {
    pub const ZERO: Wide = Wide { words: [0; WORDS] };

    /// value × 2^bit.
    pub fn at_bit(value: u32, bit: usize) -> Wide {
        let spread = u128::from(value) << (bit % 64);
        let mut words = [0; WORDS];
        words[bit / 64] = spread as u64;
        let above = (spread >> 64) as u64;
        if above != 0 {
            words[bit / 64 + 1] = above;
        }
        let wide = Wide { words };
        assert!(!wide.is_negative(), "the number does not fit in 256 bits");
        wide
    }

    pub fn is_negative(self) -> bool {
        self.words[WORDS - 1] >> 63 == 1
    }

    /// Each word turned over: the number −1 − self.
    fn turned(self) -> Wide {
        Wide {
            words: self.words.map(|word| !word),
        }
    }

    /// self + other + carry, without a look at the sign.
    fn sum(self, other: Wide, mut carry: bool) -> Wide {
        let mut words = [0; WORDS];
        for (place, word) in words.iter_mut().enumerate() {
            let (half, first) = self.words[place].overflowing_add(other.words[place]);
            let (whole, second) = half.overflowing_add(u64::from(carry));
            *word = whole;
            carry = first || second;
        }
        Wide { words }
    }
}

impl Add for Wide {
    type Output = Wide;

    fn add(self, other: Wide) -> Wide {
        let sum = self.sum(other, false);
        let one_sign = self.is_negative() == other.is_negative();
        assert!(
            !one_sign || sum.is_negative() == self.is_negative(),
            "a sum left the 256 bits"
        );
        sum
    }
}

impl Sub for Wide {
    type Output = Wide;

    fn sub(self, other: Wide) -> Wide {
        let rest = self.sum(other.turned(), true);
        let one_sign = self.is_negative() == other.is_negative();
        assert!(
            one_sign || rest.is_negative() == self.is_negative(),
            "a difference left the 256 bits"
        );
        rest
    }
}

impl Ord for Wide {
    fn cmp(&self, other: &Wide) -> Ordering {
        match (self.is_negative(), other.is_negative()) {
            (true, false) => Ordering::Less,
            (false, true) => Ordering::Greater,
            _ => self.words.iter().rev().cmp(other.words.iter().rev()),
        }
    }
}

impl PartialOrd for Wide {
    fn partial_cmp(&self, other: &Wide) -> Option<Ordering> {
        Some(self.cmp(other))
    }
}
