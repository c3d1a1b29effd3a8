//! A small generator of numbers that look random; the same seed always gives the same numbers.

pub struct Random {
    state: u64,
}

impl Random {
    pub fn seeded(seed: u64) -> Random {
        Random { state: seed }
    }

    /// The next 64 bits (a counter stirred by multiplying and shifting).
    pub fn next(&mut self) -> u64 {
        self.state = self.state.wrapping_add(0x9E37_79B9_7F4A_7C15);
        let mut bits = self.state;
        bits = (bits ^ (bits >> 30)).wrapping_mul(0xBF58_476D_1CE4_E5B9);
        bits = (bits ^ (bits >> 27)).wrapping_mul(0x94D0_49BB_1331_11EB);
        bits ^ (bits >> 31)
    }

    /// A number from 0 to `limit` − 1.
    pub fn below(&mut self, limit: u32) -> u32 {
        (((self.next() >> 32) * u64::from(limit)) >> 32) as u32
    }

    /// A number from `low` to `high`, both included.
    pub fn between(&mut self, low: u32, high: u32) -> u32 {
        low + self.below(high - low + 1)
    }

    /// One of these.
    pub fn choose<T: Copy>(&mut self, from: &[T]) -> T {
        from[self.below(from.len() as u32) as usize]
    }

    /// True in so many of a hundred cases.
    pub fn percent(&mut self, percent: u32) -> bool {
        self.below(100) < percent
    }

    /// A mask of ports below `ports`, each in with this many of a hundred.
    pub fn mask(&mut self, ports: u32, percent: u32) -> u32 {
        (0..ports).fold(0, |mask, port| {
            mask | u32::from(self.percent(percent)) << port
        })
    }

    /// A table of so many counts, each 1 to `most` where filled and 0 elsewhere.
    pub fn table(&mut self, places: u32, fill: u32, most: u32) -> Vec<u16> {
        let mut count = || {
            if self.percent(fill) {
                self.between(1, most) as u16
            } else {
                0
            }
        };
        (0..places).map(|_| count()).collect()
    }
}
