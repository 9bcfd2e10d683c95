//! Random numbers that are the same on every machine.

/// SplitMix64.
pub struct Random(u64);

impl Random {
    pub fn new(seed: u64) -> Self {
        Random(seed)
    }

    fn next(&mut self) -> u64 {
        self.0 = self.0.wrapping_add(0x9E37_79B9_7F4A_7C15);
        let z = (self.0 ^ (self.0 >> 30)).wrapping_mul(0xBF58_476D_1CE4_E5B9);
        let z = (z ^ (z >> 27)).wrapping_mul(0x94D0_49BB_1331_11EB);
        z ^ (z >> 31)
    }

    /// A number from `low` to `high`, both included.
    pub fn between(&mut self, low: u32, high: u32) -> u32 {
        let span = u64::from(high) - u64::from(low) + 1;
        // The high half of a product maps the draw to the span without a division.
        let offset = (u128::from(self.next()) * u128::from(span)) >> 64;
        low + offset as u32
    }

    /// A number from `low` to `high` where every octave is as likely as another.
    pub fn octaves(&mut self, low: u32, high: u32) -> u32 {
        loop {
            let top = self.between(low.ilog2(), high.ilog2());
            let number = self.between(1 << top, (1 << top) | ((1 << top) - 1));
            if (low..=high).contains(&number) {
                return number;
            }
        }
    }
}
