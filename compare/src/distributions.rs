//! Random inputs.

use crate::inputs::{Input, USUAL, at_term, multiple};
use crate::random::Random;

/// A way to draw inputs, and its share of a run in hundredths.
pub struct Distribution {
    pub name: &'static str,
    pub share: u64,
    frequency: fn(&mut Random) -> u32,
    /// Draws the source of a place for a frequency.
    source: fn(&mut Random, u32, usize) -> u32,
}

impl Distribution {
    pub fn draw(&self, random: &mut Random) -> Input {
        let frequency = (self.frequency)(random);
        let sources = [0, 1, 2].map(|place| (self.source)(random, frequency, place));
        Input::new(frequency, sources)
    }

    /// A frequency and `length` sources.
    pub fn draw_list(&self, random: &mut Random, length: usize) -> (u32, Vec<u32>) {
        let frequency = (self.frequency)(random);
        let sources = (0..length).map(|place| (self.source)(random, frequency, place));
        (frequency, sources.collect())
    }
}

pub const DISTRIBUTIONS: [Distribution; 6] = [
    Distribution {
        name: "uniform",
        share: 30,
        frequency: |random| random.between(1, u32::MAX),
        source: |random, _, _| random.between(0, u32::MAX),
    },
    Distribution {
        name: "octaves",
        share: 30,
        frequency: |random| random.octaves(1, u32::MAX),
        source: |random, _, _| random.octaves(1, u32::MAX),
    },
    Distribution {
        name: "usual sources",
        share: 15,
        frequency: |random| random.octaves(100_000, 300_000_000),
        source: |_, _, place| USUAL[place % USUAL.len()],
    },
    Distribution {
        name: "near multiples",
        share: 10,
        frequency: |random| random.octaves(1, u32::MAX),
        source: near_multiple,
    },
    Distribution {
        name: "near terms",
        share: 5,
        frequency: |random| random.octaves(1, 1 << 30),
        source: near_term,
    },
    // Few hertz, so that sources often tie.
    Distribution {
        name: "small",
        share: 10,
        frequency: |random| random.between(1, 1_000),
        source: |random, frequency, _| random.between(0, 258 * frequency),
    },
];

fn near_multiple(random: &mut Random, frequency: u32, _: usize) -> u32 {
    let quotient = random.between(0, 258.min(u32::MAX / frequency));
    let offset = i64::from(random.between(0, 4)) - 2;
    multiple(frequency, quotient, offset).unwrap_or(u32::MAX)
}

fn near_term(random: &mut Random, frequency: u32, _: usize) -> u32 {
    let quotient = random.between(2, 256.min(u32::MAX / frequency));
    let denominator = random.between(1, 63);
    let numerator = random.between(0, denominator);
    let offset = i64::from(random.between(0, 2)) - 1;
    let term = (numerator as usize, denominator as usize);
    at_term(frequency, quotient, term, offset).unwrap_or(u32::MAX)
}
