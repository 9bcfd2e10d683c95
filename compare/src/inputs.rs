//! Inputs for the C boundary, and every boundary of the search among them.

use std::fmt;

use crate::search::corrected;

/// The crystal, PLL_D2 and the crypto clock of an ESP32-S3 in hertz.
pub const USUAL: [u32; 3] = [40_000_000, 240_000_000, 160_000_000];

#[derive(Clone, Copy, Debug, PartialEq, Eq)]
pub struct Input {
    pub frequency: u32,
    pub sources: [u32; 3],
}

impl Input {
    pub fn new(frequency: u32, sources: [u32; 3]) -> Self {
        Input { frequency, sources }
    }

    /// The sources as esp-hal takes them.
    pub fn slice(&self) -> [usize; 3] {
        self.sources.map(|source| source as usize)
    }
}

impl fmt::Display for Input {
    fn fmt(&self, f: &mut fmt::Formatter<'_>) -> fmt::Result {
        let [xtal, pll_d2, crypto] = self.sources;
        write!(f, "clock {} {xtal} {pll_d2} {crypto}", self.frequency)
    }
}

/// Frequencies at which something ends: small ones, those around a power of two,
/// the last with 257 times itself in a u32, the usual panels, the last numbers.
pub const FREQUENCIES: [u32; 36] = [
    1,
    2,
    3,
    4,
    5,
    7,
    10,
    61,
    62,
    63,
    64,
    65,
    100,
    255,
    256,
    257,
    1_000,
    65_535,
    65_536,
    65_537,
    155_642,
    155_643,
    155_644,
    1_000_003,
    13_333_333,
    16_711_935,
    16_711_936,
    26_000_000,
    68_174_085,
    1_431_655_765,
    2_147_483_646,
    2_147_483_647,
    2_147_483_648,
    2_147_483_649,
    4_294_967_294,
    4_294_967_295,
];

/// The ends of u32 and of its halves.
pub const ENDS: [u32; 9] = [
    0,
    1,
    2,
    3,
    2_147_483_647,
    2_147_483_648,
    2_147_483_649,
    4_294_967_294,
    4_294_967_295,
];

/// `quotient` times the frequency, plus `offset`, where that is a u32.
pub fn multiple(frequency: u32, quotient: u32, offset: i64) -> Option<u32> {
    u32::try_from(i64::from(frequency) * i64::from(quotient) + offset).ok()
}

/// The source whose remainder is `offset` past `term` of the frequency, rounded
/// down, where that is a u32.
pub fn at_term(frequency: u32, quotient: u32, term: (usize, usize), offset: i64) -> Option<u32> {
    let (numerator, denominator) = term;
    let part = i64::from(frequency) * numerator as i64 / denominator as i64;
    multiple(frequency, quotient, part + offset)
}

/// Every boundary of the search.
pub fn boundaries() -> Vec<Input> {
    let mut inputs = Vec::new();
    multiples(&mut inputs);
    terms(&mut inputs);
    ends(&mut inputs);
    too_fast(&mut inputs);
    ties(&mut inputs);
    usual(&mut inputs);
    inputs
}

/// Puts one source where it decides alone: in each place, beside sources that
/// are too fast, that are silent, and that are the same.
fn alone(inputs: &mut Vec<Input>, frequency: u32, source: u32) {
    let fast = u32::MAX;
    for others in [fast, 0, source] {
        for place in 0..3 {
            let mut sources = [others; 3];
            sources[place] = source;
            inputs.push(Input::new(frequency, sources));
        }
    }
}

fn multiples(inputs: &mut Vec<Input>) {
    for frequency in FREQUENCIES {
        for quotient in 0..=258 {
            for offset in -2..=2 {
                if let Some(source) = multiple(frequency, quotient, offset) {
                    alone(inputs, frequency, source);
                }
            }
        }
    }
}

fn terms(inputs: &mut Vec<Input>) {
    for frequency in [
        63,
        64,
        3_969,
        155_644,
        1_000_003,
        16_711_935,
        26_000_000,
        1_431_655_765,
    ] {
        for quotient in [2, 3, 9, 128, 255, 256] {
            for (place, term) in corrected::terms().enumerate() {
                for offset in -1..=2 {
                    let Some(source) = at_term(frequency, quotient, term, offset) else {
                        continue;
                    };
                    let mut sources = [u32::MAX; 3];
                    sources[place % 3] = source;
                    inputs.push(Input::new(frequency, sources));
                }
            }
        }
    }
}

fn ends(inputs: &mut Vec<Input>) {
    for frequency in ENDS
        .into_iter()
        .chain([16_711_934, 16_711_935, 16_711_936, 16_711_937])
    {
        for xtal in ENDS {
            for pll_d2 in ENDS {
                for crypto in ENDS {
                    inputs.push(Input::new(frequency, [xtal, pll_d2, crypto]));
                }
            }
        }
    }
}

fn too_fast(inputs: &mut Vec<Input>) {
    for frequency in FREQUENCIES {
        let around: Vec<u32> = (-2..=2)
            .filter_map(|offset| multiple(frequency, 257, offset))
            .collect();
        for &xtal in &around {
            for &pll_d2 in &around {
                for &crypto in &around {
                    inputs.push(Input::new(frequency, [xtal, pll_d2, crypto]));
                }
            }
        }
    }
}

/// Sources that reach the frequency exactly, one just off it, and one that gives
/// as many whole hertz from a lower divisor: the earlier must win.
fn ties(inputs: &mut Vec<Input>) {
    for frequency in FREQUENCIES {
        let mut level: Vec<u32> = Vec::new();
        for quotient in [1, 2, 3, 4, 63, 128, 255, 256, 257] {
            level.extend((-1..=1).filter_map(|offset| multiple(frequency, quotient, offset)));
        }
        for &xtal in &level {
            for &pll_d2 in &level {
                for crypto in [xtal, pll_d2, u32::MAX, 0] {
                    inputs.push(Input::new(frequency, [xtal, pll_d2, crypto]));
                }
            }
        }
    }
}

fn usual(inputs: &mut Vec<Input>) {
    for source in USUAL {
        for quotient in 1..=258 {
            for offset in -2..=2 {
                let frequency = (i64::from(source / quotient) + offset) as u32;
                inputs.push(Input::new(frequency, USUAL));
            }
        }
    }
    inputs.extend(panels());
}

/// Every panel clock of whole kilohertz from the lowest that the usual sources
/// can serve to 60 MHz, where the fastest of them is divided by 2. A panel runs
/// at half of what is searched.
pub fn panels() -> impl Iterator<Item = Input> {
    (78..=60_000).map(|kilohertz| Input::new(2_000 * kilohertz, USUAL))
}
