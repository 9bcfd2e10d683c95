//! Calls one search through the C boundary, for an instruction counter to watch.

use std::hint::black_box;

use compare::boundary::{Search, esp_hal_corrected, esp_hal_published, lcd_cam_calculate_clkm};
use compare::inputs::USUAL;
use compare::random::Random;

const SEED: u64 = 3;
const RANDOM_CALLS: usize = 10_000;
const WORST_CALLS: usize = 1_000;

/// The lowest frequency that the usual sources can serve.
const LOWEST: u32 = 155_644;
/// The highest at which both fast sources are still divided by 2 or more.
const HIGHEST: u32 = 80_000_000;
/// The highest at which the crystal, the slowest, is still divided by 2 or more.
const ALL_WALK: u32 = 20_000_000;

fn main() {
    let words: Vec<String> = std::env::args().skip(1).collect();
    let words: Vec<&str> = words.iter().map(String::as_str).collect();
    match words[..] {
        ["calls"] => println!("{RANDOM_CALLS} {WORST_CALLS}"),
        ["find-worst"] => println!("{}", find_worst()),
        ["random", search] => {
            let mut random = Random::new(SEED);
            run(
                search,
                (0..RANDOM_CALLS).map(|_| random.octaves(LOWEST, HIGHEST)),
            );
        }
        ["worst", search, frequency] => {
            let frequency = frequency.parse().expect("a frequency in hertz");
            run(search, std::iter::repeat_n(frequency, WORST_CALLS));
        }
        _ => panic!("usage: bench calls | find-worst | random SEARCH | worst SEARCH FREQUENCY"),
    }
}

fn run(search: &str, frequencies: impl Iterator<Item = u32>) {
    let search: Search = match search {
        "none" => no_search,
        "ours" => lcd_cam_calculate_clkm,
        "published" => esp_hal_published,
        "corrected" => esp_hal_corrected,
        _ => panic!("no search is called {search}"),
    };
    // Drawn before the calls, so that drawing costs the same whatever is called.
    let frequencies: Vec<u32> = frequencies.collect();
    let [xtal, pll_d2, crypto] = black_box(USUAL);
    for frequency in frequencies {
        black_box(search(frequency, xtal, pll_d2, crypto));
    }
}

extern "C" fn no_search(frequency: u32, _xtal: u32, _pll_d2: u32, _crypto: u32) -> u32 {
    frequency
}

/// The frequency that costs esp-hal most over the usual sources: all three walk
/// to the last fraction, and the Euclidean algorithm takes the most steps.
fn find_worst() -> u32 {
    (LOWEST..=ALL_WALK)
        .filter(|&frequency| {
            USUAL
                .iter()
                .all(|&source| walks_to_the_end(source, frequency))
        })
        .max_by_key(|&frequency| -> u32 {
            USUAL
                .iter()
                .map(|&source| hcf_steps(source % frequency, frequency))
                .sum()
        })
        .expect("some frequency has three full walks")
}

/// Whether the remainder lies between the last two fractions, 62/63 and 1/1.
fn walks_to_the_end(source: u32, frequency: u32) -> bool {
    (2..=256).contains(&(source / frequency))
        && 63 * u64::from(source % frequency) > 62 * u64::from(frequency)
}

fn hcf_steps(a: u32, b: u32) -> u32 {
    if b != 0 { 1 + hcf_steps(b, a % b) } else { 0 }
}
