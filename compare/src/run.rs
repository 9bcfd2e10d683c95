//! Holds our search against esp-hal's with the two lines put right, and counts
//! what the published lines cost.

use std::process::ExitCode;

use compare::boundary::{
    FREQUENCY_ZERO, describe, esp_hal_corrected, esp_hal_published, lcd_cam_calculate_clkm,
};
use compare::distributions::DISTRIBUTIONS;
use compare::inputs::{Input, USUAL, boundaries, panels};
use compare::random::Random;
use compare::search::{corrected, narrow};
use compare::tally::Tally;

const COUNT: u64 = 10_000_000;
const SEED: u64 = 1;

fn main() -> ExitCode {
    let mut words = std::env::args().skip(1);
    let count = number(words.next(), COUNT);
    let seed = number(words.next(), SEED);
    match compare(count, seed) {
        Ok(inputs) => {
            println!("compare: {inputs} inputs, 0 differences");
            ExitCode::SUCCESS
        }
        Err(input) => {
            report_difference(shrink(input));
            ExitCode::FAILURE
        }
    }
}

fn number(word: Option<String>, default: u64) -> u64 {
    word.map_or(default, |word| {
        word.parse().expect("COUNT and SEED are whole numbers")
    })
}

/// The number of inputs compared, or the first on which the searches differ.
fn compare(count: u64, seed: u64) -> Result<u64, Input> {
    print_13_mhz();
    print_32_bits();

    let mut inputs = 0;
    for input in boundaries() {
        check(input)?;
        inputs += 1;
    }
    println!("boundaries: {inputs} inputs, no difference");

    println!("random: {count} inputs, seed: {seed}");
    let mut random = Random::new(seed);
    let mut all = Tally::default();
    for distribution in DISTRIBUTIONS {
        let mut tally = Tally::default();
        for _ in 0..count * distribution.share / 100 {
            let input = distribution.draw(&mut random);
            check(input)?;
            tally.count(input);
            progress(inputs + tally.inputs);
        }
        inputs += tally.inputs;
        tally.print(distribution.name);
        all.add(tally);
    }
    all.print("all random");
    all.print_worst("all random");

    let mut tally = Tally::default();
    panels().for_each(|input| tally.count(input));
    let [xtal, pll_d2, crypto] = USUAL;
    println!("panel clocks of whole kHz, 78 kHz to 60 MHz, sources {xtal} {pll_d2} {crypto}");
    tally.print("panel clocks");
    tally.print_worst("panel clocks");

    Ok(inputs)
}

/// The panel that asks for 13 MHz, and so for a clock of 26 MHz.
fn print_13_mhz() {
    let input = Input::new(26_000_000, USUAL);
    let [xtal, pll_d2, crypto] = input.sources;
    println!("a panel of 13 MHz: {input}");
    println!(
        "  published: {}",
        describe(esp_hal_published(input.frequency, xtal, pll_d2, crypto))
    );
    println!("  put right: {}", describe(expected(input)));
    println!("  ours:      {}", describe(ours(input)));
}

/// A frequency at which a product of the search does not fit a `usize` of 32 bits.
fn print_32_bits() {
    let input = Input::new(80_000_021, USUAL);
    println!("a usize of 32 bits: {input}");
    for (bits, setting) in [
        (32, narrow::search(input.frequency, &input.sources)),
        (
            64,
            corrected::search(input.frequency as usize, &input.slice()),
        ),
    ] {
        let Some(setting) = setting else { continue };
        let hertz = corrected::hertz(&input.slice(), setting);
        println!("  put right, {bits} bits: {setting}, {hertz} Hz");
    }
}

fn check(input: Input) -> Result<(), Input> {
    if ours(input) == expected(input) {
        Ok(())
    } else {
        Err(input)
    }
}

fn ours(input: Input) -> u32 {
    let [xtal, pll_d2, crypto] = input.sources;
    lcd_cam_calculate_clkm(input.frequency, xtal, pll_d2, crypto)
}

fn expected(input: Input) -> u32 {
    // esp-hal divides by the frequency before it looks at it.
    if input.frequency == 0 {
        return FREQUENCY_ZERO;
    }
    let [xtal, pll_d2, crypto] = input.sources;
    esp_hal_corrected(input.frequency, xtal, pll_d2, crypto)
}

fn progress(inputs: u64) {
    if inputs.is_multiple_of(1_000_000) {
        eprintln!("  {inputs} inputs");
    }
}

/// Makes the numbers of a differing input smaller while it still differs.
fn shrink(mut input: Input) -> Input {
    const STEPS: usize = 100_000;
    for _ in 0..STEPS {
        match smaller(input).find(|&input| check(input).is_err()) {
            Some(found) => input = found,
            None => break,
        }
    }
    input
}

fn smaller(input: Input) -> impl Iterator<Item = Input> {
    let less = |number: u32| (0..32).map(move |shift| number - (number >> shift));
    let frequencies = less(input.frequency).map(move |frequency| Input { frequency, ..input });
    let sources = (0..3).flat_map(move |place| {
        less(input.sources[place]).map(move |source| {
            let mut sources = input.sources;
            sources[place] = source;
            Input { sources, ..input }
        })
    });
    frequencies
        .chain(sources)
        .filter(move |&less| less != input)
}

fn report_difference(input: Input) {
    println!("difference: {input}");
    println!("  esp-hal, put right: {}", describe(expected(input)));
    println!("  ours:               {}", describe(ours(input)));
}
