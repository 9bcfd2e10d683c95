//! The search as the firmware calls it.

use firmware::{ClockError, Setting, Source, Sources, calculate_clkm};

const SOURCES: Sources = Sources::ESP32_S3;

fn setting(source: Source, div_num: u8, div_b: u8, div_a: u8) -> Setting {
    Setting {
        source,
        div_num,
        div_b,
        div_a,
    }
}

fn same(frequency: u32) -> Sources {
    Sources {
        xtal: frequency,
        pll_d2: frequency,
        crypto: frequency,
    }
}

/// What is set for a panel, which runs at half of the clock that is searched for.
fn panel(frequency: u32) -> Result<Setting, ClockError> {
    calculate_clkm(2 * frequency, SOURCES)
}

#[test]
fn a_13_mhz_panel_runs_at_13_mhz() {
    let found = panel(13_000_000).unwrap();
    assert_eq!(found, setting(Source::PllD2, 9, 3, 13));
    assert_eq!(found.output_frequency(&SOURCES), 26_000_000);
}

#[test]
fn a_24_mhz_clock_needs_no_fraction() {
    let found = calculate_clkm(24_000_000, SOURCES).unwrap();
    assert_eq!(found, setting(Source::PllD2, 10, 0, 0));
    assert_eq!(found.output_frequency(&SOURCES), 24_000_000);
}

#[test]
fn the_lowest_panel_takes_the_greatest_divisor() {
    assert_eq!(panel(77_821), Err(ClockError::FrequencyTooLow));
    let found = panel(77_822).unwrap();
    assert_eq!(found, setting(Source::Xtal, 0, 1, 1));
    assert_eq!(found.output_frequency(&SOURCES), 40_000_000 / 257);
}

#[test]
fn a_frequency_of_0_is_refused() {
    assert_eq!(calculate_clkm(0, SOURCES), Err(ClockError::FrequencyZero));
    assert_eq!(calculate_clkm(0, same(0)), Err(ClockError::FrequencyZero));
    assert_eq!(
        calculate_clkm(0, same(u32::MAX)),
        Err(ClockError::FrequencyZero)
    );
}

#[test]
fn sources_that_are_all_too_fast_are_refused() {
    assert_eq!(
        calculate_clkm(1_000_000, same(257_000_000)),
        Err(ClockError::FrequencyTooLow)
    );
    assert!(calculate_clkm(1_000_000, same(256_999_999)).is_ok());
    assert_eq!(
        calculate_clkm(1, same(u32::MAX)),
        Err(ClockError::FrequencyTooLow)
    );
}

#[test]
fn one_source_that_serves_is_enough() {
    let sources = Sources {
        xtal: u32::MAX,
        pll_d2: u32::MAX,
        crypto: 100,
    };
    assert_eq!(
        calculate_clkm(1, sources),
        Ok(setting(Source::Crypto, 100, 0, 0))
    );
}

#[test]
fn the_earlier_source_wins_a_tie() {
    let tie = Sources {
        xtal: 2_000,
        pll_d2: 3_000,
        crypto: 4_000,
    };
    assert_eq!(
        calculate_clkm(1_000, tie),
        Ok(setting(Source::Xtal, 2, 0, 0))
    );
    let later = Sources { xtal: 1_999, ..tie };
    assert_eq!(
        calculate_clkm(1_000, later),
        Ok(setting(Source::PllD2, 3, 0, 0))
    );
}

#[test]
fn the_ends_of_u32_are_answered() {
    let slow = calculate_clkm(u32::MAX, same(u32::MAX)).unwrap();
    assert_eq!(slow, setting(Source::Xtal, 1, 0, 0));
    assert_eq!(slow.output_frequency(&same(u32::MAX)), u32::MAX / 2);

    let silent = calculate_clkm(u32::MAX, same(0)).unwrap();
    assert_eq!(silent, setting(Source::Xtal, 1, 0, 0));
    assert_eq!(silent.output_frequency(&same(0)), 0);

    // 257 times 16711935 is the last u32.
    assert_eq!(
        calculate_clkm(16_711_935, same(u32::MAX)),
        Err(ClockError::FrequencyTooLow)
    );
    let widest = calculate_clkm(16_711_936, same(u32::MAX)).unwrap();
    assert_eq!(widest, setting(Source::Xtal, 0, 1, 1));
    assert_eq!(widest.output_frequency(&same(u32::MAX)), 16_711_935);
}

#[test]
fn the_output_uses_a_fraction_only_where_there_is_one() {
    let output = |div_num, div_b, div_a| {
        setting(Source::Xtal, div_num, div_b, div_a).output_frequency(&SOURCES)
    };
    assert_eq!(output(0, 0, 0), 156_250);
    assert_eq!(output(1, 0, 0), 20_000_000);
    assert_eq!(output(2, 0, 0), 20_000_000);
    assert_eq!(output(2, 0, 63), 20_000_000);
    assert_eq!(output(2, 63, 0), 20_000_000);
    assert_eq!(output(2, 1, 2), 16_000_000);
}

#[test]
fn errors_say_what_is_wrong() {
    assert_eq!(ClockError::FrequencyZero.to_string(), "the frequency is 0");
    assert_eq!(
        ClockError::UnknownAnswer(0).to_string(),
        "the clock library answered an unknown word, 0x00000000"
    );
}
