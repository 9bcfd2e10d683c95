//! The story of the 13 MHz panel.

use std::error::Error;

use firmware::{Setting, Source, Sources, calculate_clkm};

/// LCD_PCLK is half of the clock that is searched for: the ESP32-S3's errata ask
/// for a pixel divider of at least 2, so the drivers double what a panel asks.
const PIXEL_DIVIDER: u32 = 2;

/// What esp-hal 1.0.0 sets for this panel, recorded. `compare/run` runs esp-hal's
/// own search and shows the answer again.
const PUBLISHED: Setting = Setting {
    source: Source::Xtal,
    div_num: 1,
    div_b: 0,
    div_a: 0,
};

fn main() -> Result<(), Box<dyn Error>> {
    let sources = Sources::ESP32_S3;
    let panel = 13_000_000;
    let frequency = PIXEL_DIVIDER * panel;
    let ours = calculate_clkm(frequency, sources)?;

    println!("A panel asks for {panel} Hz, so {frequency} Hz is searched for.");
    println!();
    println!(
        "{:<14}{:<9}{:>8}{:>7}{:>7}{:>12}{:>12}",
        "", "source", "div_num", "div_b", "div_a", "clock, Hz", "panel, Hz"
    );
    print_setting("esp-hal 1.0.0", &PUBLISHED, &sources);
    print_setting("ours", &ours, &sources);
    Ok(())
}

fn print_setting(name: &str, setting: &Setting, sources: &Sources) {
    let Setting {
        source,
        div_num,
        div_b,
        div_a,
    } = setting;
    let clock = setting.output_frequency(sources);
    let panel = clock / PIXEL_DIVIDER;
    println!("{name:<14}{source:<9}{div_num:>8}{div_b:>7}{div_a:>7}{clock:>12}{panel:>12}");
}
