//! The C boundary: four numbers in, one packed word out.

use crate::search::{Setting, corrected, published};

pub const FREQUENCY_ZERO: u32 = (1 << 31) + 1;
pub const FREQUENCY_TOO_LOW: u32 = (1 << 31) + 3;

/// A search behind the C boundary.
pub type Search = extern "C" fn(u32, u32, u32, u32) -> u32;

unsafe extern "C" {
    /// Our search, from the static library. It takes and gives plain numbers, so
    /// any call is safe.
    pub safe fn lcd_cam_calculate_clkm(frequency: u32, xtal: u32, pll_d2: u32, crypto: u32) -> u32;
}

/// esp-hal's search as published, behind the boundary of ours.
#[unsafe(no_mangle)]
pub extern "C" fn esp_hal_published(frequency: u32, xtal: u32, pll_d2: u32, crypto: u32) -> u32 {
    pack(published::search(
        frequency as usize,
        &[xtal as usize, pll_d2 as usize, crypto as usize],
    ))
}

/// esp-hal's search with the two lines put right, behind the boundary of ours.
#[unsafe(no_mangle)]
pub extern "C" fn esp_hal_corrected(frequency: u32, xtal: u32, pll_d2: u32, crypto: u32) -> u32 {
    pack(corrected::search(
        frequency as usize,
        &[xtal as usize, pll_d2 as usize, crypto as usize],
    ))
}

fn pack(setting: Option<Setting>) -> u32 {
    match setting {
        Some(Setting {
            source,
            div_num,
            div_b,
            div_a,
        }) => (div_num | div_b << 8 | div_a << 14 | (source + 1) << 20) as u32,
        None => FREQUENCY_TOO_LOW,
    }
}

/// A word of the C boundary as text.
pub fn describe(word: u32) -> String {
    match word {
        FREQUENCY_ZERO => "refused 1".to_string(),
        FREQUENCY_TOO_LOW => "refused 3".to_string(),
        _ => match unpack(word) {
            Some(setting) => setting.to_string(),
            None => format!("no answer: word {word:#010x}"),
        },
    }
}

/// The setting that a word holds, or `None` for a refusal or no lawful word.
pub fn unpack(word: u32) -> Option<Setting> {
    let field = |low: u32, bits: u32| (word >> low & ((1 << bits) - 1)) as usize;
    let source = field(20, 2).checked_sub(1)?;
    if word >> 22 != 0 {
        return None;
    }
    Some(Setting {
        source,
        div_num: field(0, 8),
        div_b: field(8, 6),
        div_a: field(14, 6),
    })
}
