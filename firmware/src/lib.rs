//! The clock divider search of the LCD_CAM module, proved in Rattle and called
//! here through C linkage.

#![no_std]

use core::error::Error;
use core::fmt;

unsafe extern "C" {
    // The search takes and gives plain numbers and touches no memory, so any call
    // is safe.
    safe fn lcd_cam_calculate_clkm(frequency: u32, xtal: u32, pll_d2: u32, crypto: u32) -> u32;
}

/// The clocks that the LCD_CAM module can divide, in hertz.
#[derive(Clone, Copy, Debug, PartialEq, Eq)]
pub struct Sources {
    /// The crystal.
    pub xtal: u32,
    /// PLL_D2.
    pub pll_d2: u32,
    /// The crypto clock.
    pub crypto: u32,
}

impl Sources {
    /// The usual clocks of an ESP32-S3.
    pub const ESP32_S3: Sources = Sources {
        xtal: 40_000_000,
        pll_d2: 240_000_000,
        crypto: 160_000_000,
    };

    /// The frequency of one of the sources, in hertz.
    pub fn frequency(&self, source: Source) -> u32 {
        match source {
            Source::Xtal => self.xtal,
            Source::PllD2 => self.pll_d2,
            Source::Crypto => self.crypto,
        }
    }
}

/// One of the module's sources.
#[derive(Clone, Copy, Debug, PartialEq, Eq)]
pub enum Source {
    Xtal,
    PllD2,
    Crypto,
}

impl Source {
    /// The value of the field LCD_CLK_SEL or CAM_CLK_SEL that selects the source.
    pub fn clk_sel(self) -> u8 {
        match self {
            Source::Xtal => 1,
            Source::PllD2 => 2,
            Source::Crypto => 3,
        }
    }
}

impl fmt::Display for Source {
    fn fmt(&self, f: &mut fmt::Formatter<'_>) -> fmt::Result {
        f.pad(match self {
            Source::Xtal => "crystal",
            Source::PllD2 => "PLL_D2",
            Source::Crypto => "crypto",
        })
    }
}

/// A source and how it is divided: by `div_num + div_b / div_a`.
#[derive(Clone, Copy, Debug, PartialEq, Eq)]
pub struct Setting {
    pub source: Source,
    /// Integral divider. 0 is treated as 256, 1 as 2.
    pub div_num: u8,
    /// Numerator of the fractional divider, at most 63.
    pub div_b: u8,
    /// Denominator of the fractional divider, at most 63. There is no fraction
    /// where it or `div_b` is 0.
    pub div_a: u8,
}

impl Setting {
    /// The clock that the setting makes of `sources`, in whole hertz.
    pub fn output_frequency(&self, sources: &Sources) -> u32 {
        let source = u64::from(sources.frequency(self.source));
        let n = match self.div_num {
            0 => 256,
            1 => 2,
            n => u64::from(n),
        };
        let (b, a) = (u64::from(self.div_b), u64::from(self.div_a));
        let output = if b != 0 && a != 0 {
            source * a / (n * a + b)
        } else {
            source / n
        };
        // n is 2 or more, so the output is at most half of a u32.
        output as u32
    }
}

/// Why there is no setting.
#[derive(Clone, Copy, Debug, PartialEq, Eq)]
pub enum ClockError {
    /// A frequency of 0 was asked for.
    FrequencyZero,
    /// Every source is too fast to be divided to the frequency.
    FrequencyTooLow,
    /// The library answered a word that this crate does not know, so the two do
    /// not belong together.
    UnknownAnswer(u32),
}

impl fmt::Display for ClockError {
    fn fmt(&self, f: &mut fmt::Formatter<'_>) -> fmt::Result {
        match self {
            ClockError::FrequencyZero => f.write_str("the frequency is 0"),
            ClockError::FrequencyTooLow => {
                f.write_str("the frequency is too low for the dividers to divide to")
            }
            ClockError::UnknownAnswer(word) => {
                write!(
                    f,
                    "the clock library answered an unknown word, {word:#010x}"
                )
            }
        }
    }
}

impl Error for ClockError {}

/// The setting whose clock comes closest to `frequency` from below.
pub fn calculate_clkm(frequency: u32, sources: Sources) -> Result<Setting, ClockError> {
    let Sources {
        xtal,
        pll_d2,
        crypto,
    } = sources;
    unpack(lcd_cam_calculate_clkm(frequency, xtal, pll_d2, crypto))
}

/// Reads an answer: bits 0-7 `div_num`, 8-13 `div_b`, 14-19 `div_a`, 20-21 the
/// source counted from 1, or bit 31 and the number of a refusal.
fn unpack(word: u32) -> Result<Setting, ClockError> {
    const REFUSED: u32 = 1 << 31;
    const FREQUENCY_ZERO: u32 = REFUSED + 1;
    const FREQUENCY_TOO_LOW: u32 = REFUSED + 3;

    let source = match word >> 20 {
        1 => Source::Xtal,
        2 => Source::PllD2,
        3 => Source::Crypto,
        _ => {
            return Err(match word {
                FREQUENCY_ZERO => ClockError::FrequencyZero,
                FREQUENCY_TOO_LOW => ClockError::FrequencyTooLow,
                _ => ClockError::UnknownAnswer(word),
            });
        }
    };
    Ok(Setting {
        source,
        div_num: word as u8,
        div_b: (word >> 8) as u8 & 0x3f,
        div_a: (word >> 14) as u8 & 0x3f,
    })
}

#[cfg(test)]
mod tests {
    use super::*;

    #[test]
    fn every_field_is_unpacked_alone() {
        let nothing = Setting {
            source: Source::Xtal,
            div_num: 0,
            div_b: 0,
            div_a: 0,
        };
        let xtal = 1 << 20;
        assert_eq!(unpack(xtal), Ok(nothing));
        assert_eq!(
            unpack(xtal | 0xff),
            Ok(Setting {
                div_num: 255,
                ..nothing
            })
        );
        assert_eq!(
            unpack(xtal | 0x3f << 8),
            Ok(Setting {
                div_b: 63,
                ..nothing
            })
        );
        assert_eq!(
            unpack(xtal | 0x3f << 14),
            Ok(Setting {
                div_a: 63,
                ..nothing
            })
        );
        assert_eq!(
            unpack(2 << 20),
            Ok(Setting {
                source: Source::PllD2,
                ..nothing
            })
        );
        assert_eq!(
            unpack(3 << 20),
            Ok(Setting {
                source: Source::Crypto,
                ..nothing
            })
        );
    }

    #[test]
    fn all_fields_are_unpacked_together() {
        let setting = Setting {
            source: Source::PllD2,
            div_num: 9,
            div_b: 3,
            div_a: 13,
        };
        assert_eq!(unpack(2 << 20 | 13 << 14 | 3 << 8 | 9), Ok(setting));
    }

    #[test]
    fn refusals_are_unpacked() {
        assert_eq!(unpack(2_147_483_649), Err(ClockError::FrequencyZero));
        assert_eq!(unpack(2_147_483_651), Err(ClockError::FrequencyTooLow));
    }

    #[test]
    fn other_words_are_no_setting() {
        // No source, a refusal without or with another number, a spare bit, and a
        // refusal that holds a setting too.
        for word in [
            0,
            0xf_ffff,
            1 << 31,
            (1 << 31) + 2,
            (1 << 31) + 4,
            1 << 22,
            1 << 31 | 1 << 20,
            u32::MAX,
        ] {
            assert_eq!(unpack(word), Err(ClockError::UnknownAnswer(word)));
        }
    }
}
