//! esp-hal's search three times: as published, with the two exchanged lines of
//! `calculate_output_frequency` put right, and so once more with a `usize` of 32
//! bits, as the chip has it.

use std::fmt;

/// A setting, and the index of the source it divides.
#[derive(Clone, Copy, Debug, PartialEq, Eq)]
pub struct Setting {
    pub source: usize,
    pub div_num: usize,
    pub div_b: usize,
    pub div_a: usize,
}

impl fmt::Display for Setting {
    fn fmt(&self, f: &mut fmt::Formatter<'_>) -> fmt::Result {
        let Setting {
            source,
            div_num,
            div_b,
            div_a,
        } = self;
        write!(
            f,
            "source {source} div_num {div_num} div_b {div_b} div_a {div_a}"
        )
    }
}

// esp-hal's own macro chooses between defmt and core; the search uses one form.
macro_rules! unwrap {
    ($option:expr, $message:literal) => {
        $option.expect($message)
    };
}

macro_rules! search {
    ($name:ident, $file:literal, $number:ty) => {
        pub mod $name {
            use super::Setting;

            include!(concat!(env!("COMPARE_OUT"), "/", $file));

            /// The search's setting, or `None` where it refuses.
            pub fn search(frequency: $number, sources: &[$number]) -> Option<Setting> {
                match calculate_clkm(frequency, sources) {
                    Ok((
                        source,
                        ClockDivider {
                            div_num,
                            div_b,
                            div_a,
                        },
                    )) => Some(Setting {
                        source,
                        div_num: div_num as usize,
                        div_b: div_b as usize,
                        div_a: div_a as usize,
                    }),
                    Err(ClockError::FrequencyTooLow) => None,
                }
            }

            /// The whole hertz that the search reckons with for a setting.
            pub fn hertz(sources: &[$number], setting: Setting) -> $number {
                let Setting {
                    source,
                    div_num,
                    div_b,
                    div_a,
                } = setting;
                calculate_output_frequency(
                    sources[source],
                    &ClockDivider {
                        div_num: div_num as $number,
                        div_b: div_b as $number,
                        div_a: div_a as $number,
                    },
                )
            }

            /// The terms that the search walks, numerator first.
            pub fn terms() -> impl Iterator<Item = ($number, $number)> {
                farey_sequence(63).map(|term| (term.numerator, term.denominator))
            }
        }
    };
}

search!(published, "published.rs", usize);
search!(corrected, "corrected.rs", usize);
search!(narrow, "narrow.rs", u32);

/// The place of the setting's fraction among the terms, from 1; 0 where the
/// setting has none.
pub fn count(setting: Setting) -> usize {
    let fraction = (setting.div_b, setting.div_a);
    if fraction == (0, 0) {
        return 0;
    }
    let place = corrected::terms().position(|term| term == fraction);
    place.expect("a setting's fraction is a term") + 1
}
