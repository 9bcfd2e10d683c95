//! Writes the recorded list: questions to one file, esp-hal's answers to another.

use std::fmt::{self, Write as _};
use std::fs;

use compare::distributions::DISTRIBUTIONS;
use compare::inputs::{ENDS, USUAL, at_term, multiple};
use compare::random::Random;
use compare::search::{corrected, count};

const SEED: u64 = 2;

const HEAD: &str = "\
# Questions to the clock search, written by compare/record. Do not edit.
# The answers in stdout are those of the search in esp-hal 1.0.0's lcd_cam/mod.rs,
# with the two exchanged lines of its calculate_output_frequency put right.
# Random questions are drawn with a fixed seed.
";

fn main() {
    let paths: Vec<String> = std::env::args().skip(1).collect();
    let [questions, answers] = paths.as_slice() else {
        panic!("usage: record QUESTIONS ANSWERS");
    };
    let mut list = List::new();
    write_list(&mut list).expect("a string takes all text");
    fs::write(questions, &list.questions).expect("cannot write the questions");
    fs::write(answers, &list.answers).expect("cannot write the answers");

    let last = corrected::terms().last().expect("the sequence has terms");
    println!(
        "record: {} questions, {} of them refused",
        list.asked, list.refused
    );
    println!(
        "record: farey_sequence(63) has {} terms, the last {}/{}",
        corrected::terms().count(),
        last.0,
        last.1
    );
}

fn write_list(list: &mut List) -> fmt::Result {
    no_source(list)?;
    multiples(list)?;
    every_term(list)?;
    around_terms(list)?;
    ends(list)?;
    too_fast(list)?;
    ties(list)?;
    usual_sources(list)?;
    random(list)
}

struct List {
    questions: String,
    answers: String,
    asked: usize,
    refused: usize,
}

impl List {
    fn new() -> Self {
        List {
            questions: HEAD.to_string(),
            answers: String::new(),
            asked: 0,
            refused: 0,
        }
    }

    fn about(&mut self, text: &str) -> fmt::Result {
        writeln!(self.questions, "\n# {text}")
    }

    fn ask(&mut self, frequency: u32, sources: &[u32]) -> fmt::Result {
        write!(self.questions, "clock {frequency}")?;
        for source in sources {
            write!(self.questions, " {source}")?;
        }
        writeln!(self.questions)?;
        self.asked += 1;
        let sources: Vec<usize> = sources.iter().map(|&source| source as usize).collect();
        self.answer(frequency as usize, &sources)
    }

    fn answer(&mut self, frequency: usize, sources: &[usize]) -> fmt::Result {
        let Some(setting) = corrected::search(frequency, sources) else {
            self.refused += 1;
            return writeln!(self.answers, "refused 3");
        };
        let count = count(setting);
        let hertz = corrected::hertz(sources, setting);
        writeln!(self.answers, "{setting} count {count} hertz {hertz}")
    }
}

fn no_source(list: &mut List) -> fmt::Result {
    list.about("No source.")?;
    for frequency in [1, 2, 155_644, 26_000_000, 2_147_483_648, u32::MAX] {
        list.ask(frequency, &[])?;
    }
    Ok(())
}

fn multiples(list: &mut List) -> fmt::Result {
    list.about("One source around a multiple of the frequency.")?;
    for frequency in [
        1,
        2,
        63,
        1_000,
        155_644,
        16_711_935,
        26_000_000,
        1_431_655_765,
        u32::MAX,
    ] {
        for quotient in [0, 1, 2, 3, 4, 128, 254, 255, 256, 257, 258] {
            for offset in -2..=2 {
                if let Some(source) = multiple(frequency, quotient, offset) {
                    list.ask(frequency, &[source])?;
                }
            }
        }
    }
    Ok(())
}

fn every_term(list: &mut List) -> fmt::Result {
    list.about("Each fraction met exactly, by one source of one to six; the others are too fast.")?;
    for (place, term) in corrected::terms().enumerate() {
        let frequency = (1_000 + place as u32) * term.1 as u32;
        let quotient = 2 + place as u32 % 255;
        let source = at_term(frequency, quotient, term, 0).expect("the source is a u32");
        let mut sources = vec![u32::MAX; 1 + place % 6];
        let serving = place / 6 % sources.len();
        sources[serving] = source;
        list.ask(frequency, &sources)?;
    }
    Ok(())
}

fn around_terms(list: &mut List) -> fmt::Result {
    list.about("Remainders just below, at and just above a fraction of the frequency.")?;
    for (place, term) in corrected::terms().enumerate().step_by(7) {
        let frequency = [3_969, 1_000_003, 16_711_935][place % 3];
        let quotient = 2 + (31 * place as u32) % 255;
        for offset in -1..=1 {
            let source = at_term(frequency, quotient, term, offset).expect("the source is a u32");
            list.ask(frequency, &[source])?;
        }
    }
    Ok(())
}

fn ends(list: &mut List) -> fmt::Result {
    list.about("The ends of the numbers.")?;
    for frequency in ENDS.into_iter().filter(|&frequency| frequency != 0) {
        for source in ENDS {
            list.ask(frequency, &[source])?;
        }
    }
    for frequency in [1, 2_147_483_648, u32::MAX] {
        for first in ENDS {
            for second in ENDS {
                list.ask(frequency, &[first, second])?;
            }
        }
    }
    Ok(())
}

fn too_fast(list: &mut List) -> fmt::Result {
    list.about("Every source too fast, and all but the last.")?;
    for frequency in [1, 63, 155_642, 155_643, 1_000_000, 16_711_935] {
        for length in 1..=6 {
            let mut sources = vec![257 * frequency; length];
            list.ask(frequency, &sources)?;
            sources[length - 1] -= 1;
            list.ask(frequency, &sources)?;
        }
    }
    Ok(())
}

fn ties(list: &mut List) -> fmt::Result {
    list.about("As many whole hertz from several sources.")?;
    for frequency in [1, 7, 1_000, 1_000_003, 16_711_935] {
        for length in 2..=6 {
            let mut sources: Vec<u32> = (2..2 + length).map(|factor| factor * frequency).collect();
            for _ in 0..length {
                list.ask(frequency, &sources)?;
                sources.rotate_left(1);
            }
            // A hertz less of the first source leaves the tie to the others.
            sources[0] -= 1;
            list.ask(frequency, &sources)?;
        }
    }
    list.about("Equal sources.")?;
    for frequency in [1, 7, 1_000, 1_000_003] {
        let sources = [
            0,
            frequency,
            2 * frequency + 1,
            256 * frequency,
            257 * frequency - 1,
        ];
        for source in sources {
            for length in 2..=6 {
                list.ask(frequency, &vec![source; length])?;
            }
        }
    }
    Ok(())
}

fn usual_sources(list: &mut List) -> fmt::Result {
    list.about("Panel clocks of whole megahertz, searched at twice their frequency.")?;
    for megahertz in 1..=65 {
        list.ask(2_000_000 * megahertz, &USUAL)?;
    }
    list.about("The lowest panel clocks.")?;
    for panel in [1, 77_820, 77_821, 77_822, 77_823, 78_000] {
        list.ask(2 * panel, &USUAL)?;
    }
    list.about("The usual sources where one of them reaches a whole divisor.")?;
    for source in USUAL {
        for quotient in [1, 2, 3, 4, 5, 7, 9, 63, 64, 128, 255, 256, 257] {
            for offset in 0..=2 {
                list.ask(source / quotient - 1 + offset, &USUAL)?;
            }
        }
    }
    list.about("The usual sources in other orders, and some of them.")?;
    let [xtal, pll_d2, crypto] = USUAL;
    for frequency in [160_000, 1_000_000, 9_999_999, 26_000_000, 79_580_000] {
        list.ask(frequency, &[xtal, crypto, pll_d2])?;
        list.ask(frequency, &[pll_d2, xtal, crypto])?;
        list.ask(frequency, &[pll_d2, crypto, xtal])?;
        list.ask(frequency, &[crypto, xtal, pll_d2])?;
        list.ask(frequency, &[crypto, pll_d2, xtal])?;
        list.ask(frequency, &[xtal, pll_d2])?;
        list.ask(frequency, &[pll_d2, crypto])?;
        list.ask(frequency, &[xtal])?;
        list.ask(frequency, &[pll_d2])?;
        list.ask(frequency, &[crypto])?;
    }
    Ok(())
}

fn random(list: &mut List) -> fmt::Result {
    const EACH: usize = 200;
    let mut random = Random::new(SEED);
    for distribution in DISTRIBUTIONS {
        list.about(&format!("Random: {}.", distribution.name))?;
        for _ in 0..EACH {
            let length = random.between(0, 6) as usize;
            let (frequency, sources) = distribution.draw_list(&mut random, length);
            list.ask(frequency, &sources)?;
        }
    }
    Ok(())
}
