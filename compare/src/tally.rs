//! What the published search costs beside the one put right.

use crate::inputs::Input;
use crate::search::{Setting, corrected, published};

/// How often and by how much the published search falls short of the one put right.
#[derive(Default)]
pub struct Tally {
    pub inputs: u64,
    differing: u64,
    slower: u64,
    worst_hertz: Option<Shortfall>,
    worst_part: Option<Shortfall>,
}

#[derive(Clone, Copy)]
struct Shortfall {
    input: Input,
    published: (Setting, usize),
    corrected: (Setting, usize),
}

impl Shortfall {
    fn hertz(&self) -> usize {
        self.corrected.1 - self.published.1
    }

    fn part(&self) -> f64 {
        self.hertz() as f64 / self.corrected.1 as f64
    }
}

impl Tally {
    pub fn count(&mut self, input: Input) {
        self.inputs += 1;
        let (frequency, sources) = (input.frequency as usize, &input.slice());
        let both = (
            published::search(frequency, sources),
            corrected::search(frequency, sources),
        );
        let (Some(published), Some(corrected)) = both else {
            assert_eq!(
                both,
                (None, None),
                "one search refuses {input}, the other does not"
            );
            return;
        };
        if published == corrected {
            return;
        }
        self.differing += 1;
        let hertz = |setting| (setting, corrected::hertz(sources, setting));
        let shortfall = Shortfall {
            input,
            published: hertz(published),
            corrected: hertz(corrected),
        };
        if shortfall.hertz() > 0 {
            self.slower += 1;
            self.note(shortfall);
        }
    }

    fn note(&mut self, shortfall: Shortfall) {
        if self
            .worst_hertz
            .is_none_or(|worst| shortfall.hertz() > worst.hertz())
        {
            self.worst_hertz = Some(shortfall);
        }
        if self
            .worst_part
            .is_none_or(|worst| shortfall.part() > worst.part())
        {
            self.worst_part = Some(shortfall);
        }
    }

    pub fn add(&mut self, other: Tally) {
        self.inputs += other.inputs;
        self.differing += other.differing;
        self.slower += other.slower;
        other
            .worst_hertz
            .into_iter()
            .chain(other.worst_part)
            .for_each(|worst| self.note(worst));
    }

    pub fn print(&self, name: &str) {
        let percent = 100.0 * self.differing as f64 / self.inputs.max(1) as f64;
        println!(
            "  {name:<15}{:>9} inputs; published sets another on {:>7} ({percent:5.2} %), slower on {:>7}",
            self.inputs, self.differing, self.slower
        );
    }

    pub fn print_worst(&self, name: &str) {
        for (measure, worst) in [("hertz", self.worst_hertz), ("part", self.worst_part)] {
            let Some(worst) = worst else { continue };
            println!("worst of {name} by {measure}: {}", worst.input);
            for (who, (setting, hertz)) in [
                ("published", worst.published),
                ("put right", worst.corrected),
            ] {
                println!("  {who}: {setting}, {hertz} Hz");
            }
            println!(
                "  short by {} Hz, {:.2} %",
                worst.hertz(),
                100.0 * worst.part()
            );
        }
    }
}
