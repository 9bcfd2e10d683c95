//! esp-hal's clock search, ours, and inputs to hold them against each other.

pub mod boundary;
pub mod distributions;
pub mod inputs;
pub mod random;
pub mod search;
pub mod tally;
