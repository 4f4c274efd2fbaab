//! Seeded random cases: flag tables, openings, days, calls, texts and lists to
//! write.

mod calls;
mod damage;
mod days;
mod edges;
mod lists;
mod openings;
mod rows;
mod tables;
mod text_damage;
mod text_values;
mod texts;
mod writings;

pub use calls::{any_call, price_calls};
pub use days::{break_day, raise_to_a_bound};
pub use edges::edge_call;
pub use lists::{Scale, Size};
pub use openings::OpeningCase;
pub use rows::{wild_answers_length, wild_rows};
pub use tables::sound_table;
pub use texts::TextCase;
pub use writings::WritingCase;

/// A splitmix64 generator: the same seed gives the same numbers.
#[derive(Clone, Debug)]
pub struct Rng {
    state: u64,
}

impl Rng {
    pub fn new(seed: u64) -> Self {
        Rng { state: seed }
    }

    /// Any number of 64 bits.
    pub fn number(&mut self) -> u64 {
        self.state = self.state.wrapping_add(0x9E37_79B9_7F4A_7C15);
        let mut mixed = self.state;
        mixed = (mixed ^ (mixed >> 30)).wrapping_mul(0xBF58_476D_1CE4_E5B9);
        mixed = (mixed ^ (mixed >> 27)).wrapping_mul(0x94D0_49BB_1331_11EB);
        mixed ^ (mixed >> 31)
    }

    /// A number below `bound`, which is above 0.
    pub fn below(&mut self, bound: u64) -> u64 {
        self.number() % bound
    }

    /// A number from `low` to `high`, both included.
    pub fn between(&mut self, low: u64, high: u64) -> u64 {
        match (high - low).checked_add(1) {
            Some(width) => low + self.below(width),
            None => self.number(),
        }
    }

    /// A place in something of this length, which is above 0.
    pub fn index(&mut self, length: usize) -> usize {
        self.below(length as u64) as usize
    }

    /// True once in `n` times.
    pub fn one_in(&mut self, n: u64) -> bool {
        self.below(n) == 0
    }

    pub fn pick<T: Copy>(&mut self, choices: &[T]) -> T {
        choices[self.index(choices.len())]
    }

    /// Often an end of the range or its neighbour, else any number of it.
    pub fn ends(&mut self, low: u64, high: u64) -> u64 {
        match self.below(6) {
            0 => low,
            1 => high,
            2 => high.saturating_sub(1).max(low),
            3 => low.saturating_add(1).min(high),
            _ => self.between(low, high),
        }
    }

    /// Noise that lent runs hold beforehand.
    pub fn numbers(&mut self, length: usize) -> Vec<u64> {
        (0..length).map(|_| self.number()).collect()
    }

    /// Noise that a lent output holds beforehand.
    pub fn bytes(&mut self, length: usize) -> Vec<u8> {
        (0..length).map(|_| self.number() as u8).collect()
    }
}
