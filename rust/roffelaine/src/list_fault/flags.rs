//! The flags that a table has in use.

use crate::{FlagColumn, FlagTable, FLAGS};
use std::fmt::Write;

/// The flag that a digit of a component line says; above all flags where it is
/// no digit.
pub fn flag_of(digit: u8) -> u64 {
    u64::from(digit.wrapping_sub(b'0'))
}

/// The flags that a table has in use, in words; three or more that follow each
/// other by their ends.
pub fn in_use_words(table: &FlagTable) -> String {
    let is_in_use = |flag: usize| table.says(flag as u64, FlagColumn::InUse);
    let mut words = String::new();
    let mut next = 0;
    while let Some(first) = (next..FLAGS).find(|&flag| is_in_use(flag)) {
        let end = (first..FLAGS).find(|&flag| !is_in_use(flag));
        let last = end.unwrap_or(FLAGS) - 1;
        let between = if words.is_empty() { "" } else { ", " };
        // Writing to a string does not fail.
        let _ = match last - first {
            0 => write!(words, "{between}{first}"),
            1 => write!(words, "{between}{first}, {last}"),
            _ => write!(words, "{between}{first} to {last}"),
        };
        next = last + 1;
    }
    match words.as_str() {
        "" => "no flag is in use".to_owned(),
        _ => format!("flags in use: {words}"),
    }
}

#[cfg(test)]
mod tests {
    use super::*;

    /// The words for a table with just these flags in use.
    fn words_of(flags: &[usize]) -> String {
        let mut table = FlagTable::new([[0; 7]; FLAGS]);
        for &flag in flags {
            table.set_row(flag, [0, 0, 0, 1, 0, 0, 1]);
        }
        in_use_words(&table)
    }

    #[test]
    fn flags_in_use_are_told() {
        assert_eq!(in_use_words(&FlagTable::OURS), "flags in use: 0 to 4");
        assert_eq!(words_of(&[]), "no flag is in use");
        assert_eq!(words_of(&[9]), "flags in use: 9");
        assert_eq!(
            words_of(&[0, 1, 3, 7, 8, 9]),
            "flags in use: 0, 1, 3, 7 to 9"
        );
        assert_eq!(words_of(&[0, 2, 3, 4, 9]), "flags in use: 0, 2 to 4, 9");
        let all: Vec<usize> = (0..FLAGS).collect();
        assert_eq!(words_of(&all), "flags in use: 0 to 9");
    }

    #[test]
    fn digits_are_flags() {
        assert_eq!(flag_of(b'0'), 0);
        assert_eq!(flag_of(b'9'), 9);
        assert!(flag_of(b' ') > 9 && flag_of(b':') > 9 && flag_of(b'a') > 9);
    }
}
