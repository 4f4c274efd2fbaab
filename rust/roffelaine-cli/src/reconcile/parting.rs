//! Where a given position parts from the one that was posted.

use super::calls::CallLine;
use std::fmt;

#[derive(Clone, Debug, PartialEq, Eq)]
pub enum Parting {
    NeverMoved,
    /// The first call behind the last time at which they were equal.
    After(CallLine),
    /// They were never equal, but calls moved as much as the difference.
    MoveOf(Move, CallLines),
    Unexplained,
}

/// What of a call moved as much as a difference.
#[derive(Clone, Copy, Debug, PartialEq, Eq)]
pub struct Move {
    pub part: Part,
    /// The given position has it twice; else not at all.
    pub twice: bool,
}

#[derive(Clone, Copy, Debug, PartialEq, Eq)]
pub enum Part {
    Whole,
    CashRecords,
}

impl Move {
    /// All of them, the likeliest first.
    pub const ALL: [Move; 4] = [
        Move::new(Part::Whole, false),
        Move::new(Part::Whole, true),
        Move::new(Part::CashRecords, false),
        Move::new(Part::CashRecords, true),
    ];

    const fn new(part: Part, twice: bool) -> Self {
        Move { part, twice }
    }
}

/// The first few of some calls, and how many there are.
#[derive(Clone, Debug, Default, PartialEq, Eq)]
pub struct CallLines {
    named: Vec<CallLine>,
    last: Option<CallLine>,
    count: usize,
}

/// How many calls are named.
const MOST_NAMED: usize = 3;

impl CallLines {
    /// Adds a call; the one that was added last counts once.
    pub fn add(&mut self, by: CallLine) {
        if self.last.replace(by) == Some(by) {
            return;
        }
        self.count += 1;
        if self.count <= MOST_NAMED {
            self.named.push(by);
        }
    }

    pub fn is_empty(&self) -> bool {
        self.count == 0
    }
}

impl fmt::Display for CallLines {
    fn fmt(&self, out: &mut fmt::Formatter<'_>) -> fmt::Result {
        let named: Vec<String> = self.named.iter().map(CallLine::to_string).collect();
        out.write_str(&named.join(" or "))?;
        match self.count - named.len() {
            0 => Ok(()),
            more => write!(out, " or {more} more"),
        }
    }
}

impl Parting {
    /// Whether it says which call it was.
    pub fn names_a_call(&self) -> bool {
        matches!(self, Parting::After(_) | Parting::MoveOf(..))
    }
}

impl fmt::Display for Parting {
    fn fmt(&self, out: &mut fmt::Formatter<'_>) -> fmt::Result {
        match self {
            Parting::NeverMoved => out.write_str("it never moved"),
            Parting::After(by) => write!(out, "they part after {by}"),
            Parting::MoveOf(Move { part, twice }, calls) => {
                let part = match part {
                    Part::Whole => "",
                    Part::CashRecords => "cash records of ",
                };
                let twice = if *twice { ", posted twice" } else { "" };
                write!(out, "the difference is that of {part}{calls}{twice}")
            }
            Parting::Unexplained => out.write_str("no call explains it"),
        }
    }
}

#[cfg(test)]
mod tests {
    use super::*;

    #[test]
    fn three_calls_are_named_and_the_rest_counted() {
        let mut calls = CallLines::default();
        for line in [3, 3, 4, 5, 5, 6, 6, 7] {
            let word = "trade";
            calls.add(CallLine { line, word });
        }
        assert_eq!(
            calls.to_string(),
            "line 3 trade or line 4 trade or line 5 trade or 2 more"
        );
    }
}
