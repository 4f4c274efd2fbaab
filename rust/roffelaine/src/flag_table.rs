//! The flag table: what each flag says of a component.

use crate::layout::{FLAGS, FLAG_COLUMNS};

/// A column of the flag table.
#[derive(Clone, Copy, Debug, PartialEq, Eq, Hash)]
pub enum FlagColumn {
    /// The component's stock moves in an order.
    StockMoves,
    /// A creation may pay cash for stock that is missing.
    ShortageInCash,
    /// The component has rates, a premium and a discount.
    RateUsed,
    /// The component has an amount.
    AmountUsed,
    /// Its cash is cash for Shanghai components, else other cash.
    Shanghai,
    /// The reference value takes it at its price, else at its amount.
    Priced,
    /// The flag is in use: without this no other column says anything.
    InUse,
}

impl FlagColumn {
    /// All of them, in the order of a row's numbers.
    pub const ALL: [FlagColumn; FLAG_COLUMNS] = [
        FlagColumn::StockMoves,
        FlagColumn::ShortageInCash,
        FlagColumn::RateUsed,
        FlagColumn::AmountUsed,
        FlagColumn::Shanghai,
        FlagColumn::Priced,
        FlagColumn::InUse,
    ];

    /// What it is called.
    pub const fn words(self) -> &'static str {
        match self {
            FlagColumn::StockMoves => "stock moves",
            FlagColumn::ShortageInCash => "shortage in cash",
            FlagColumn::RateUsed => "rate used",
            FlagColumn::AmountUsed => "amount used",
            FlagColumn::Shanghai => "Shanghai",
            FlagColumn::Priced => "priced",
            FlagColumn::InUse => "in use",
        }
    }
}

/// A table of the flags 0 to 9, a row of seven numbers for each, in the order of
/// [`FlagColumn::ALL`]: 1 is yes and 0 is no. Any numbers may stand in it; an
/// opening, a reading or a writing refuses a table that breaks the rules with
/// [`Refusal::FlagTable`](crate::Refusal::FlagTable).
///
/// ```
/// use roffelaine::{FlagColumn, FlagTable};
/// // A manager pilots flag 5: stock that a creation may pay in cash, at a rate.
/// let mut table = FlagTable::OURS;
/// table.set_row(5, [1, 1, 1, 0, 1, 1, 1]);
/// assert!(table.says(5, FlagColumn::ShortageInCash));
/// assert!(!FlagTable::OURS.says(5, FlagColumn::InUse));
/// ```
#[derive(Clone, Copy, Debug, PartialEq, Eq, Hash)]
pub struct FlagTable {
    rows: [[u64; FLAG_COLUMNS]; FLAGS],
}

impl FlagTable {
    /// The table where none is given: the flags 0 to 4.
    pub const OURS: FlagTable = FlagTable::new([
        [1, 0, 0, 0, 1, 1, 1],
        [1, 1, 1, 0, 1, 1, 1],
        [0, 0, 0, 1, 1, 0, 1],
        [0, 0, 1, 1, 0, 1, 1],
        [0, 0, 0, 1, 0, 0, 1],
        [0; FLAG_COLUMNS],
        [0; FLAG_COLUMNS],
        [0; FLAG_COLUMNS],
        [0; FLAG_COLUMNS],
        [0; FLAG_COLUMNS],
    ]);

    /// A table of such rows, flag after flag.
    pub const fn new(rows: [[u64; FLAG_COLUMNS]; FLAGS]) -> Self {
        FlagTable { rows }
    }

    /// The rows, flag after flag.
    pub const fn rows(&self) -> &[[u64; FLAG_COLUMNS]; FLAGS] {
        &self.rows
    }

    /// The row of a flag.
    ///
    /// # Panics
    ///
    /// Where there is no such flag.
    pub const fn row(&self, flag: usize) -> [u64; FLAG_COLUMNS] {
        self.rows[flag]
    }

    /// Puts another row in place of a flag's.
    ///
    /// # Panics
    ///
    /// Where there is no such flag.
    pub const fn set_row(&mut self, flag: usize, row: [u64; FLAG_COLUMNS]) {
        self.rows[flag] = row;
    }

    /// The numbers as they cross to the archive, row after row.
    pub const fn as_run(&self) -> &[u64] {
        self.rows.as_flattened()
    }

    /// Whether a flag is there and in use, and has a 1 in a column.
    pub fn says(&self, flag: u64, column: FlagColumn) -> bool {
        let row = usize::try_from(flag).ok().and_then(|at| self.rows.get(at));
        row.is_some_and(|row| row[FlagColumn::InUse as usize] == 1 && row[column as usize] == 1)
    }
}

/// Our table.
impl Default for FlagTable {
    fn default() -> Self {
        FlagTable::OURS
    }
}

#[cfg(test)]
mod tests {
    use super::*;

    #[test]
    fn columns_stand_in_their_order() {
        for (at, column) in FlagColumn::ALL.into_iter().enumerate() {
            assert_eq!(column as usize, at);
        }
    }

    #[test]
    fn our_table_has_the_flags_0_to_4() {
        let flags = |column| (0..12).filter(move |&flag| FlagTable::OURS.says(flag, column));
        let flags = |column| flags(column).collect::<Vec<u64>>();
        assert_eq!(flags(FlagColumn::StockMoves), [0, 1]);
        assert_eq!(flags(FlagColumn::ShortageInCash), [1]);
        assert_eq!(flags(FlagColumn::RateUsed), [1, 3]);
        assert_eq!(flags(FlagColumn::AmountUsed), [2, 3, 4]);
        assert_eq!(flags(FlagColumn::Shanghai), [0, 1, 2]);
        assert_eq!(flags(FlagColumn::Priced), [0, 1, 3]);
        assert_eq!(flags(FlagColumn::InUse), [0, 1, 2, 3, 4]);
    }

    #[test]
    fn nothing_is_said_of_a_flag_that_is_not_in_use() {
        let mut table = FlagTable::new([[1; FLAG_COLUMNS]; FLAGS]);
        assert!(table.says(9, FlagColumn::Priced));
        table.set_row(9, [1, 1, 1, 1, 1, 1, 0]);
        table.set_row(8, [1, 2, 1, 1, 1, 1, 1]);
        for column in FlagColumn::ALL {
            assert!(!table.says(9, column));
            assert!(!table.says(10, column));
            assert!(!table.says(u64::MAX, column));
        }
        assert!(!table.says(8, FlagColumn::ShortageInCash));
        assert_eq!(table.row(8)[1], 2);
        assert_eq!(table.as_run().len(), FLAGS * FLAG_COLUMNS);
        assert_eq!(table.as_run()[57], 2);
    }
}
