//! The flag table.

use super::refusal::{Refusal, FLAG_TABLE};

/// Flags, 0 to 9.
pub const FLAGS: usize = 10;
/// Columns of each flag.
pub const FLAG_COLUMNS: usize = 7;
/// Numbers of a table in a flat run, flag after flag.
pub const TABLE_NUMBERS: usize = FLAGS * FLAG_COLUMNS;

/// The columns, in the order of a flag's numbers.
#[derive(Clone, Copy, Debug, PartialEq, Eq)]
pub enum FlagColumn {
    StockMoves,
    ShortageInCash,
    /// Premium and discount; the paper's "r used".
    RateUsed,
    AmountUsed,
    Shanghai,
    Priced,
    InUse,
}

use FlagColumn::{AmountUsed, InUse, Priced, RateUsed, Shanghai, ShortageInCash, StockMoves};

/// The numbers of one flag.
pub type FlagRow = [u64; FLAG_COLUMNS];

/// Whether a row has yes in a column.
#[inline]
pub(super) fn yes(row: &FlagRow, column: FlagColumn) -> bool {
    row[column as usize] == 1
}

/// The rows of all flags. Any numbers may stand in it until it is tested.
#[derive(Clone, Copy, Debug, PartialEq, Eq)]
pub struct FlagTable(pub [FlagRow; FLAGS]);

impl FlagTable {
    /// The table where none is given: document 01's flags 0 to 4.
    pub const OURS: FlagTable = FlagTable([
        [1, 0, 0, 0, 1, 1, 1],
        [1, 1, 1, 0, 1, 1, 1],
        [0, 0, 0, 1, 1, 0, 1],
        [0, 0, 1, 1, 0, 1, 1],
        [0, 0, 0, 1, 0, 0, 1],
        [0; FLAG_COLUMNS],
        [0; FLAG_COLUMNS],
        [0; FLAG_COLUMNS],
        [0; FLAG_COLUMNS],
        [0; FLAG_COLUMNS],
    ]);

    /// No number but 0.
    pub const BLANK: FlagTable = FlagTable([[0; FLAG_COLUMNS]; FLAGS]);

    /// The table that a lent run gives: ours where it is empty, none where it has
    /// another length than a table.
    pub fn given(run: &[u64]) -> Option<Self> {
        match run.len() {
            0 => Some(FlagTable::OURS),
            TABLE_NUMBERS => Some(FlagTable::from_numbers(run)),
            _ => None,
        }
    }

    /// A table from its numbers at the front of a run.
    pub fn from_numbers(numbers: &[u64]) -> Self {
        let row = |flag| std::array::from_fn(|column| numbers[FLAG_COLUMNS * flag + column]);
        FlagTable(std::array::from_fn(row))
    }

    pub fn numbers(&self) -> &[u64] {
        self.0.as_flattened()
    }

    /// The row of a flag that is in use.
    #[inline]
    pub(super) fn in_use(&self, flag: u64) -> Option<&FlagRow> {
        let row = self.0.get(flag as usize);
        row.filter(|row| yes(row, InUse))
    }

    /// Whether a flag is in use and has yes in a column.
    #[inline]
    pub fn says(&self, flag: u64, column: FlagColumn) -> bool {
        self.in_use(flag).is_some_and(|row| yes(row, column))
    }

    /// The lowest flag whose row breaks the rules (refusal 21).
    pub(super) fn first_fault(&self) -> Option<usize> {
        self.0.iter().position(|row| !keeps_the_rules(row))
    }

    /// Refusal 21 of a table lent to a text call, of its length too.
    pub(super) fn for_text(run: &[u64]) -> Result<Self, Refusal> {
        let table = FlagTable::given(run).ok_or(Refusal::at(FLAG_TABLE, 0))?;
        table.tested()
    }

    /// The table where it passes refusal 21.
    pub(super) fn tested(self) -> Result<Self, Refusal> {
        match self.first_fault() {
            None => Ok(self),
            Some(flag) => Err(Refusal::at(FLAG_TABLE, flag)),
        }
    }
}

/// All numbers are 0 or 1, and a flag in use either moves stock, is Shanghai, is
/// priced and uses no amount, or moves none and uses an amount; a shortage in
/// cash is only where stock moves and the rate is used.
fn keeps_the_rules(row: &FlagRow) -> bool {
    let yes = |column| yes(row, column);
    let stock = yes(Shanghai) && yes(Priced) && !yes(AmountUsed);
    let kind = if yes(StockMoves) {
        stock
    } else {
        yes(AmountUsed)
    };
    let shortage = !yes(ShortageInCash) || (yes(StockMoves) && yes(RateUsed));
    row.iter().all(|&number| number <= 1) && (!yes(InUse) || (kind && shortage))
}

#[cfg(test)]
mod tests {
    use super::*;

    #[test]
    fn our_table_keeps_the_rules() {
        assert_eq!(FlagTable::OURS.first_fault(), None);
        assert_eq!(FlagTable::BLANK.first_fault(), None);
    }

    /// Of the 64 rows in use, the paper's sentences leave these: two of stock
    /// without a shortage in cash, one with it, and eight without stock.
    #[test]
    fn rows_in_use_are_those_of_the_paper() {
        let rows = (0..64u64).map(|bits| std::array::from_fn(|at| (bits | 64) >> at & 1));
        let kept: Vec<FlagRow> = rows.filter(keeps_the_rules).collect();
        let (stock, rest): (Vec<_>, Vec<_>) = kept.into_iter().partition(|row| row[0] == 1);
        let expected = [
            [1, 0, 0, 0, 1, 1, 1],
            [1, 0, 1, 0, 1, 1, 1],
            [1, 1, 1, 0, 1, 1, 1],
        ];
        assert_eq!(stock, expected);
        assert_eq!(rest.len(), 8);
        assert!(rest.iter().all(|row| (row[1], row[3]) == (0, 1)));
    }

    /// A row not in use has no rule but that its numbers are 0 or 1.
    #[test]
    fn rows_not_in_use_are_any_zeros_and_ones() {
        for bits in 0..64u64 {
            let row: FlagRow = std::array::from_fn(|at| bits >> at & 1);
            assert!(keeps_the_rules(&row));
            for column in 0..FLAG_COLUMNS {
                let mut other = row;
                other[column] = 2;
                assert!(!keeps_the_rules(&other));
            }
        }
    }
}
