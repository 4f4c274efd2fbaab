//! The rows of a flag table that lines of a day give.

use crate::statement::{first_word, statement, Call, Statement};
use roffelaine::{FlagTable, FLAGS, FLAG_COLUMNS};
use std::borrow::Cow;

/// What the table says of a flag: its numbers in the order of the columns.
pub type Row = [u64; FLAG_COLUMNS];

/// Rows, each with the line that gives it.
#[derive(Clone, Debug, Default, PartialEq, Eq)]
pub struct GivenRows {
    rows: [Option<(Row, usize)>; FLAGS],
}

impl GivenRows {
    /// Gives a flag its row, once.
    pub fn give(&mut self, line: usize, flag: usize, row: Row) -> Result<(), String> {
        if let Some((_, before)) = self.rows[flag] {
            return Err(format!("flag {flag} is given in line {before}"));
        }
        self.rows[flag] = Some((row, line));
        Ok(())
    }

    /// The flags that have a row.
    pub fn flags(&self) -> impl Iterator<Item = usize> + '_ {
        (0..FLAGS).filter(|&flag| self.rows[flag].is_some())
    }

    /// Our table with these rows in place of its own; none where there are none.
    pub fn table(&self) -> Option<FlagTable> {
        self.flags().next()?;
        let mut table = FlagTable::OURS;
        for (flag, given) in self.rows.iter().enumerate() {
            if let Some((row, _)) = given {
                table.set_row(flag, *row);
            }
        }
        Some(table)
    }
}

/// The rows that a file's lines above its first `open` give. With them goes why
/// the first faulty line among these gives none.
pub fn above_first_open<'t>(
    lines: impl Iterator<Item = (usize, Cow<'t, str>)>,
) -> (GivenRows, Option<String>) {
    let (mut rows, mut fault) = (GivenRows::default(), None);
    for (line, text) in lines {
        let given = match statement(&text) {
            Ok(Some(Statement::Call(Call::Open))) => break,
            Ok(Some(Statement::Flag { flag, row })) => rows.give(line, flag, row),
            Err(faulty) if first_word(&text) == Some("flag") => Err(faulty.why),
            _ => Ok(()),
        };
        if let Err(why) = given {
            fault.get_or_insert_with(|| format!("line {line} gives no row of the table: {why}"));
        }
    }
    (rows, fault)
}

#[cfg(test)]
mod tests {
    use super::*;

    fn above(text: &str) -> (GivenRows, Option<String>) {
        above_first_open((1..).zip(text.split('\n').map(Into::into)))
    }

    const STOCK: Row = [1, 1, 1, 0, 1, 1, 1];
    const AMOUNT: Row = [0, 0, 1, 1, 0, 0, 1];

    #[test]
    fn rows_stand_in_our_table() {
        let (rows, fault) = above("flag 5 1 1 1 0 1 1 1\naccounts 2\nflag 2 0 0 1 1 0 0 1\nopen\n");
        assert_eq!(fault, None);
        assert_eq!(rows.flags().collect::<Vec<_>>(), [2, 5]);
        let mut expected = FlagTable::OURS;
        expected.set_row(5, STOCK);
        expected.set_row(2, AMOUNT);
        assert_eq!(rows.table(), Some(expected));
    }

    #[test]
    fn lines_behind_the_first_open_give_none() {
        for text in [
            "",
            "accounts 2\nopen\nflag 5 1 1 1 0 1 1 1\n",
            "# flag 5 1 1 1 0 1 1 1",
        ] {
            let (rows, fault) = above(text);
            assert_eq!((rows.table(), fault), (None, None), "{text:?}");
        }
        // A line that only looks like an opening is none.
        let (rows, _) = above("open now\nOpen\nflag 5 1 1 1 0 1 1 1\nopen\n");
        assert_eq!(rows.flags().collect::<Vec<_>>(), [5]);
    }

    #[test]
    fn the_first_faulty_line_is_told() {
        let faults = [
            (
                "flag 10 1 1 1 0 1 1 1\nflag\n",
                "line 1 gives no row of the table: FLAG \"10\": a flag is 0 to 9",
            ),
            (
                "hold x\nflag 5 1 1 1 0 1 1 1\nflag 5 0 0 1 1 0 0 1",
                "line 3 gives no row of the table: flag 5 is given in line 2",
            ),
            (
                "flag 5 1 1 1 0 1 1",
                "line 1 gives no row of the table: USE is missing",
            ),
        ];
        for (text, fault) in faults {
            assert_eq!(above(text).1.as_deref(), Some(fault), "{text:?}");
        }
        let (rows, _) = above("flag 5 1 1 1 0 1 1 1\nflag 5 0 0 1 1 0 0 1\n");
        assert_eq!(rows.table().map(|table| table.row(5)), Some(STOCK));
    }
}
