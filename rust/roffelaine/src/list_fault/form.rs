//! How a list is written: its lines, the fields of its head and their ranges,
//! the columns of a component line.

use super::numbers::Number;
use crate::{Limits, NAME_BYTES};

pub const LINE_END: &[u8] = b"\r\n";
/// What stands before and behind the letters of the first line.
pub const LETTERS_BEFORE: &[u8] = b"[ETF";
pub const LETTERS_AFTER: u8 = b']';
pub const MOST_LETTERS: usize = 8;
/// The lines before and behind the component lines.
pub const TAG: &[u8] = b"TAGTAG";
pub const END: &[u8] = b"ENDENDEND";
pub const BAR: u8 = b'|';

/// Where lines stand, from 0: the head's fields start at 1.
pub const FIRST_FIELD: usize = 1;
pub const TAG_LINE: usize = FIRST_FIELD + HEAD.len();
pub const FIRST_ROW: usize = TAG_LINE + 1;

/// How a field of the head is written.
#[derive(Clone, Copy)]
pub enum Form {
    /// So many digits.
    Digits(usize),
    Number(Number),
    ZeroOrOne,
    /// Eight digits that say a date.
    Date,
}

/// The numbers that a field may have, counted in its last decimal.
#[derive(Clone, Copy)]
pub struct Range {
    pub least: i128,
    pub most: i128,
    pub words: &'static str,
}

/// A field of the head.
#[derive(Clone, Copy)]
pub struct HeadField {
    pub name: &'static str,
    pub form: Form,
    /// None where the form or the count of lines decides.
    pub range: Option<Range>,
}

const WHOLE: Form = Form::Number(Number::unsigned(0));
/// Money of a basket, which may be below zero.
const CASH: Form = Form::Number(Number::signed(2));
const CASH_RANGE: Range = Range {
    least: -999_999_999,
    most: 9_999_999_999,
    words: "-9999999.99 to 99999999.99",
};

const fn unsigned(decimals: usize) -> Form {
    Form::Number(Number::unsigned(decimals))
}

const fn upto(most: i128, words: &'static str) -> Range {
    Range {
        least: 0,
        most,
        words,
    }
}

const fn field(name: &'static str, form: Form, range: Range) -> HeadField {
    HeadField {
        name,
        form,
        range: Some(range),
    }
}

const fn field_without_range(name: &'static str, form: Form) -> HeadField {
    HeadField {
        name,
        form,
        range: None,
    }
}

/// A limit is a multiple of CreationRedemptionUnit besides.
const fn limit(at: usize) -> HeadField {
    let range = upto(999_999_999_999, "at most 999999999999");
    field(Limits::NAMES[at], WHOLE, range)
}

const FUNDID: Range = Range {
    least: 1,
    most: 999_995,
    words: "000001 to 999995",
};
const UNIT: Range = Range {
    least: 1,
    most: 99_999_999,
    words: "1 to 99999999",
};

pub const UNIT_NAME: &str = "CreationRedemptionUnit";
pub const COUNT_NAME: &str = "Recordnum";

/// The fields of the head in the order of their lines.
pub const HEAD: [HeadField; 20] = [
    field("Fundid1", Form::Digits(6), FUNDID),
    field(UNIT_NAME, WHOLE, UNIT),
    field(
        "MaxCashRatio",
        unsigned(5),
        upto(100_000, "at most 1.00000"),
    ),
    field_without_range("Publish", Form::ZeroOrOne),
    field("CreationRedemption", WHOLE, upto(3, "0 to 3")),
    field_without_range(COUNT_NAME, WHOLE),
    field("EstimateCashComponent", CASH, CASH_RANGE),
    field_without_range("TradingDay", Form::Date),
    field_without_range("PreTradingDay", Form::Date),
    field("CashComponent", CASH, CASH_RANGE),
    field(
        "NAVperCU",
        unsigned(2),
        upto(99_999_999_999, "at most 999999999.99"),
    ),
    field("NAV", unsigned(4), upto(9_999_999, "at most 999.9999")),
    limit(0),
    limit(1),
    limit(2),
    limit(3),
    limit(4),
    limit(5),
    limit(6),
    limit(7),
];

/// A field of a component line; a bar follows it.
#[derive(Clone, Copy, PartialEq, Eq)]
pub struct Column {
    pub name: &'static str,
    pub start: usize,
    pub width: usize,
}

impl Column {
    const fn first(name: &'static str, width: usize) -> Self {
        Column {
            name,
            start: 0,
            width,
        }
    }

    const fn behind(before: Column, name: &'static str, width: usize) -> Self {
        Column {
            name,
            start: before.bar() + 1,
            width,
        }
    }

    /// Where its bar stands.
    pub const fn bar(&self) -> usize {
        self.start + self.width
    }

    /// What a component line has in it.
    pub fn of<'t>(&self, line: &'t [u8]) -> &'t [u8] {
        &line[self.start..self.bar()]
    }
}

pub const CODE: Column = Column::first("code", 6);
pub const NAME: Column = Column::behind(CODE, "name", NAME_BYTES);
pub const QUANTITY: Column = Column::behind(NAME, "quantity", 8);
pub const FLAG: Column = Column::behind(QUANTITY, "flag", 1);
pub const PREMIUM: Column = Column::behind(FLAG, "premium", 7);
pub const DISCOUNT: Column = Column::behind(PREMIUM, "discount", 7);
pub const AMOUNT: Column = Column::behind(DISCOUNT, "amount", 12);

/// All columns, as they stand.
pub const COLUMNS: [Column; 7] = [CODE, NAME, QUANTITY, FLAG, PREMIUM, DISCOUNT, AMOUNT];
/// Bytes of a component line without its end.
pub const ROW_BYTES: usize = AMOUNT.bar() + 1;

/// A rate's highest number, and the words for it.
pub const RATE_RANGE: Range = upto(100_000, "at most 1.00000");

#[cfg(test)]
mod tests {
    use super::*;

    #[test]
    fn columns_stand_where_the_paper_says() {
        let starts = COLUMNS.map(|column| column.start);
        assert_eq!(starts, [0, 7, 16, 25, 27, 35, 43]);
        let bars = COLUMNS.map(|column| column.bar());
        assert_eq!(bars, [6, 15, 24, 26, 34, 42, 55]);
        assert_eq!(ROW_BYTES, 56);
        assert_eq!((TAG_LINE, FIRST_ROW), (21, 22));
    }
}
