//! The head of the list: the fund's fields and what goes with them.

use super::super::range;
use super::super::types::Fund;
use super::dates::is_date;
use super::layout::{Field, HEAD_NAMES};
use super::numbers::{decimal, digits, signed_money, whole};

/// All of the head but the letters and the count of components.
#[derive(Clone, Copy, Debug, Default, PartialEq, Eq)]
pub struct Head {
    pub fund: Fund,
    pub publish: u64,
    /// Eight digits as a number.
    pub trading_day: u64,
    pub pre_trading_day: u64,
    /// In hundredths of a yuan.
    pub cash_component: i64,
    /// Net asset value of a basket, in hundredths of a yuan.
    pub nav_per_basket: u64,
    /// Net asset value of a unit, in ten-thousandths of a yuan.
    pub nav: u64,
}

impl Head {
    /// Whether every field is in its range (refusal 2).
    pub(super) fn in_range(&self) -> bool {
        self.fund.in_range()
            && self.publish <= 1
            && is_date(self.trading_day)
            && is_date(self.pre_trading_day)
            && range::ESTIMATED_CASH.contains(&self.cash_component)
            && self.nav_per_basket <= range::NAV_PER_BASKET_MAX
            && self.nav <= range::NAV_MAX
    }
}

/// The head's values in the text's order, read one by one.
struct Values<'t> {
    text: &'t [u8],
    fields: &'t [Field; HEAD_NAMES.len()],
    at: usize,
}

impl<'t> Values<'t> {
    /// The next value by its way of writing, or its place among the values.
    fn next<T>(&mut self, way: impl Fn(&'t [u8]) -> Option<T>) -> Result<T, usize> {
        let at = self.at;
        self.at += 1;
        way(self.fields[at].of(self.text)).ok_or(at)
    }
}

/// The head and Recordnum, or the place among the values of the first one not
/// written as it must be. Numbers past their range come back saturated.
pub(super) fn read_head(
    text: &[u8],
    fields: &[Field; HEAD_NAMES.len()],
) -> Result<(Head, u64), usize> {
    let mut values = Values {
        text,
        fields,
        at: 0,
    };
    let mut head = Head::default();
    // Fundid1 is g+1: 000000 wraps far past the range.
    head.fund.first_code = values.next(|bytes| fixed_digits(bytes, 6))?.wrapping_sub(1);
    head.fund.basket_size = values.next(whole)?;
    head.fund.max_cash_ratio = values.next(|bytes| decimal(bytes, 5))?;
    head.publish = values.next(|bytes| whole(bytes).filter(|&publish| publish <= 1))?;
    head.fund.switch = values.next(whole)?;
    let count = values.next(whole)?;
    head.fund.estimated_cash = values.next(signed_money)?;
    head.trading_day = values.next(date)?;
    head.pre_trading_day = values.next(date)?;
    head.cash_component = values.next(signed_money)?;
    head.nav_per_basket = values.next(|bytes| decimal(bytes, 2))?;
    head.nav = values.next(|bytes| decimal(bytes, 4))?;
    for limit in &mut head.fund.limits {
        *limit = values.next(whole)?;
    }
    Ok((head, count))
}

fn fixed_digits(bytes: &[u8], length: usize) -> Option<u64> {
    (bytes.len() == length).then(|| digits(bytes)).flatten()
}

fn date(bytes: &[u8]) -> Option<u64> {
    fixed_digits(bytes, 8).filter(|&date| is_date(date))
}
