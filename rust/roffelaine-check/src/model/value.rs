//! The reference value of a unit, in ten-thousandths of a yuan.

use super::flags::yes;
use super::flags::FlagColumn::Priced;
use super::range;
use super::refusal::{Refusal, Reply, NO_REFERENCE_VALUE};
use super::soundness::test_day;
use super::types::Day;

/// The reference value at the prices of the moment.
pub fn reference_value(day: &Day, book: &[u64], prices: &[u64]) -> Reply {
    test_day(day, book, prices)
        .and_then(|()| value_on_sound_day(day, prices))
        .into()
}

pub(super) fn value_on_sound_day(day: &Day, prices: &[u64]) -> Result<u64, Refusal> {
    unit_value(day, prices).ok_or(Refusal::new(NO_REFERENCE_VALUE))
}

fn unit_value(day: &Day, prices: &[u64]) -> Option<u64> {
    let mut sum = 10 * day.fund.estimated_cash;
    for (component, &price) in day.listed().iter().zip(prices) {
        let worth = if !yes(day.row_of(component), Priced) {
            component.amount
        } else if price == 0 && component.quantity > 0 {
            return None;
        } else {
            component.quantity * price
        };
        sum += worth as i64;
    }
    let sum = u64::try_from(sum).ok()?;
    let value = divide_rounded(10 * sum, day.fund.basket_size);
    (value <= range::VALUE_MAX).then_some(value)
}

/// To the nearest whole, halves up.
fn divide_rounded(number: u64, divisor: u64) -> u64 {
    (2 * number + divisor) / (2 * divisor)
}
