//! Setting a price.

use super::range;
use super::refusal::{Refusal, Reply, NO_SUCH_LINE, QUANTITY_OR_PRICE};
use super::soundness::test_day;
use super::types::Day;

/// Sets the price of the component on `line`.
pub fn set_price(day: &Day, book: &[u64], prices: &mut [u64], line: u64, price: u64) -> Reply {
    test_day(day, book, prices)
        .and_then(|()| set_price_on_sound_day(day, prices, line, price))
        .into()
}

pub(super) fn set_price_on_sound_day(
    day: &Day,
    prices: &mut [u64],
    line: u64,
    price: u64,
) -> Result<u64, Refusal> {
    if line >= day.count {
        return Err(Refusal::new(NO_SUCH_LINE));
    }
    if !range::PRICE.contains(&price) {
        return Err(Refusal::new(QUANTITY_OR_PRICE));
    }
    prices[line as usize] = price;
    Ok(0)
}
