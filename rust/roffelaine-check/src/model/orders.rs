//! What creation and redemption have in common.

use super::book::{self, CREATED, REDEEMED};
use super::order_lists::Lengths;
use super::range;
use super::records::{cash_record_count, RECORD_NUMBERS};
use super::refusal::{Counts, Refusal, ACCOUNT, LIMIT, LIST_TOO_SHORT, NOT_WHOLE_BASKETS, SWITCH};
use super::reports::{cash_report_count, REPORT_NUMBERS};
use super::types::Day;

/// The rate one.
const RATE_ONE: u64 = 100_000;

/// The kind of an order.
#[derive(Clone, Copy, PartialEq, Eq)]
pub(super) enum Kind {
    Creation,
    Redemption,
}

/// What an order that passes its tests moves besides units and stock.
#[derive(Clone, Copy, Default)]
pub(super) struct Terms {
    pub(super) baskets: u64,
    pub(super) other_cash: u64,
    pub(super) shanghai_cash: u64,
    /// Components of which stock moves.
    pub(super) stock_lines: u64,
}

impl Terms {
    pub(super) fn new(baskets: u64) -> Self {
        Terms {
            baskets,
            ..Terms::default()
        }
    }

    #[inline]
    pub(super) fn add_cash(&mut self, shanghai: bool, cash: u64) {
        if shanghai {
            self.shanghai_cash += cash;
        } else {
            self.other_cash += cash;
        }
    }

    pub(super) fn cash(&self) -> u64 {
        self.other_cash + self.shanghai_cash
    }

    /// Records: two of the unit, those of stock and those of cash. Reports to
    /// each party: one of the unit, those of stock and one of all cash.
    pub(super) fn counts(&self) -> Counts {
        let (other, shanghai) = (self.other_cash, self.shanghai_cash);
        Counts {
            records: 2 + self.stock_lines + cash_record_count(other) + cash_record_count(shanghai),
            reports: 1 + self.stock_lines + cash_report_count(self.cash()),
        }
    }

    /// Refusal 16: a list of such a length is too short.
    pub(super) fn test_room(&self, lengths: Lengths) -> Result<(), Refusal> {
        let Counts { records, reports } = self.counts();
        let has_room = |length: usize, width: usize, count: u64| (length / width) as u64 >= count;
        let fits = has_room(lengths.records, RECORD_NUMBERS, records)
            && has_room(lengths.investor, REPORT_NUMBERS, reports)
            && has_room(lengths.fund, REPORT_NUMBERS, reports);
        match fits {
            true => Ok(()),
            false => Err(Refusal::new(LIST_TOO_SHORT)),
        }
    }
}

/// Refusals 8, 11, 12 and 13; gives the count of baskets.
pub(super) fn test_order(
    day: &Day,
    book: &[u64],
    kind: Kind,
    account: u64,
    units: u64,
) -> Result<u64, Refusal> {
    if account == 0 || account >= day.accounts {
        return Err(Refusal::new(ACCOUNT));
    }
    let baskets = units / day.fund.basket_size;
    if !units.is_multiple_of(day.fund.basket_size) || !range::BASKETS.contains(&baskets) {
        return Err(Refusal::new(NOT_WHOLE_BASKETS));
    }
    let allowed = match kind {
        Kind::Creation => day.fund.creation_allowed(),
        Kind::Redemption => day.fund.redemption_allowed(),
    };
    if !allowed {
        return Err(Refusal::new(SWITCH));
    }
    if passes_a_limit(day, book, kind, account, units) {
        return Err(Refusal::new(LIMIT));
    }
    Ok(baskets)
}

/// Units of the order's kind after it, and units of the other kind.
struct UnitCounts {
    after: u64,
    reverse: u64,
}

impl UnitCounts {
    fn new(kind: Kind, units: u64, created: u64, redeemed: u64) -> Self {
        match kind {
            Kind::Creation => UnitCounts {
                after: created + units,
                reverse: redeemed,
            },
            Kind::Redemption => UnitCounts {
                after: redeemed + units,
                reverse: created,
            },
        }
    }

    /// Whether a limit on the count or on the net is passed; 0 is no limit.
    fn pass(&self, cumulative: u64, net: u64) -> bool {
        let over = |limit, count| limit > 0 && count > limit;
        over(cumulative, self.after) || over(net, self.after.saturating_sub(self.reverse))
    }
}

fn passes_a_limit(day: &Day, book: &[u64], kind: Kind, account: u64, units: u64) -> bool {
    let width = book::stretch_width(day.count as usize);
    let (created, redeemed) = fund_wide_counts(book, width);
    let fund_wide = UnitCounts::new(kind, units, created, redeemed);
    let stretch = book::stretch(book, width, account);
    let own = UnitCounts::new(kind, units, stretch[CREATED], stretch[REDEEMED]);
    // The list text has the limits of creation at even places.
    let at = if kind == Kind::Creation { 0 } else { 1 };
    let limits = &day.fund.limits;
    fund_wide.after > range::COUNTER_MAX
        || fund_wide.pass(limits[at], limits[at + 4])
        || own.pass(limits[at + 2], limits[at + 6])
}

/// Units created and redeemed today by all accounts.
fn fund_wide_counts(book: &[u64], width: usize) -> (u64, u64) {
    book.chunks_exact(width)
        .fold((0, 0), |(created, redeemed), stretch| {
            (created + stretch[CREATED], redeemed + stretch[REDEEMED])
        })
}

/// Money times (1 + premium), rounded.
#[inline]
pub(super) fn with_premium(money: u64, premium: u64) -> u64 {
    times_rate(money, RATE_ONE + premium)
}

/// Money times (1 - discount), rounded.
#[inline]
pub(super) fn less_discount(money: u64, discount: u64) -> u64 {
    times_rate(money, RATE_ONE - discount)
}

/// Split at the rate one, so that 64 bits hold every product.
#[inline]
fn times_rate(money: u64, rate: u64) -> u64 {
    let (whole, rest) = (money / RATE_ONE, money % RATE_ONE);
    whole * rate + (rest * rate + RATE_ONE / 2) / RATE_ONE
}

#[cfg(test)]
mod tests {
    use super::*;

    #[test]
    fn rates_are_rounded_halves_up() {
        assert_eq!(with_premium(5, 10_000), 6);
        assert_eq!(with_premium(5, 9_999), 5);
        assert_eq!(less_discount(5, 10_000), 5);
        assert_eq!(less_discount(5, 10_001), 4);
        assert_eq!(less_discount(2_000_000_000_000, 100_000), 0);
    }

    #[test]
    fn rates_agree_with_wide_arithmetic() {
        let largest = 20 * range::QUANTITY_MAX * range::PRICE.end();
        for money in [
            0,
            1,
            49_999,
            50_000,
            99_999,
            100_000,
            12_345_678_901,
            largest,
        ] {
            for rate in [0, 1, 9_999, 50_000, 99_999, 100_000] {
                let wide = |factor: u64| (money as u128 * factor as u128 + 50_000) / 100_000;
                assert_eq!(with_premium(money, rate) as u128, wide(100_000 + rate));
                assert_eq!(less_discount(money, rate) as u128, wide(100_000 - rate));
            }
        }
    }
}
