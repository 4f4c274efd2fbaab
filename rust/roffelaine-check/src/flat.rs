//! The flat layouts in which a fund, a day with its flag table, a list's fields, a
//! part of a text and the rows of the driver cross to the archive.

use crate::model::list::Head;
use crate::model::{
    Call, Component, Day, FlagTable, Fund, Lengths, Order, PerList, Trade, ANSWER_NUMBERS,
    COMPONENT_NUMBERS, MAX_COMPONENTS, ROW_NUMBERS, TABLE_NUMBERS,
};
use std::ops::Range;

/// Numbers of a fund: first code, basket size, maximum cash ratio, switch,
/// estimated cash (two numbers), the eight limits.
pub const FUND_NUMBERS: usize = 14;
/// Numbers of a day: A, N, the fund, the flag table, room for all components.
pub const DAY_NUMBERS: usize = COMPONENTS_FROM + COMPONENT_NUMBERS * MAX_COMPONENTS;
/// Numbers of a list's fields: the fund, Publish, TradingDay, PreTradingDay,
/// CashComponent (two numbers), NAVperCU, NAV, N.
pub const FIELD_NUMBERS: usize = FUND_NUMBERS + 8;
/// Numbers of a part of a text: its place and its length.
pub const PART_NUMBERS: usize = 2;

const FUND_FROM: usize = 2;
const TABLE_FROM: usize = FUND_FROM + FUND_NUMBERS;
const COMPONENTS_FROM: usize = TABLE_FROM + TABLE_NUMBERS;
const LIMITS_FROM: usize = 6;

const _: () = assert!(DAY_NUMBERS == 1_886 && FIELD_NUMBERS == 22);

/// A number that may be below zero: 1 where it is, and its size.
fn signed_numbers(number: i64) -> [u64; 2] {
    [u64::from(number < 0), number.unsigned_abs()]
}

fn signed_of(numbers: &[u64]) -> i64 {
    match numbers[0] {
        1 => 0i64.wrapping_sub_unsigned(numbers[1]),
        _ => 0i64.wrapping_add_unsigned(numbers[1]),
    }
}

pub fn fund_numbers(fund: &Fund) -> [u64; FUND_NUMBERS] {
    let [below_zero, size] = signed_numbers(fund.estimated_cash);
    let mut numbers = [0; FUND_NUMBERS];
    numbers[..LIMITS_FROM].copy_from_slice(&[
        fund.first_code,
        fund.basket_size,
        fund.max_cash_ratio,
        fund.switch,
        below_zero,
        size,
    ]);
    numbers[LIMITS_FROM..].copy_from_slice(&fund.limits);
    numbers
}

/// The fund that the first `FUND_NUMBERS` of some numbers say.
pub fn fund_of(numbers: &[u64]) -> Fund {
    Fund {
        first_code: numbers[0],
        basket_size: numbers[1],
        max_cash_ratio: numbers[2],
        switch: numbers[3],
        estimated_cash: signed_of(&numbers[4..]),
        limits: std::array::from_fn(|at| numbers[LIMITS_FROM + at]),
    }
}

pub fn day_numbers(day: &Day) -> [u64; DAY_NUMBERS] {
    let mut numbers = [0; DAY_NUMBERS];
    numbers[..FUND_FROM].copy_from_slice(&[day.accounts, day.count]);
    numbers[FUND_FROM..TABLE_FROM].copy_from_slice(&fund_numbers(&day.fund));
    numbers[TABLE_FROM..COMPONENTS_FROM].copy_from_slice(day.table.numbers());
    let places = numbers[COMPONENTS_FROM..].chunks_exact_mut(COMPONENT_NUMBERS);
    for (place, component) in places.zip(&day.components) {
        place.copy_from_slice(&component.numbers());
    }
    numbers
}

pub fn day_of(numbers: &[u64; DAY_NUMBERS]) -> Day {
    let mut day = Day::blank();
    (day.accounts, day.count) = (numbers[0], numbers[1]);
    day.fund = fund_of(&numbers[FUND_FROM..]);
    day.table = FlagTable::from_numbers(&numbers[TABLE_FROM..]);
    let places = numbers[COMPONENTS_FROM..].chunks_exact(COMPONENT_NUMBERS);
    for (component, numbers) in day.components.iter_mut().zip(places) {
        *component = Component::from_numbers(numbers);
    }
    day
}

/// A list's head and its count of components.
pub fn field_numbers(head: &Head, count: u64) -> [u64; FIELD_NUMBERS] {
    let [below_zero, size] = signed_numbers(head.cash_component);
    let mut numbers = [0; FIELD_NUMBERS];
    numbers[..FUND_NUMBERS].copy_from_slice(&fund_numbers(&head.fund));
    numbers[FUND_NUMBERS..].copy_from_slice(&[
        head.publish,
        head.trading_day,
        head.pre_trading_day,
        below_zero,
        size,
        head.nav_per_basket,
        head.nav,
        count,
    ]);
    numbers
}

pub fn fields_of(numbers: &[u64; FIELD_NUMBERS]) -> (Head, u64) {
    let rest = &numbers[FUND_NUMBERS..];
    let head = Head {
        fund: fund_of(numbers),
        publish: rest[0],
        trading_day: rest[1],
        pre_trading_day: rest[2],
        cash_component: signed_of(&rest[3..]),
        nav_per_basket: rest[5],
        nav: rest[6],
    };
    (head, rest[7])
}

/// The numbers of a part of a text, which are both 0 where there is none.
pub fn part_numbers(part: Option<Range<usize>>) -> [u64; PART_NUMBERS] {
    let part = part.unwrap_or_default();
    [part.start as u64, part.len() as u64]
}

/// The part of a text that its numbers say.
pub fn part_of(text: &[u8], numbers: [u64; PART_NUMBERS]) -> &[u8] {
    let [place, length] = numbers.map(|number| number as usize);
    &text[place..][..length]
}

/// The row of a call whose lists are the parts of the runs that start there;
/// none for the tests called alone, which have no row.
pub fn row_of(call: &Call, starts: PerList<usize>) -> Option<[u64; ROW_NUMBERS]> {
    Some(match *call {
        Call::Price { line, price } => row([1, line, price]),
        Call::Trade(Trade {
            line,
            quantity,
            price,
            seller,
            buyer,
        }) => row([2, line, quantity, price, seller, buyer]),
        Call::Create(order) => order_row(3, &order, starts),
        Call::Redeem(order) => order_row(4, &order, starts),
        Call::Value => row([5]),
        Call::TestDay | Call::TestCreation(_) | Call::TestRedemption(_) => return None,
    })
}

/// A row with these numbers in front and zeros behind them.
fn row<const COUNT: usize>(numbers: [u64; COUNT]) -> [u64; ROW_NUMBERS] {
    let mut row = [0; ROW_NUMBERS];
    row[..COUNT].copy_from_slice(&numbers);
    row
}

fn order_row(kind: u64, order: &Order, starts: PerList<usize>) -> [u64; ROW_NUMBERS] {
    let parts = starts.zip(order.lengths).each();
    let [records, investor, fund] = parts.map(|(start, length)| [start as u64, length as u64]);
    row([
        kind,
        order.account,
        order.units,
        records[0],
        records[1],
        investor[0],
        investor[1],
        fund[0],
        fund[1],
    ])
}

/// Rows of calls one after another, each order with its own parts of the runs,
/// and the lengths of these runs.
pub fn rows_of<'c>(calls: impl IntoIterator<Item = &'c Call>) -> (Vec<u64>, Lengths) {
    let (mut rows, mut lengths) = (Vec::new(), Lengths::default());
    for call in calls {
        rows.extend(row_of(call, lengths).into_iter().flatten());
        let parts = lengths.zip(call.lengths());
        lengths = parts.map(|(length, part)| length + part);
    }
    (rows, lengths)
}

/// Numbers of the answers to some rows.
pub fn answers_length(rows: &[u64]) -> usize {
    rows.len() / ROW_NUMBERS * ANSWER_NUMBERS
}

#[cfg(test)]
mod tests {
    use super::*;

    fn counted<const LENGTH: usize>() -> [u64; LENGTH] {
        std::array::from_fn(|at| at as u64)
    }

    #[test]
    fn a_day_survives_its_numbers() {
        let mut numbers = counted::<DAY_NUMBERS>();
        for below_zero in [0, 1] {
            numbers[6] = below_zero;
            let day = day_of(&numbers);
            assert_eq!(
                day.fund.estimated_cash,
                if below_zero == 1 { -7 } else { 7 }
            );
            assert_eq!(day.fund.limits[7], 15);
            assert_eq!((day.table.0[0][0], day.table.0[9][6]), (16, 85));
            assert_eq!(day.components[0].code, 86);
            let last = &day.components[299];
            let rates_and_amount = [last.premium, last.discount, last.amount];
            assert_eq!(
                rates_and_amount,
                [3, 2, 1].map(|back| DAY_NUMBERS as u64 - back)
            );
            assert_eq!(day_numbers(&day), numbers);
        }
    }

    #[test]
    fn fields_survive_their_numbers() {
        let mut numbers = counted::<FIELD_NUMBERS>();
        (numbers[4], numbers[17]) = (0, 1);
        let (head, count) = fields_of(&numbers);
        assert_eq!((head.cash_component, head.nav, count), (-18, 20, 21));
        assert_eq!(field_numbers(&head, count), numbers);
    }

    #[test]
    fn a_part_survives_its_numbers() {
        assert_eq!(part_of(b"[ETF50]", part_numbers(Some(4..6))), b"50");
        assert_eq!(part_numbers(None), [0, 0]);
        assert!(part_of(b"", part_numbers(None)).is_empty());
    }

    #[test]
    fn every_signed_number_survives() {
        for number in [i64::MIN, -1, 0, 1, i64::MAX] {
            assert_eq!(signed_of(&signed_numbers(number)), number);
        }
    }
}
