//! The runs of numbers in which a fund, components, a list's fields and the
//! rows of the driver cross to the archive.

use crate::{
    Cents, Component, FlagTable, Fund, Head, Limits, Money, Rate, Switch, Units, MOST_COMPONENTS,
};

/// Numbers of a fund: first code, basket size, maximum cash ratio, switch,
/// estimated cash (two numbers), the eight limits.
pub const FUND_NUMBERS: usize = 14;
/// Numbers of a component: code, quantity, flag, premium, discount, amount.
pub const COMPONENT_NUMBERS: usize = 6;
/// Flags, 0 to 9.
pub const FLAGS: usize = 10;
/// Columns of the flag table: the paper's six, and whether the flag is in use.
pub const FLAG_COLUMNS: usize = 7;
/// Numbers of a flag table, a row for each flag.
pub const TABLE_NUMBERS: usize = FLAGS * FLAG_COLUMNS;
/// Where the flag table stands in a day, behind its two counts and the fund, and
/// where the components do.
const TABLE_FROM: usize = 2 + FUND_NUMBERS;
const COMPONENTS_FROM: usize = TABLE_FROM + TABLE_NUMBERS;
/// Numbers of a day: accounts, components, the fund, the flag table, room for all
/// components.
pub const DAY_NUMBERS: usize = COMPONENTS_FROM + COMPONENT_NUMBERS * MOST_COMPONENTS;
/// Numbers of a list's fields: the fund, Publish, TradingDay, PreTradingDay,
/// CashComponent (two numbers), NAVperCU, NAV, the count of components.
pub const FIELD_NUMBERS: usize = FUND_NUMBERS + 8;
/// Numbers of a part of a text: its place and its length.
pub const PART_NUMBERS: usize = 2;
/// Numbers of a record: code, side, quantity, price, amount.
pub const RECORD_NUMBERS: usize = 5;
/// Numbers of a report: type, side, code, quantity, three groups of kind and
/// amount.
pub const REPORT_NUMBERS: usize = 10;
/// Numbers of a row of the driver: the kind of the call, and its arguments.
pub const ROW_NUMBERS: usize = 9;
/// Numbers of an answer: number, place, value, count of reports.
pub const ANSWER_NUMBERS: usize = 4;
/// Bytes of a component's name.
pub const NAME_BYTES: usize = 8;
/// Numbers of an account before its lots: cash, created, redeemed.
pub const STRETCH_HEAD: usize = 3;
/// Lots of a line: old, bought, got.
pub const LOTS: usize = 3;

const LIMITS_FROM: usize = 6;

/// Numbers of an account in the book of a day with so many components.
pub const fn stretch_width(components: usize) -> usize {
    STRETCH_HEAD + LOTS * (components + 1)
}

/// The most records that an order makes on so many components: the unit under
/// two codes, stock, and two records each of Shanghai and of other cash.
pub const fn most_records(components: usize) -> usize {
    components + 6
}

/// The most reports that an order makes to each party on so many components:
/// the unit, stock, and all cash.
pub const fn most_reports(components: usize) -> usize {
    components + 2
}

/// A number that may be below zero: 1 where it is, and its size.
fn signed_numbers(number: Cents) -> [u64; 2] {
    [u64::from(number.0 < 0), number.0.unsigned_abs()]
}

fn signed_of(numbers: &[u64]) -> Cents {
    Cents(match numbers[0] {
        1 => 0i64.wrapping_sub_unsigned(numbers[1]),
        _ => 0i64.wrapping_add_unsigned(numbers[1]),
    })
}

pub fn fund_numbers(fund: &Fund) -> [u64; FUND_NUMBERS] {
    let [below_zero, size] = signed_numbers(fund.estimated_cash);
    let mut numbers = [0; FUND_NUMBERS];
    numbers[..LIMITS_FROM].copy_from_slice(&[
        fund.first_code,
        fund.basket_size.0,
        fund.max_cash_ratio.0,
        fund.switch.number(),
        below_zero,
        size,
    ]);
    numbers[LIMITS_FROM..].copy_from_slice(&fund.limits.in_order().map(|limit| limit.0));
    numbers
}

/// The fund that the first `FUND_NUMBERS` of an accepted list's fields say.
fn fund_of(numbers: &[u64]) -> Fund {
    let limits = std::array::from_fn(|at| Units(numbers[LIMITS_FROM + at]));
    let switch = Switch::ALL.get(numbers[3] as usize).copied();
    Fund {
        first_code: numbers[0],
        basket_size: Units(numbers[1]),
        max_cash_ratio: Rate(numbers[2]),
        switch: switch.unwrap_or_default(),
        estimated_cash: signed_of(&numbers[4..]),
        limits: Limits::from_order(limits),
    }
}

/// The flag table in a day's numbers.
pub fn table_of(day: &[u64; DAY_NUMBERS]) -> FlagTable {
    let numbers = &day[TABLE_FROM..];
    FlagTable::new(std::array::from_fn(|flag| {
        std::array::from_fn(|column| numbers[FLAG_COLUMNS * flag + column])
    }))
}

pub fn component_numbers(component: &Component) -> [u64; COMPONENT_NUMBERS] {
    [
        component.code,
        component.quantity,
        component.flag,
        component.premium.0,
        component.discount.0,
        component.amount.0,
    ]
}

pub fn component_of(numbers: &[u64]) -> Component {
    Component {
        code: numbers[0],
        quantity: numbers[1],
        flag: numbers[2],
        premium: Rate(numbers[3]),
        discount: Rate(numbers[4]),
        amount: Money(numbers[5]),
    }
}

/// The numbers of components, one after the other.
pub fn component_run(components: &[Component]) -> Vec<u64> {
    components.iter().flat_map(component_numbers).collect()
}

/// A list's head and its count of components.
pub fn field_numbers(head: &Head, count: u64) -> [u64; FIELD_NUMBERS] {
    let [below_zero, size] = signed_numbers(head.cash_component);
    let mut numbers = [0; FIELD_NUMBERS];
    numbers[..FUND_NUMBERS].copy_from_slice(&fund_numbers(&head.fund));
    numbers[FUND_NUMBERS..].copy_from_slice(&[
        u64::from(head.publish),
        head.trading_day,
        head.pre_trading_day,
        below_zero,
        size,
        head.nav_per_basket.0 as u64,
        head.nav,
        count,
    ]);
    numbers
}

/// The head that an accepted list's fields say.
pub fn head_of(numbers: &[u64; FIELD_NUMBERS]) -> Head {
    let rest = &numbers[FUND_NUMBERS..];
    Head {
        fund: fund_of(numbers),
        publish: rest[0] == 1,
        trading_day: rest[1],
        pre_trading_day: rest[2],
        cash_component: signed_of(&rest[3..]),
        nav_per_basket: Cents(rest[5] as i64),
        nav: rest[6],
    }
}

/// The part of a text that its numbers say.
pub fn part_of(text: &[u8], numbers: [u64; PART_NUMBERS]) -> &[u8] {
    let [place, length] = numbers.map(|number| number as usize);
    &text[place..][..length]
}

#[cfg(test)]
mod tests {
    use super::*;

    #[test]
    fn fields_survive_their_numbers() {
        let mut numbers: [u64; FIELD_NUMBERS] = std::array::from_fn(|at| at as u64);
        (numbers[4], numbers[14], numbers[17]) = (0, 1, 1);
        let head = head_of(&numbers);
        assert_eq!((head.cash_component, head.nav), (Cents(-18), 20));
        assert_eq!(head.fund.switch, Switch::RedemptionOnly);
        assert_eq!(head.fund.limits.net_redemption_per_account, Units(13));
        assert_eq!(field_numbers(&head, 21), numbers);
    }

    #[test]
    fn components_survive_their_numbers() {
        let numbers = [1, 2, 3, 4, 5, 6];
        let component = component_of(&numbers);
        assert_eq!((component.premium, component.discount), (Rate(4), Rate(5)));
        assert_eq!(component_numbers(&component), numbers);
    }

    #[test]
    fn the_table_stands_behind_the_fund() {
        let mut day = [0; DAY_NUMBERS];
        assert_eq!(DAY_NUMBERS, 1_886);
        day[16..86].copy_from_slice(FlagTable::OURS.as_run());
        assert_eq!(table_of(&day), FlagTable::OURS);
        (day[15], day[86]) = (9, 9);
        assert_eq!(table_of(&day), FlagTable::OURS);
        (day[16], day[85]) = (7, 8);
        let table = table_of(&day);
        assert_eq!((table.row(0)[0], table.row(9)[6]), (7, 8));
    }

    #[test]
    fn every_signed_number_survives() {
        for number in [i64::MIN, -1, 0, 1, i64::MAX] {
            assert_eq!(signed_of(&signed_numbers(Cents(number))), Cents(number));
        }
    }
}
