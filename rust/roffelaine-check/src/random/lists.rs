//! Random funds and components, in range under a flag table.

use super::tables::flags_in_use;
use super::Rng;
use crate::model::{range, Component, FlagColumn, FlagTable, Fund, MAX_COMPONENTS};
use std::collections::BTreeSet;

/// How large the numbers of a case are.
#[derive(Clone, Copy, Debug, PartialEq, Eq)]
pub enum Scale {
    /// A few shares and thousandths, where sums round and orders often pass.
    Tiny,
    /// Like a real list.
    Usual,
    /// Ends of the ranges.
    Ends,
}

/// How many accounts and components a case has.
#[derive(Clone, Copy, Debug, PartialEq, Eq)]
pub enum Size {
    Small,
    Middle,
    Full,
}

impl Scale {
    pub fn any(rng: &mut Rng) -> Self {
        rng.pick(&[
            Scale::Tiny,
            Scale::Tiny,
            Scale::Usual,
            Scale::Usual,
            Scale::Ends,
        ])
    }

    /// A price of this scale.
    pub fn price(self, rng: &mut Rng) -> u64 {
        match self {
            Scale::Tiny => rng.between(1, 30),
            Scale::Usual => rng.between(1_000, 90_000),
            Scale::Ends => {
                let highest = *range::PRICE.end();
                rng.pick(&[1, 2, 28, 1_000, highest - 1, highest])
            }
        }
    }
}

impl Size {
    pub fn any(rng: &mut Rng) -> Self {
        match rng.below(20) {
            0 => Size::Full,
            1..=4 => Size::Middle,
            _ => Size::Small,
        }
    }

    pub fn accounts(self, rng: &mut Rng) -> u64 {
        match self {
            Size::Small => rng.pick(&[2, 3, 3, 4, 4, 5]),
            Size::Middle => rng.between(3, 12),
            Size::Full => rng.pick(&[2, 33, 63, 64]),
        }
    }

    pub fn count(self, rng: &mut Rng) -> u64 {
        match self {
            Size::Small => rng.between(1, 6),
            Size::Middle => rng.between(7, 40),
            Size::Full => rng.pick(&[150, 299, 300]),
        }
    }
}

/// A fund whose fields are all in range.
pub(super) fn fund(rng: &mut Rng, scale: Scale) -> Fund {
    let basket_size = basket_size(rng, scale);
    Fund {
        first_code: rng.pick(&[0, 1, 510_050, 510_300, 999_993, range::FIRST_CODE_MAX]),
        basket_size,
        max_cash_ratio: rng.pick(&[0, 1, 600, 5_000, 50_000, 99_999, 100_000, 100_000]),
        switch: rng.pick(&[1, 1, 1, 1, 1, 1, 1, 2, 3, 0]),
        estimated_cash: estimated_cash(rng, scale),
        limits: std::array::from_fn(|_| limit(rng, basket_size)),
    }
}

fn basket_size(rng: &mut Rng, scale: Scale) -> u64 {
    match scale {
        Scale::Tiny => rng.pick(&[1, 2, 3, 7, 100]),
        Scale::Usual => rng.pick(&[50_000, 900_000, 1_000_000, 50_000_000]),
        Scale::Ends => rng.ends(1, *range::BASKET_SIZE.end()),
    }
}

fn estimated_cash(rng: &mut Rng, scale: Scale) -> i64 {
    let near = |rng: &mut Rng, reach: u64| rng.between(0, 2 * reach) as i64 - reach as i64;
    match scale {
        Scale::Tiny => near(rng, 9),
        Scale::Usual => near(rng, 100_000),
        Scale::Ends => {
            let (low, high) = (*range::ESTIMATED_CASH.start(), *range::ESTIMATED_CASH.end());
            rng.pick(&[low, low + 1, -1, 0, 1, high - 1, high])
        }
    }
}

/// Mostly no limit, else a few baskets or the largest multiple.
fn limit(rng: &mut Rng, basket_size: u64) -> u64 {
    let largest = range::LIMIT_MAX / basket_size;
    match rng.below(20) {
        0..=2 => basket_size * rng.between(1, 40).min(largest),
        3 => basket_size * largest,
        _ => 0,
    }
}

/// Components in order and range for a fund with this first code, under a table
/// that has a flag in use.
pub(super) fn components(
    rng: &mut Rng,
    scale: Scale,
    count: u64,
    first_code: u64,
    table: &FlagTable,
) -> Vec<Component> {
    let flags = weighted_flags(table);
    codes(rng, count as usize, first_code)
        .into_iter()
        .map(|code| {
            let flag = rng.pick(&flags);
            component(rng, scale, code, flag, table)
        })
        .collect()
}

/// The flags in use, those of stock several times.
fn weighted_flags(table: &FlagTable) -> Vec<u64> {
    let times = |&flag: &u64| {
        let moves = table.says(flag, FlagColumn::StockMoves);
        let in_cash = table.says(flag, FlagColumn::ShortageInCash);
        1 + 2 * usize::from(moves) + usize::from(in_cash)
    };
    let flags = flags_in_use(table).into_iter();
    flags
        .flat_map(|flag| std::iter::repeat_n(flag, times(&flag)))
        .collect()
}

/// Rising codes outside the fund's group, its neighbours and 0 among them.
fn codes(rng: &mut Rng, count: usize, first_code: u64) -> BTreeSet<u64> {
    let group = first_code..=first_code + 5;
    let near = [
        0,
        range::CODE_MAX,
        first_code.wrapping_sub(1),
        first_code + 6,
    ];
    let mut codes = BTreeSet::new();
    while codes.len() < count.min(MAX_COMPONENTS + 1) {
        let code = if rng.one_in(8) {
            rng.pick(&near)
        } else {
            rng.below(range::CODE_MAX + 1)
        };
        if code <= range::CODE_MAX && !group.contains(&code) {
            codes.insert(code);
        }
    }
    codes
}

fn component(rng: &mut Rng, scale: Scale, code: u64, flag: u64, table: &FlagTable) -> Component {
    let uses_rates = table.says(flag, FlagColumn::RateUsed);
    let uses_amount = table.says(flag, FlagColumn::AmountUsed);
    Component {
        code,
        quantity: quantity(rng, scale),
        flag,
        premium: if uses_rates { rate(rng) } else { 0 },
        discount: if uses_rates { rate(rng) } else { 0 },
        amount: if uses_amount { amount(rng, scale) } else { 0 },
    }
}

fn quantity(rng: &mut Rng, scale: Scale) -> u64 {
    match scale {
        Scale::Tiny => rng.below(7),
        Scale::Usual => 100 * rng.between(1, 80),
        Scale::Ends => rng.ends(0, range::QUANTITY_MAX),
    }
}

/// One of the two rates; they are mostly unlike.
fn rate(rng: &mut Rng) -> u64 {
    match rng.below(3) {
        0 => rng.between(0, range::RATE_MAX),
        _ => rng.pick(&[0, 1, 9_999, 10_000, 21_000, 50_000, 99_999, range::RATE_MAX]),
    }
}

fn amount(rng: &mut Rng, scale: Scale) -> u64 {
    match scale {
        Scale::Tiny => rng.between(0, 60),
        Scale::Usual => rng.pick(&[0, 999, 999_999, 1_000_000, 96_000_000, 150_000_000]),
        Scale::Ends => rng.ends(0, range::AMOUNT_MAX),
    }
}
