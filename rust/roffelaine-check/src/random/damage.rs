//! Single faults in a fund or a component under a flag table, shared by openings,
//! days and lists.

use super::tables::flags_in_use;
use super::Rng;
use crate::model::{range, Component, FlagColumn, FlagTable, Fund, COMPONENT_NUMBERS, FLAGS};

/// Takes one field of the fund out of its range.
pub(super) fn damage_fund(rng: &mut Rng, fund: &mut Fund) {
    let most = u64::MAX;
    match rng.below(7) {
        0 => fund.first_code = rng.pick(&[range::FIRST_CODE_MAX + 1, 999_999, most - 4, most]),
        1 => fund.basket_size = rng.pick(&[0, range::BASKET_SIZE.end() + 1, most]),
        2 => fund.max_cash_ratio = rng.pick(&[range::RATIO_MAX + 1, most]),
        3 => fund.switch = rng.pick(&[4, 9, most]),
        4 => {
            let (low, high) = (*range::ESTIMATED_CASH.start(), *range::ESTIMATED_CASH.end());
            fund.estimated_cash = rng.pick(&[low - 1, high + 1, i64::MIN, i64::MAX]);
        }
        5 => {
            let at = rng.index(fund.limits.len());
            fund.limits[at] = rng.pick(&[range::LIMIT_MAX + 1, most, most - 1]);
        }
        _ => {
            // No multiple, unless the basket is a single unit.
            let at = rng.index(fund.limits.len());
            fund.limits[at] = fund.limits[at].saturating_add(1).min(range::LIMIT_MAX);
        }
    }
}

/// Takes one of the components out of its range, order or flag use.
pub(super) fn damage_a_component(
    rng: &mut Rng,
    first_code: u64,
    table: &FlagTable,
    components: &mut [Component],
) {
    if components.is_empty() {
        return;
    }
    if rng.one_in(6) {
        return put_in_group(rng, first_code, components);
    }
    let at = rng.index(components.len());
    let previous = at.checked_sub(1).map(|before| components[before].code);
    let component = &mut components[at];
    let most = u64::MAX;
    match rng.below(9) {
        0 => component.code = rng.pick(&[range::CODE_MAX + 1, most]),
        1 => component.code = previous.unwrap_or(range::CODE_MAX + 1),
        2 => component.code = previous.map_or(most, |code| code.saturating_sub(1)),
        3 => component.quantity = rng.pick(&[range::QUANTITY_MAX + 1, most]),
        4 => component.flag = flag_not_in_use(rng, table),
        5 => component.premium = rng.pick(&[range::RATE_MAX + 1, most]),
        6 => component.discount = rng.pick(&[range::RATE_MAX + 1, most]),
        7 => component.amount = rng.pick(&[range::AMOUNT_MAX + 1, most]),
        _ => set_unused(rng, table, component),
    }
}

/// A flag that the table has not in use, or that is no flag.
fn flag_not_in_use(rng: &mut Rng, table: &FlagTable) -> u64 {
    let flags = 0..FLAGS as u64;
    let unused = flags.filter(|&flag| !table.says(flag, FlagColumn::InUse));
    let unused: Vec<u64> = unused.collect();
    if unused.is_empty() || rng.one_in(2) {
        return rng.pick(&[FLAGS as u64, 11, 256, 1 << 32, u64::MAX]);
    }
    rng.pick(&unused)
}

/// Takes one component of a flat run out of its range, order or flag use.
pub(super) fn damage_component_run(
    rng: &mut Rng,
    first_code: u64,
    table: &FlagTable,
    run: &mut [u64],
) {
    let numbers = run.chunks_exact(COMPONENT_NUMBERS);
    let mut components: Vec<Component> = numbers.map(Component::from_numbers).collect();
    damage_a_component(rng, first_code, table, &mut components);
    for (numbers, component) in run.chunks_exact_mut(COMPONENT_NUMBERS).zip(&components) {
        numbers.copy_from_slice(&component.numbers());
    }
}

/// Puts a code in the fund's group, in order if a component stands above it.
fn put_in_group(rng: &mut Rng, first_code: u64, components: &mut [Component]) {
    let code = first_code.saturating_add(rng.between(0, 5));
    let above = components
        .iter_mut()
        .find(|component| component.code > code);
    match above {
        Some(component) => component.code = code,
        None => components[0].code = code,
    }
}

/// Gives the component a premium, a discount or an amount that its flag does
/// not use, and no other of them.
fn set_unused(rng: &mut Rng, table: &FlagTable, component: &mut Component) {
    let numbers = [
        &mut component.premium,
        &mut component.discount,
        &mut component.amount,
    ];
    let at = rng.index(numbers.len());
    let (column, most) = match at {
        2 => (FlagColumn::AmountUsed, range::AMOUNT_MAX),
        _ => (FlagColumn::RateUsed, range::RATE_MAX),
    };
    let in_use = flags_in_use(table).into_iter();
    let flags: Vec<u64> = in_use.filter(|&flag| !table.says(flag, column)).collect();
    if !flags.is_empty() {
        component.flag = rng.pick(&flags);
    }
    let unused = rng.pick(&[1, most]);
    for (place, each) in numbers.into_iter().enumerate() {
        *each = if place == at { unused } else { 0 };
    }
}

/// Makes a run one number longer or shorter, or empties it.
pub(super) fn damage_length<T: Clone + Default>(rng: &mut Rng, run: &mut Vec<T>) {
    match rng.below(4) {
        0 => run.push(T::default()),
        1 => run.extend(run.clone()),
        2 => run.clear(),
        _ => drop(run.pop()),
    }
}
