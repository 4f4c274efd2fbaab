//! One component line of the list text.

use super::super::flags::FlagColumn::{AmountUsed, RateUsed};
use super::super::flags::FlagTable;
use super::super::types::Component;
use super::layout::{
    Field, AMOUNT, BAR, CODE, COMPONENT_LINE, DISCOUNT, FIELDS, FLAG, NAME, PREMIUM, QUANTITY,
};
use super::numbers::{after_blanks, decimal, digits, put_digits, put_right, whole};

const RATE_DECIMALS: usize = 5;
const AMOUNT_DECIMALS: usize = 3;

/// Whether a name has none of the bytes barred from it.
pub(super) fn name_fits(name: &[u8]) -> bool {
    name.iter()
        .all(|byte| !matches!(byte, b'|' | b'\r' | b'\n'))
}

/// The component of a line whose bars stand right, or its first field that is
/// not written as it must be under this table.
pub(super) fn read_component(line: &[u8], table: &FlagTable) -> Result<Component, Field> {
    let code = digits(CODE.of(line)).ok_or(CODE)?;
    if !name_fits(NAME.of(line)) {
        return Err(NAME);
    }
    let quantity = whole(after_blanks(QUANTITY.of(line))).ok_or(QUANTITY)?;
    let flag = digits(FLAG.of(line)).ok_or(FLAG)?;
    let used = |field: Field, column, decimals| {
        let is_used = table.says(flag, column);
        number_or_blank(field.of(line), is_used, decimals).ok_or(field)
    };
    let premium = used(PREMIUM, RateUsed, RATE_DECIMALS)?;
    let discount = used(DISCOUNT, RateUsed, RATE_DECIMALS)?;
    let amount = used(AMOUNT, AmountUsed, AMOUNT_DECIMALS)?;
    Ok(Component {
        code,
        quantity,
        flag,
        premium,
        discount,
        amount,
    })
}

/// A used number right in blanks, or 0 for an unused one left blank.
fn number_or_blank(bytes: &[u8], used: bool, decimals: usize) -> Option<u64> {
    let rest = after_blanks(bytes);
    if used {
        decimal(rest, decimals)
    } else {
        rest.is_empty().then_some(0)
    }
}

/// Writes the line of a component that is in range under this table.
pub(super) fn put_component(
    line: &mut [u8],
    component: &Component,
    table: &FlagTable,
    name: &[u8],
) {
    line[..COMPONENT_LINE].fill(b' ');
    put_digits(&mut line[CODE.start..CODE.end], component.code);
    line[NAME.start..NAME.end].copy_from_slice(name);
    put_right(
        &mut line[QUANTITY.start..QUANTITY.end],
        component.quantity,
        0,
    );
    put_digits(&mut line[FLAG.start..FLAG.end], component.flag);
    if table.says(component.flag, RateUsed) {
        for (field, rate) in [(PREMIUM, component.premium), (DISCOUNT, component.discount)] {
            put_right(&mut line[field.start..field.end], rate, RATE_DECIMALS);
        }
    }
    if table.says(component.flag, AmountUsed) {
        put_right(
            &mut line[AMOUNT.start..AMOUNT.end],
            component.amount,
            AMOUNT_DECIMALS,
        );
    }
    for field in FIELDS {
        line[field.end] = BAR;
    }
}
