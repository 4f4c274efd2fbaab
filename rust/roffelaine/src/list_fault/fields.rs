//! Fields that are not written as they must be (refusal 19).

use super::digits::{date_expected, digits_expected};
use super::ends::end_fault;
use super::flags::{flag_of, in_use_words};
use super::form::{
    Column, Form, HeadField, AMOUNT, BAR, COLUMNS, DISCOUNT, FIRST_FIELD, FIRST_ROW, FLAG, HEAD,
    LINE_END, NAME, PREMIUM, QUANTITY, ROW_BYTES,
};
use super::numbers::Number;
use super::text_lines::{line_with, Line};
use super::ListFault;
use crate::{FlagColumn, FlagTable, Money, Rate};

/// The fault in the field that starts at a place.
pub fn fault(text: &[u8], place: usize, table: &FlagTable) -> Option<ListFault> {
    let (number, line) = line_with(text, place)?;
    if number >= FIRST_ROW {
        return row_fault(text, &line, place, table);
    }
    let field = HEAD.get(number.checked_sub(FIRST_FIELD)?)?;
    let start = line.start + field.name.len() + 1;
    let value = line.bytes.get(field.name.len() + 1..)?;
    if start != place {
        return None;
    }
    // A CR or LF in a value is the end of a line that should be CR LF.
    if let Some(end) = value.iter().position(|byte| LINE_END.contains(byte)) {
        return Some(end_fault(text, place + end));
    }
    let expected = value_expected(field, value);
    Some(ListFault::new(text, place, field.name, value, expected))
}

fn value_expected(field: &HeadField, value: &[u8]) -> String {
    match field.form {
        Form::Digits(width) => digits_expected(value, width),
        Form::Number(number) => number.expected(value),
        Form::ZeroOrOne => "0 or 1".to_owned(),
        Form::Date => date_expected(value),
    }
}

/// The fault in a field of a component line.
fn row_fault(text: &[u8], line: &Line<'_>, place: usize, table: &FlagTable) -> Option<ListFault> {
    let at = place.checked_sub(line.start)?;
    let column = COLUMNS.iter().find(|column| column.start == at)?;
    if line.bytes.len() != ROW_BYTES {
        return None;
    }
    let found = column.of(line.bytes);
    let flag = FLAG.of(line.bytes)[0];
    let expected = match *column {
        NAME => name_expected(found),
        QUANTITY => Number::unsigned(0).expected_right(found, QUANTITY.width),
        FLAG => format!("a digit; {}", in_use_words(table)),
        PREMIUM | DISCOUNT | AMOUNT => used_expected(*column, flag, found, table),
        _ => digits_expected(found, column.width),
    };
    Some(ListFault::new(text, place, column.name, found, expected))
}

/// What is expected of a name that has a byte barred from it.
fn name_expected(name: &[u8]) -> String {
    let bar = name.iter().position(|&byte| byte == BAR);
    let Some(bar) = bar else {
        return "a name has no CR or LF".to_owned();
    };
    // Characters of GBK have two bytes, the first of 81 to FE.
    match bar.checked_sub(1).map(|before| name[before]) {
        Some(0x81..=0xfe) => {
            "a name has no \"|\"; here it may be the second byte of a character in GBK".to_owned()
        }
        _ => "a name has no \"|\"".to_owned(),
    }
}

/// What is expected of a rate or an amount under a flag.
fn used_expected(column: Column, flag: u8, found: &[u8], table: &FlagTable) -> String {
    let (use_of_it, decimals, one) = match column {
        PREMIUM | DISCOUNT => (FlagColumn::RateUsed, Rate::DECIMALS, "a"),
        _ => (FlagColumn::AmountUsed, Money::DECIMALS, "an"),
    };
    let (number, flag, name) = (flag_of(flag), char::from(flag), column.name);
    if !table.says(number, FlagColumn::InUse) {
        let in_use = in_use_words(table);
        return format!("flag {flag} uses no {name}: blank; {in_use}");
    }
    if !table.says(number, use_of_it) {
        return format!("flag {flag} uses no {name}: blank");
    }
    let expected = Number::unsigned(decimals).expected_right(found, column.width);
    if found.trim_ascii().is_empty() {
        return format!("flag {flag} uses {one} {name}: {expected}");
    }
    expected
}
