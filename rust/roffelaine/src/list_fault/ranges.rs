//! Numbers that are written well but out of range (refusals 20, 2 and 3).

use super::flags::{flag_of, in_use_words};
use super::form::{
    Column, HeadField, Range, CODE, COUNT_NAME, DISCOUNT, END, FIRST_FIELD, FIRST_ROW, FLAG, HEAD,
    PREMIUM, RATE_RANGE, ROW_BYTES, UNIT_NAME,
};
use super::numbers::number_of;
use super::text_lines::{lines, Line};
use super::ListFault;
use crate::{FlagColumn, FlagTable, Limits, MOST_COMPONENTS};

/// A field of a text's head: where its value stands, and the value.
struct Value<'t> {
    field: &'static HeadField,
    place: usize,
    bytes: &'t [u8],
}

impl Value<'_> {
    fn fault(&self, text: &[u8], expected: String) -> ListFault {
        ListFault::new(text, self.place, self.field.name, self.bytes, expected)
    }
}

/// The values of a text's head, in their order.
fn values(text: &[u8]) -> impl Iterator<Item = Value<'_>> {
    let head = lines(text).skip(FIRST_FIELD).zip(&HEAD);
    head.filter_map(|(line, field)| {
        let start = field.name.len() + 1;
        Some(Value {
            field,
            place: line.start + start,
            bytes: line.bytes.get(start..)?,
        })
    })
}

/// The value of a field.
fn value<'t>(text: &'t [u8], name: &str) -> Option<Value<'t>> {
    values(text).find(|value| value.field.name == name)
}

/// The component lines of a text.
fn rows(text: &[u8]) -> impl Iterator<Item = Line<'_>> {
    let behind = lines(text).skip(FIRST_ROW);
    behind.take_while(|line| line.bytes != END && line.bytes.len() == ROW_BYTES)
}

/// The fault of a Recordnum that is not the count of component lines, or of a
/// count that no list has.
pub fn record_count(text: &[u8]) -> Option<ListFault> {
    let value = value(text, COUNT_NAME)?;
    let (said, count) = (number_of(value.bytes), rows(text).count());
    let follow = match count {
        0 => "no component line follows".to_owned(),
        1 => "1 component line follows".to_owned(),
        _ => format!("{count} component lines follow"),
    };
    let most = MOST_COMPONENTS as i128;
    let expected = match said {
        _ if !(1..=most).contains(&said) => format!("1 to {most}; {follow}"),
        _ if count > MOST_COMPONENTS => format!("{follow}; a list has at most {most}"),
        _ if said != count as i128 => follow,
        _ => return None,
    };
    Some(value.fault(text, expected))
}

/// The fault of the head's first number that is out of its range.
pub fn fund_field(text: &[u8]) -> Option<ListFault> {
    let unit = number_of(value(text, UNIT_NAME)?.bytes);
    values(text).find_map(|value| {
        let range = value.field.range?;
        let number = number_of(value.bytes);
        let expected = match out_of(range, number) {
            Some(words) => words,
            None if Limits::NAMES.contains(&value.field.name) => {
                no_multiple(number, unit, range.most)?
            }
            None => return None,
        };
        Some(value.fault(text, expected))
    })
}

fn out_of(range: Range, number: i128) -> Option<String> {
    let fits = (range.least..=range.most).contains(&number);
    (!fits).then(|| range.words.to_owned())
}

/// The words for a limit that is no multiple of the basket's units.
fn no_multiple(limit: i128, unit: i128, most: i128) -> Option<String> {
    if unit == 0 || limit % unit == 0 {
        return None;
    }
    let below = limit - limit % unit;
    let above = below + unit;
    let multiple = if above <= most { above } else { below };
    Some(format!(
        "a multiple of {UNIT_NAME} {unit}, such as {multiple}"
    ))
}

/// The fault of a component that is out of range or order, or whose flag is not
/// in use.
pub fn component(text: &[u8], number: usize, table: &FlagTable) -> Option<ListFault> {
    let row = rows(text).nth(number)?;
    let before = number
        .checked_sub(1)
        .and_then(|number| rows(text).nth(number));
    let (column, expected) = code_fault(text, &row, before.as_ref())
        .or_else(|| flag_fault(&row, table))
        .or_else(|| rate_fault(&row, PREMIUM))
        .or_else(|| rate_fault(&row, DISCOUNT))?;
    let found = column.of(row.bytes);
    let place = row.start + column.start;
    Some(ListFault::new(text, place, column.name, found, expected))
}

/// Codes of a fund's group, from its first code on.
const GROUP: i128 = 6;

fn code_fault(text: &[u8], row: &Line<'_>, before: Option<&Line<'_>>) -> Option<(Column, String)> {
    let code = number_of(CODE.of(row.bytes));
    let first = number_of(values(text).next()?.bytes) - 1;
    if let Some(before) = before.map(|before| number_of(CODE.of(before.bytes))) {
        if code <= before {
            let expected = format!("codes rise, the one before is {before:06}");
            return Some((CODE, expected));
        }
    }
    let last = first + GROUP - 1;
    (first..=last).contains(&code).then(|| {
        let expected = format!("no code of the fund itself, which has {first:06} to {last:06}");
        (CODE, expected)
    })
}

fn flag_fault(row: &Line<'_>, table: &FlagTable) -> Option<(Column, String)> {
    let flag = flag_of(FLAG.of(row.bytes)[0]);
    (!table.says(flag, FlagColumn::InUse)).then(|| (FLAG, in_use_words(table)))
}

fn rate_fault(row: &Line<'_>, rate: Column) -> Option<(Column, String)> {
    out_of(RATE_RANGE, number_of(rate.of(row.bytes))).map(|words| (rate, words))
}
