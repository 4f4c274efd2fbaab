//! Writing the list text (refusals 21, 1, 2, 3, 16).

use super::super::flags::FlagTable;
use super::super::range;
use super::super::refusal::{Refusal, Reply, COMPONENT, FUND_FIELD, LIST_TOO_SHORT, SIZES};
use super::super::types::{first_faulty_component, Component, COMPONENT_NUMBERS};
use super::component_line::{name_fits, put_component};
use super::head::Head;
use super::layout::{
    letters_fit, COMPONENTS_AFTER, COMPONENTS_BEFORE, COMPONENT_LINE, COMPONENT_STRIDE, HEAD_NAMES,
    LETTERS_AFTER, LETTERS_BEFORE, LINE_END, NAME_BYTES,
};
use super::numbers::{put_digits, put_right};

/// A list to write.
#[derive(Clone, Copy, Debug)]
pub struct Writing<'a> {
    pub letters: &'a [u8],
    pub head: Head,
    pub count: u64,
    /// Flat run of a flag table; none is given where it is empty.
    pub table: &'a [u64],
    /// Flat run of components, 6 numbers each.
    pub components: &'a [u64],
    /// Names of 8 bytes each.
    pub names: &'a [u8],
}

/// Writes the list to the lent output; the value of the reply is the count of
/// bytes, and what is past them stays.
pub fn write(list: &Writing<'_>, output: &mut [u8]) -> Reply {
    write_list(list, output).map(|bytes| bytes as u64).into()
}

fn write_list(list: &Writing<'_>, output: &mut [u8]) -> Result<usize, Refusal> {
    let table = FlagTable::for_text(list.table)?;
    test_list(list, &table)?;
    let mut space = [0; HEAD_ROOM];
    let head = head_text(list, &mut space);
    let components_end = head.len() + COMPONENT_STRIDE * list.count as usize;
    let length = components_end + COMPONENTS_AFTER.len();
    let Some(output) = output.get_mut(..length) else {
        return Err(Refusal::new(LIST_TOO_SHORT));
    };
    output[..head.len()].copy_from_slice(head);
    let lines = output[head.len()..components_end].chunks_exact_mut(COMPONENT_STRIDE);
    for ((line, component), name) in lines.zip(list.listed()).zip(list.each_name()) {
        put_component(line, &component, &table, name);
        line[COMPONENT_LINE..].copy_from_slice(LINE_END);
    }
    output[components_end..].copy_from_slice(COMPONENTS_AFTER);
    Ok(length)
}

impl<'a> Writing<'a> {
    fn listed(&self) -> impl Iterator<Item = Component> + 'a {
        self.components
            .chunks_exact(COMPONENT_NUMBERS)
            .map(Component::from_numbers)
    }

    fn each_name(&self) -> impl Iterator<Item = &'a [u8]> {
        self.names.chunks_exact(NAME_BYTES)
    }
}

fn test_list(list: &Writing<'_>, table: &FlagTable) -> Result<(), Refusal> {
    let sizes_fit = range::COMPONENTS.contains(&list.count)
        && list.components.len() == COMPONENT_NUMBERS * list.count as usize
        && list.names.len() == NAME_BYTES * list.count as usize;
    if !sizes_fit {
        return Err(Refusal::new(SIZES));
    }
    if !list.head.in_range() || !letters_fit(list.letters) {
        return Err(Refusal::new(FUND_FIELD));
    }
    let component = first_faulty_component(list.head.fund.first_code, table, list.listed());
    let name = list.each_name().position(|name| !name_fits(name));
    match component.into_iter().chain(name).min() {
        Some(place) => Err(Refusal::at(COMPONENT, place)),
        None => Ok(()),
    }
}

/// More than the longest head has.
const HEAD_ROOM: usize = 1024;

/// The text up to the component lines.
fn head_text<'s>(list: &Writing<'_>, space: &'s mut [u8; HEAD_ROOM]) -> &'s [u8] {
    let head = &list.head;
    let fund = &head.fund;
    let mut writer = HeadWriter {
        space,
        at: 0,
        names: HEAD_NAMES.iter(),
    };
    writer.bytes(LETTERS_BEFORE);
    writer.bytes(list.letters);
    writer.bytes(LETTERS_AFTER);
    writer.fixed(fund.first_code + 1, 6);
    writer.number(fund.basket_size, 0);
    writer.number(fund.max_cash_ratio, 5);
    writer.number(head.publish, 0);
    writer.number(fund.switch, 0);
    writer.number(list.count, 0);
    writer.money(fund.estimated_cash);
    writer.fixed(head.trading_day, 8);
    writer.fixed(head.pre_trading_day, 8);
    writer.money(head.cash_component);
    writer.number(head.nav_per_basket, 2);
    writer.number(head.nav, 4);
    for limit in fund.limits {
        writer.number(limit, 0);
    }
    writer.bytes(COMPONENTS_BEFORE);
    let length = writer.at;
    &space[..length]
}

/// Writes the head's lines one after another.
struct HeadWriter<'s> {
    space: &'s mut [u8; HEAD_ROOM],
    at: usize,
    names: std::slice::Iter<'static, &'static str>,
}

impl HeadWriter<'_> {
    fn bytes(&mut self, bytes: &[u8]) {
        self.space[self.at..][..bytes.len()].copy_from_slice(bytes);
        self.at += bytes.len();
    }

    /// The next name, "=", the value and the line's end.
    fn line(&mut self, value: &[u8]) {
        let name = self.names.next().copied().unwrap_or_default();
        self.bytes(name.as_bytes());
        self.bytes(b"=");
        self.bytes(value);
        self.bytes(LINE_END);
    }

    fn fixed(&mut self, number: u64, length: usize) {
        let mut place = [0; 8];
        put_digits(&mut place[..length], number);
        self.line(&place[..length]);
    }

    fn number(&mut self, number: u64, decimals: usize) {
        let mut place = [0; 24];
        let blank = put_right(&mut place, number, decimals).len();
        self.line(&place[blank..]);
    }

    fn money(&mut self, money: i64) {
        let mut place = [0; 24];
        let mut start = put_right(&mut place, money.unsigned_abs(), 2).len();
        if money < 0 {
            start -= 1;
            place[start] = b'-';
        }
        self.line(&place[start..]);
    }
}
