//! Random list texts, built line by line.

use super::tables::{damage_table_run, lent_table, sound_table};
use super::{lists, text_damage, Rng, Scale};
use crate::model::list::{HEAD_NAMES, NAME_BYTES};
use crate::model::{
    range, Component, FlagColumn, FlagTable, Fund, COMPONENT_NUMBERS, MAX_COMPONENTS,
};

/// A text with the flag table to read it by, and the length, in numbers, of the
/// lent component list.
#[derive(Clone, Debug)]
pub struct TextCase {
    pub text: Vec<u8>,
    /// The run of the flag table; empty where none is given.
    pub table: Vec<u64>,
    pub room: usize,
}

impl TextCase {
    /// A text that is read, names in any case.
    pub fn sound(rng: &mut Rng) -> Self {
        let lines = Lines::random(rng);
        let needed = COMPONENT_NUMBERS * lines.component_count();
        TextCase {
            text: lines.text(),
            table: lent_table(rng, &lines.table),
            room: enough_room(rng, needed),
        }
    }

    /// A text with one fault or several, or with too little room or another table.
    pub fn damaged(rng: &mut Rng) -> Self {
        let mut lines = Lines::random(rng);
        let needed = COMPONENT_NUMBERS * lines.component_count();
        let mut table = lent_table(rng, &lines.table);
        if rng.one_in(25) {
            return TextCase {
                text: lines.text(),
                table,
                room: rng.index(needed),
            };
        }
        if rng.one_in(12) {
            table = other_table(rng, table);
        }
        let faults = rng.pick(&[0, 1, 1, 1, 1, 1, 1, 2, 2, 3]);
        let in_lines = rng.between(0, faults);
        for _ in 0..in_lines {
            text_damage::damage_lines(rng, &mut lines);
        }
        let mut text = lines.text();
        for _ in in_lines..faults {
            text_damage::damage_bytes(rng, &mut text);
        }
        TextCase {
            text,
            table,
            room: enough_room(rng, needed + COMPONENT_NUMBERS),
        }
    }
}

/// No table, another that keeps the rules, or one that breaks a rule.
fn other_table(rng: &mut Rng, mut run: Vec<u64>) -> Vec<u64> {
    match rng.below(5) {
        0 => run.clear(),
        1 => run = sound_table(rng).numbers().to_vec(),
        _ => damage_table_run(rng, &mut run),
    }
    run
}

fn enough_room(rng: &mut Rng, needed: usize) -> usize {
    rng.pick(&[
        needed,
        needed + 1,
        needed + 7,
        COMPONENT_NUMBERS * MAX_COMPONENTS,
    ])
    .max(needed)
}

/// The lines of a text, each with its own end.
#[derive(Clone, Debug)]
pub(super) struct Lines {
    pub(super) first: Line,
    pub(super) head: Vec<Line>,
    pub(super) before: Line,
    pub(super) components: Vec<Line>,
    pub(super) after: Line,
    pub(super) first_code: u64,
    /// By which the component lines are written.
    pub(super) table: FlagTable,
}

#[derive(Clone, Debug)]
pub(super) struct Line {
    pub(super) bytes: Vec<u8>,
    pub(super) end: Vec<u8>,
}

impl Line {
    pub(super) fn new(bytes: impl Into<Vec<u8>>) -> Self {
        Line {
            bytes: bytes.into(),
            end: b"\r\n".to_vec(),
        }
    }
}

impl Lines {
    fn random(rng: &mut Rng) -> Self {
        let scale = Scale::any(rng);
        let count = match rng.below(40) {
            0 => rng.pick(&[299, 300]),
            1..=4 => rng.between(7, 40),
            _ => rng.between(1, 6),
        };
        let fund = lists::fund(rng, scale);
        let table = sound_table(rng);
        let components = lists::components(rng, scale, count, fund.first_code, &table);
        Lines {
            first: Line::new(format!("[ETF{}]", letters(rng))),
            head: head(rng, &fund, count),
            before: Line::new("TAGTAG"),
            components: components
                .iter()
                .map(|each| component_line(each, &table, &name(rng)))
                .collect(),
            after: Line::new("ENDENDEND"),
            first_code: fund.first_code,
            table,
        }
    }

    pub(super) fn component_count(&self) -> usize {
        self.components.len()
    }

    pub(super) fn each_mut(&mut self) -> Vec<&mut Line> {
        let mut lines = vec![&mut self.first];
        lines.extend(&mut self.head);
        lines.push(&mut self.before);
        lines.extend(&mut self.components);
        lines.push(&mut self.after);
        lines
    }

    fn text(&self) -> Vec<u8> {
        let lines = [&self.first]
            .into_iter()
            .chain(&self.head)
            .chain([&self.before]);
        let lines = lines.chain(&self.components).chain([&self.after]);
        lines
            .flat_map(|line| line.bytes.iter().chain(&line.end))
            .copied()
            .collect()
    }
}

/// One to eight letters or digits.
pub(super) fn letters(rng: &mut Rng) -> String {
    let choices = b"0189AZazmM";
    let length = rng.ends(1, 8);
    (0..length).map(|_| rng.pick(choices) as char).collect()
}

/// Eight bytes without those barred from a name.
pub(super) fn name(rng: &mut Rng) -> Vec<u8> {
    let style = rng.below(3);
    let mut name = Vec::new();
    while name.len() < NAME_BYTES {
        let byte = match style {
            0 => rng.between(0xA1, 0xFE) as u8,
            1 if name.len() < 4 => rng.between(b'A'.into(), b'Z'.into()) as u8,
            1 => b' ',
            _ => rng.number() as u8,
        };
        if !matches!(byte, b'|' | b'\r' | b'\n') {
            name.push(byte);
        }
    }
    name
}

fn head(rng: &mut Rng, fund: &Fund, count: u64) -> Vec<Line> {
    let mut values = vec![
        format!("{:06}", fund.first_code + 1),
        fund.basket_size.to_string(),
        decimals(fund.max_cash_ratio, 5),
        rng.below(2).to_string(),
        fund.switch.to_string(),
        count.to_string(),
        money(fund.estimated_cash),
        format!("{:08}", date(rng)),
        format!("{:08}", date(rng)),
        money(cash_component(rng)),
        decimals(rng.ends(0, range::NAV_PER_BASKET_MAX), 2),
        decimals(rng.ends(0, range::NAV_MAX), 4),
    ];
    values.extend(fund.limits.iter().map(u64::to_string));
    let style = rng.below(4);
    let names = HEAD_NAMES
        .iter()
        .map(|name| in_some_case(rng, name, style))
        .collect::<Vec<_>>();
    names
        .iter()
        .zip(values)
        .map(|(name, value)| Line::new(format!("{name}={value}")))
        .collect()
}

/// The name as written, or with letters of either case.
fn in_some_case(rng: &mut Rng, name: &str, style: u64) -> String {
    match style {
        0 => name.to_ascii_lowercase(),
        1 => name.to_ascii_uppercase(),
        2 => name.chars().map(|letter| flip_case(rng, letter)).collect(),
        _ => name.to_string(),
    }
}

fn flip_case(rng: &mut Rng, letter: char) -> char {
    if rng.one_in(2) {
        letter.to_ascii_uppercase()
    } else {
        letter.to_ascii_lowercase()
    }
}

/// A number with its last digits after a point.
pub(super) fn decimals(number: u64, decimals: u32) -> String {
    let one = 10u64.pow(decimals);
    format!(
        "{}.{:0width$}",
        number / one,
        number % one,
        width = decimals as usize
    )
}

fn money(money: i64) -> String {
    let sign = if money < 0 { "-" } else { "" };
    format!("{sign}{}", decimals(money.unsigned_abs(), 2))
}

pub(super) fn cash_component(rng: &mut Rng) -> i64 {
    let (low, high) = (*range::ESTIMATED_CASH.start(), *range::ESTIMATED_CASH.end());
    rng.pick(&[low, low + 1, -33_122, -1, 0, 1, 99, 100, high - 1, high])
}

/// A real date.
pub(super) fn date(rng: &mut Rng) -> u64 {
    match rng.below(3) {
        0 => rng.pick(&[
            10_101, 99_991_231, 20_000_229, 20_240_229, 4_000_229, 19_001_231,
        ]),
        _ => 10_000 * rng.between(1, 9_999) + 100 * rng.between(1, 12) + rng.between(1, 28),
    }
}

pub(super) fn component_line(component: &Component, table: &FlagTable, name: &[u8]) -> Line {
    let rate = |rate| match table.says(component.flag, FlagColumn::RateUsed) {
        true => decimals(rate, 5),
        false => String::new(),
    };
    let (premium, discount) = (rate(component.premium), rate(component.discount));
    let amount = if table.says(component.flag, FlagColumn::AmountUsed) {
        decimals(component.amount, 3)
    } else {
        String::new()
    };
    let mut bytes = format!("{:06}|", component.code).into_bytes();
    bytes.extend_from_slice(name);
    let Component { quantity, flag, .. } = component;
    bytes.extend(format!("|{quantity:>8}|{flag}|{premium:>7}|{discount:>7}|{amount:>12}|").bytes());
    Line::new(bytes)
}
