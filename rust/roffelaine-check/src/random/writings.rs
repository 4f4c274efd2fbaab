//! Random lists to write, valid and damaged.

use super::damage::{damage_component_run, damage_fund, damage_length};
use super::tables::{damage_table_run, lent_table, sound_table};
use super::{lists, texts, Rng, Scale};
use crate::model::list::{write, Head, Writing, NAME_BYTES};
use crate::model::{range, Component, FlagTable, COMPONENT_NUMBERS};

/// More bytes than any list has.
const LONGEST_TEXT: usize = 20_000;

/// A list to write with what its output holds beforehand.
#[derive(Clone, Debug)]
pub struct WritingCase {
    pub letters: Vec<u8>,
    pub head: Head,
    pub count: u64,
    /// The run of the flag table; empty where none is given.
    pub table: Vec<u64>,
    pub components: Vec<u64>,
    pub names: Vec<u8>,
    pub output: Vec<u8>,
}

impl WritingCase {
    /// A list that is written, with just enough output or more.
    pub fn sound(rng: &mut Rng) -> Self {
        let mut case = Self::without_output(rng);
        let needed = case.needed();
        let length = rng.pick(&[needed, needed, needed + 1, needed + 100]);
        case.output = rng.bytes(length);
        case
    }

    /// A list with one fault or two, or with too little output.
    pub fn damaged(rng: &mut Rng) -> Self {
        let mut case = Self::without_output(rng);
        let needed = case.needed();
        if rng.one_in(6) {
            let length = rng.pick(&[needed - 1, 0, needed / 2]);
            case.output = rng.bytes(length);
            return case;
        }
        case.output = rng.bytes(needed + 40);
        case.damage(rng);
        if rng.one_in(4) {
            case.damage(rng);
        }
        case
    }

    pub fn list(&self) -> Writing<'_> {
        Writing {
            letters: &self.letters,
            head: self.head,
            count: self.count,
            table: &self.table,
            components: &self.components,
            names: &self.names,
        }
    }

    fn without_output(rng: &mut Rng) -> Self {
        let scale = Scale::any(rng);
        let count = match rng.below(30) {
            0 => rng.pick(&[299, 300]),
            1..=3 => rng.between(7, 40),
            _ => rng.between(1, 6),
        };
        let fund = lists::fund(rng, scale);
        let table = sound_table(rng);
        let components = lists::components(rng, scale, count, fund.first_code, &table);
        let head = Head {
            fund,
            publish: rng.below(2),
            trading_day: texts::date(rng),
            pre_trading_day: texts::date(rng),
            cash_component: texts::cash_component(rng),
            nav_per_basket: rng.ends(0, range::NAV_PER_BASKET_MAX),
            nav: rng.ends(0, range::NAV_MAX),
        };
        WritingCase {
            letters: texts::letters(rng).into_bytes(),
            head,
            count,
            table: lent_table(rng, &table),
            components: components.iter().flat_map(Component::numbers).collect(),
            names: (0..count).flat_map(|_| texts::name(rng)).collect(),
            output: Vec::new(),
        }
    }

    /// Bytes of the text.
    fn needed(&self) -> usize {
        write(&self.list(), &mut vec![0; LONGEST_TEXT]).value as usize
    }

    fn damage(&mut self, rng: &mut Rng) {
        match rng.below(13) {
            0 => self.count = near_or_far(rng, self.count),
            1 => self.damage_a_length(rng),
            2 => self.letters = rng.pick(BAD_LETTERS).to_vec(),
            3..=4 => self.damage_head(rng),
            5..=6 => damage_fund(rng, &mut self.head.fund),
            7 => self.damage_a_name(rng),
            8..=9 => damage_table_run(rng, &mut self.table),
            10 => self.table = sound_table(rng).numbers().to_vec(),
            _ => self.damage_a_component(rng),
        }
    }

    fn damage_a_component(&mut self, rng: &mut Rng) {
        let table = FlagTable::given(&self.table).unwrap_or(FlagTable::OURS);
        let first_code = self.head.fund.first_code;
        damage_component_run(rng, first_code, &table, &mut self.components);
    }

    fn damage_a_length(&mut self, rng: &mut Rng) {
        match rng.below(4) {
            0 => damage_length(rng, &mut self.components),
            1 => damage_length(rng, &mut self.names),
            2 => self
                .components
                .truncate(self.components.len().saturating_sub(COMPONENT_NUMBERS)),
            _ => self
                .names
                .truncate(self.names.len().saturating_sub(NAME_BYTES)),
        }
    }

    fn damage_head(&mut self, rng: &mut Rng) {
        let (low, high) = (*range::ESTIMATED_CASH.start(), *range::ESTIMATED_CASH.end());
        let most = u64::MAX;
        match rng.below(6) {
            0 => self.head.publish = rng.pick(&[2, 10, most]),
            1 => self.head.trading_day = rng.pick(BAD_DATES),
            2 => self.head.pre_trading_day = rng.pick(BAD_DATES),
            3 => self.head.cash_component = rng.pick(&[low - 1, high + 1, i64::MIN, i64::MAX]),
            4 => self.head.nav_per_basket = rng.pick(&[range::NAV_PER_BASKET_MAX + 1, most]),
            _ => self.head.nav = rng.pick(&[range::NAV_MAX + 1, most]),
        }
    }

    fn damage_a_name(&mut self, rng: &mut Rng) {
        if !self.names.is_empty() {
            let at = rng.index(self.names.len());
            self.names[at] = rng.pick(b"|\r\n");
        }
    }
}

/// A count that the lent runs do not fit.
fn near_or_far(rng: &mut Rng, count: u64) -> u64 {
    rng.pick(&[
        0,
        301,
        count.wrapping_add(1),
        count.wrapping_sub(1),
        u64::MAX,
    ])
}

const BAD_LETTERS: &[&[u8]] = &[
    b"",
    b"123456789",
    b"a b",
    b"a_b",
    b"]",
    b"\xB5\xD8",
    b"50\r",
    b"50\n",
    b"-1",
];

const BAD_DATES: &[u64] = &[
    0,
    1,
    101,
    1_231,
    20_230_229,
    19_000_229,
    20_250_631,
    20_251_301,
    20_250_100,
    100_000_101,
    99_991_232,
    u64::MAX,
];
