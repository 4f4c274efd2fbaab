//! Random openings, accepted and refused.

use super::damage::{damage_component_run, damage_fund, damage_length};
use super::tables::{damage_table_run, lent_table, sound_table};
use super::{lists, Rng, Scale, Size};
use crate::engine::Lent;
use crate::model::{
    book_length, lengths_for, range, Component, Counts, Day, FlagColumn, FlagTable, Fund, Opening,
};

/// An opening with what its book and prices hold beforehand.
#[derive(Clone, Debug)]
pub struct OpeningCase {
    pub scale: Scale,
    pub accounts: u64,
    pub count: u64,
    pub fund: Fund,
    /// The run of the flag table; empty where none is given.
    pub table: Vec<u64>,
    pub components: Vec<u64>,
    pub holdings: Vec<u64>,
    pub book: Vec<u64>,
    pub prices: Vec<u64>,
}

impl OpeningCase {
    /// An opening that is accepted.
    pub fn sound(rng: &mut Rng, size: Size, scale: Scale) -> Self {
        let (accounts, count) = (size.accounts(rng), size.count(rng));
        let fund = lists::fund(rng, scale);
        let table = sound_table(rng);
        let components = lists::components(rng, scale, count, fund.first_code, &table);
        let mut case = OpeningCase {
            scale,
            accounts,
            count,
            fund,
            table: lent_table(rng, &table),
            components: components.iter().flat_map(Component::numbers).collect(),
            holdings: holdings(rng, scale, accounts, (&fund, &table), &components),
            book: rng.numbers(book_length(accounts as usize, count as usize)),
            prices: rng.numbers(count as usize),
        };
        if rng.one_in(6) {
            case.raise_a_total(rng, 0);
        }
        case
    }

    /// An opening with one fault or two.
    pub fn damaged(rng: &mut Rng, size: Size, scale: Scale) -> Self {
        let mut case = Self::sound(rng, size, scale);
        case.damage(rng);
        if rng.one_in(4) {
            case.damage(rng);
        }
        case
    }

    pub fn opening(&self) -> Opening<'_> {
        Opening {
            accounts: self.accounts,
            count: self.count,
            fund: self.fund,
            table: &self.table,
            components: &self.components,
            holdings: &self.holdings,
        }
    }

    /// The runs to lend, with lists long enough for any order.
    pub fn lent(&self, rng: &mut Rng) -> Lent {
        let count = self.prices.len() as u64;
        let most = lengths_for(Counts {
            records: count + 6,
            reports: count + 2,
        });
        Lent {
            day: Day::blank(),
            book: self.book.clone(),
            prices: self.prices.clone(),
            runs: most.map(|length| rng.numbers(length + 16)),
        }
    }

    fn damage(&mut self, rng: &mut Rng) {
        match rng.below(20) {
            0 => self.accounts = rng.pick(&[0, 1, 65, 1 << 32, u64::MAX]),
            1 => self.count = rng.pick(&[0, 301, 1 << 32, u64::MAX]),
            2 => self.damage_a_length(rng),
            3..=5 => damage_fund(rng, &mut self.fund),
            6..=10 => self.damage_a_component(rng),
            11 => self.give_the_fund_units(rng),
            12 => self.make_a_total_wrap(rng),
            13..=15 => damage_table_run(rng, &mut self.table),
            16 => self.table = sound_table(rng).numbers().to_vec(),
            _ => self.raise_a_total(rng, 1),
        }
    }

    fn damage_a_component(&mut self, rng: &mut Rng) {
        let table = FlagTable::given(&self.table).unwrap_or(FlagTable::OURS);
        damage_component_run(rng, self.fund.first_code, &table, &mut self.components);
    }

    fn damage_a_length(&mut self, rng: &mut Rng) {
        match rng.below(4) {
            0 => damage_length(rng, &mut self.components),
            1 => damage_length(rng, &mut self.holdings),
            2 => damage_length(rng, &mut self.book),
            _ => damage_length(rng, &mut self.prices),
        }
    }

    fn give_the_fund_units(&mut self, rng: &mut Rng) {
        if let Some(units) = self.holdings.get_mut(self.prices.len() + 1) {
            *units = rng.pick(&[1, 1_000, u64::MAX]);
        }
    }

    /// Two holdings of one column whose 64-bit sum is small again.
    fn make_a_total_wrap(&mut self, rng: &mut Rng) {
        let width = self.prices.len() + 2;
        if self.holdings.len() < 3 * width {
            return;
        }
        let column = rng.index(width);
        let high = rng.pick(&[u64::MAX, 1 << 63, 1 << 62]);
        self.holdings[width + column] = high;
        self.holdings[2 * width + column] = high.wrapping_neg();
    }

    /// Brings a column's total to its bound and `over` more.
    fn raise_a_total(&mut self, rng: &mut Rng, over: u64) {
        let width = self.prices.len() + 2;
        if self.holdings.len() < 2 * width {
            return;
        }
        let column = rng.index(width);
        let bound = if column == 0 {
            range::CASH_TOTAL_MAX
        } else {
            range::LINE_TOTAL_MAX
        };
        let held = self.holdings.iter().skip(column).step_by(width);
        let total = held.fold(0u64, |total, &held| total.saturating_add(held));
        if let Some(missing) = bound.checked_sub(total) {
            // The fund may hold no units.
            let unit_line = column + 1 == width;
            let accounts = (self.holdings.len() / width).max(2);
            let account = if unit_line { 1 } else { rng.index(accounts) };
            if let Some(held) = self.holdings.get_mut(account * width + column) {
                *held += missing + over;
            }
        }
    }
}

/// How much of the baskets an account has.
#[derive(Clone, Copy)]
enum Means {
    /// More than any order needs.
    Ample,
    /// Just some baskets, a share more or less here and there.
    Exact(u64),
    /// Enough of all but some lines.
    Gaps,
    /// Next to nothing.
    Poor,
}

impl Means {
    fn any(rng: &mut Rng) -> Self {
        match rng.below(10) {
            0..=3 => Means::Ample,
            4..=5 => Means::Exact(rng.between(1, 20)),
            6..=8 => Means::Gaps,
            _ => Means::Poor,
        }
    }

    /// What is held of a line of which a basket needs `need`.
    fn held(self, rng: &mut Rng, need: u64) -> u64 {
        match self {
            Means::Ample => need * rng.between(20, 90) + rng.below(100),
            Means::Exact(baskets) => match rng.below(60) {
                0 => (need * baskets).saturating_sub(1),
                1 => need * baskets + 1,
                _ => need * baskets,
            },
            Means::Gaps if rng.one_in(9) => need * rng.below(3) / 2,
            Means::Gaps => need * rng.between(2, 40),
            Means::Poor if rng.one_in(3) => rng.between(0, need),
            Means::Poor => 0,
        }
    }
}

/// For each account its cash and then the holdings of each line.
fn holdings(
    rng: &mut Rng,
    scale: Scale,
    accounts: u64,
    (fund, table): (&Fund, &FlagTable),
    components: &[Component],
) -> Vec<u64> {
    let basket_cash = basket_cash(rng, scale, components);
    let mut holdings = Vec::new();
    for account in 0..accounts {
        let means = Means::any(rng);
        holdings.push(cash(rng, basket_cash).min(range::CASH_TOTAL_MAX / accounts));
        for component in components {
            // A stock line with gaps for which no cash is taken would refuse nearly
            // every large order.
            let says = |column| table.says(component.flag, column);
            let is_strict = says(FlagColumn::StockMoves) && !says(FlagColumn::ShortageInCash);
            let means = match means {
                Means::Gaps if is_strict && components.len() > 9 => Means::Ample,
                means => means,
            };
            holdings.push(means.held(rng, component.quantity));
        }
        let units = Means::any(rng).held(rng, fund.basket_size);
        holdings.push(if account == 0 { 0 } else { units });
    }
    holdings
}

/// About what a basket costs.
fn basket_cash(rng: &mut Rng, scale: Scale, components: &[Component]) -> u64 {
    let price = scale.price(rng);
    components
        .iter()
        .map(|component| component.amount + component.quantity * price / 4)
        .sum()
}

fn cash(rng: &mut Rng, basket_cash: u64) -> u64 {
    match rng.below(8) {
        0 => rng.below(1_000),
        1 => basket_cash * rng.between(1, 20),
        2 => basket_cash * rng.between(1, 20) + rng.below(1_000),
        3 => rng.below(4 * basket_cash + 1),
        _ => basket_cash * rng.between(20, 100) + 1_000_000_000,
    }
}
