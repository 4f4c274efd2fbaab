//! The fund, its components and the day.

use super::flags::FlagColumn::{AmountUsed, RateUsed};
use super::flags::{yes, FlagRow, FlagTable};
use super::range;

/// Room for components in a day.
pub const MAX_COMPONENTS: usize = 300;
/// Numbers of a component in a flat run: code, quantity, flag, premium,
/// discount, amount.
pub const COMPONENT_NUMBERS: usize = 6;

/// The fund's fields.
#[derive(Clone, Copy, Debug, Default, PartialEq, Eq)]
pub struct Fund {
    /// First code of the group (g).
    pub first_code: u64,
    /// Units in a basket (U).
    pub basket_size: u64,
    /// Maximum cash ratio (X), in hundred-thousandths.
    pub max_cash_ratio: u64,
    /// 0 neither, 1 both, 2 creation only, 3 redemption only.
    pub switch: u64,
    /// Estimated cash of a basket (E), in hundredths of a yuan.
    pub estimated_cash: i64,
    /// The limits in the order of the list text: creation, redemption, both
    /// per account, net creation, net redemption, both per account.
    pub limits: [u64; 8],
}

impl Fund {
    /// Whether every field is in its range (refusal 2).
    pub fn in_range(&self) -> bool {
        self.first_code <= range::FIRST_CODE_MAX
            && range::BASKET_SIZE.contains(&self.basket_size)
            && self.max_cash_ratio <= range::RATIO_MAX
            && self.switch <= range::SWITCH_MAX
            && range::ESTIMATED_CASH.contains(&self.estimated_cash)
            && self.limits.iter().all(|&limit| self.limit_in_range(limit))
    }

    fn limit_in_range(&self, limit: u64) -> bool {
        limit <= range::LIMIT_MAX && limit.is_multiple_of(self.basket_size)
    }

    pub(super) fn creation_allowed(&self) -> bool {
        matches!(self.switch, 1 | 2)
    }

    pub(super) fn redemption_allowed(&self) -> bool {
        matches!(self.switch, 1 | 3)
    }
}

/// A component of the basket.
#[derive(Clone, Copy, Debug, Default, PartialEq, Eq)]
pub struct Component {
    pub code: u64,
    /// Shares in a basket (Q).
    pub quantity: u64,
    /// Substitution flag.
    pub flag: u64,
    /// Creation's rate, in hundred-thousandths.
    pub premium: u64,
    /// Redemption's rate, in hundred-thousandths.
    pub discount: u64,
    /// Cash substitute of a basket (P), in thousandths of a yuan.
    pub amount: u64,
}

impl Component {
    pub const BLANK: Component = Component {
        code: 0,
        quantity: 0,
        flag: 0,
        premium: 0,
        discount: 0,
        amount: 0,
    };

    /// A component from its six numbers in a flat run.
    #[inline]
    pub fn from_numbers(numbers: &[u64]) -> Self {
        Component {
            code: numbers[0],
            quantity: numbers[1],
            flag: numbers[2],
            premium: numbers[3],
            discount: numbers[4],
            amount: numbers[5],
        }
    }

    #[inline]
    pub fn numbers(&self) -> [u64; COMPONENT_NUMBERS] {
        [
            self.code,
            self.quantity,
            self.flag,
            self.premium,
            self.discount,
            self.amount,
        ]
    }

    /// Whether the component may stand after `previous` in a list of a fund
    /// with this first code, under this table.
    fn fits(&self, previous: Option<u64>, first_code: u64, table: &FlagTable) -> bool {
        let in_range = self.code <= range::CODE_MAX
            && self.quantity <= range::QUANTITY_MAX
            && self.premium <= range::RATE_MAX
            && self.discount <= range::RATE_MAX
            && self.amount <= range::AMOUNT_MAX;
        let in_group = self.code >= first_code && self.code <= first_code + 5;
        let rising = match previous {
            Some(code) => self.code > code,
            None => true,
        };
        let row = table.in_use(self.flag);
        let fits_its_flag = row.is_some_and(|row| self.leaves_unused_blank(row));
        in_range && !in_group && rising && fits_its_flag
    }

    fn leaves_unused_blank(&self, row: &FlagRow) -> bool {
        (yes(row, RateUsed) || (self.premium == 0 && self.discount == 0))
            && (yes(row, AmountUsed) || self.amount == 0)
    }
}

/// The first component out of range, order or flag use (refusal 3).
pub(super) fn first_faulty_component(
    first_code: u64,
    table: &FlagTable,
    components: impl Iterator<Item = Component>,
) -> Option<usize> {
    let mut previous = None;
    for (place, component) in components.enumerate() {
        if !component.fits(previous, first_code, table) {
            return Some(place);
        }
        previous = Some(component.code);
    }
    None
}

/// What stays fixed through the day. Components past `count` are never read.
#[derive(Clone, Debug, PartialEq, Eq)]
pub struct Day {
    /// Accounts (A); account 0 is the fund.
    pub accounts: u64,
    /// Components (N); line N is the unit.
    pub count: u64,
    pub fund: Fund,
    /// By which each component's flag is understood.
    pub table: FlagTable,
    pub components: [Component; MAX_COMPONENTS],
}

impl Day {
    /// A day with nothing in it.
    pub fn blank() -> Self {
        Day {
            accounts: 0,
            count: 0,
            fund: Fund::default(),
            table: FlagTable::BLANK,
            components: [Component::BLANK; MAX_COMPONENTS],
        }
    }

    /// What the table says of a component, whose flag must be in use, as on every
    /// sound day.
    #[inline]
    pub(super) fn row_of(&self, component: &Component) -> &FlagRow {
        &self.table.0[component.flag as usize]
    }

    /// The components that the day has; its count must be in range.
    #[inline]
    pub(super) fn listed(&self) -> &[Component] {
        &self.components[..self.count as usize]
    }
}
