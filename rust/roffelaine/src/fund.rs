//! The fund, its components and what a list says besides.

use crate::{Cents, FlagColumn, FlagTable, Money, Rate, Units};
use std::fmt;

/// The most components that a basket has.
pub const MOST_COMPONENTS: usize = 300;
/// The most accounts that a day has, with the fund's.
pub const MOST_ACCOUNTS: usize = 64;

/// Which orders are taken today.
#[derive(Clone, Copy, Debug, Default, PartialEq, Eq, Hash)]
pub enum Switch {
    /// Neither creation nor redemption.
    #[default]
    Neither,
    /// Creation and redemption.
    Both,
    /// Creation only.
    CreationOnly,
    /// Redemption only.
    RedemptionOnly,
}

impl Switch {
    /// All of them, in the order of their numbers from 0.
    pub const ALL: [Switch; 4] = [
        Switch::Neither,
        Switch::Both,
        Switch::CreationOnly,
        Switch::RedemptionOnly,
    ];

    /// The number in the list, field `CreationRedemption`.
    pub const fn number(self) -> u64 {
        self as u64
    }

    /// What it says, in words.
    pub const fn words(self) -> &'static str {
        match self {
            Switch::Neither => "neither creation nor redemption",
            Switch::Both => "creation and redemption",
            Switch::CreationOnly => "creation only",
            Switch::RedemptionOnly => "redemption only",
        }
    }
}

impl fmt::Display for Switch {
    /// Its number and its words, as `3: redemption only`.
    fn fmt(&self, out: &mut fmt::Formatter<'_>) -> fmt::Result {
        write!(out, "{}: {}", self.number(), self.words())
    }
}

/// The limits on the units of a day; 0 is no limit.
#[derive(Clone, Copy, Debug, Default, PartialEq, Eq, Hash)]
pub struct Limits {
    /// Units created by all accounts.
    pub creation: Units,
    /// Units redeemed by all accounts.
    pub redemption: Units,
    /// Units created by one account.
    pub creation_per_account: Units,
    /// Units redeemed by one account.
    pub redemption_per_account: Units,
    /// Created less redeemed, by all accounts.
    pub net_creation: Units,
    /// Redeemed less created, by all accounts.
    pub net_redemption: Units,
    /// Created less redeemed, by one account.
    pub net_creation_per_account: Units,
    /// Redeemed less created, by one account.
    pub net_redemption_per_account: Units,
}

impl Limits {
    /// The names of the limits in a list, in its order.
    pub const NAMES: [&'static str; 8] = [
        "CreationLimit",
        "RedemptionLimit",
        "CreationLimitPerUser",
        "RedemptionLimitPerUser",
        "NetCreationLimit",
        "NetRedemptionLimit",
        "NetCreationLimitPerUser",
        "NetRedemptionLimitPerUser",
    ];

    /// The limits in the order of a list.
    pub const fn in_order(&self) -> [Units; 8] {
        [
            self.creation,
            self.redemption,
            self.creation_per_account,
            self.redemption_per_account,
            self.net_creation,
            self.net_redemption,
            self.net_creation_per_account,
            self.net_redemption_per_account,
        ]
    }

    /// The limits from their order in a list.
    pub const fn from_order(limits: [Units; 8]) -> Self {
        Limits {
            creation: limits[0],
            redemption: limits[1],
            creation_per_account: limits[2],
            redemption_per_account: limits[3],
            net_creation: limits[4],
            net_redemption: limits[5],
            net_creation_per_account: limits[6],
            net_redemption_per_account: limits[7],
        }
    }
}

/// The fund's fields.
#[derive(Clone, Copy, Debug, Default, PartialEq, Eq, Hash)]
pub struct Fund {
    /// First code of the group, under which units trade (g). g+1 is the code of
    /// creation and redemption, g+2 that of Shanghai cash, g+5 of other cash.
    pub first_code: u64,
    /// Units in a basket (U).
    pub basket_size: Units,
    /// Maximum cash ratio (X).
    pub max_cash_ratio: Rate,
    /// Which orders are taken.
    pub switch: Switch,
    /// Estimated cash of a basket (E).
    pub estimated_cash: Cents,
    /// The limits of the day.
    pub limits: Limits,
}

/// A component of the basket.
#[derive(Clone, Copy, Debug, Default, PartialEq, Eq, Hash)]
pub struct Component {
    /// Its code; codes rise through the list.
    pub code: u64,
    /// Shares in a basket (Q).
    pub quantity: u64,
    /// Substitution flag, 0 to 9, in use by the flag table.
    pub flag: u64,
    /// Premium, which creation takes; 0 where the flag uses no rates.
    pub premium: Rate,
    /// Discount, which redemption takes; 0 where the flag uses no rates. That of
    /// a component whose stock moves enters no sum, since its redemption delivers
    /// the stock.
    pub discount: Rate,
    /// Cash substitute of a basket (P), 0 where the flag uses none.
    pub amount: Money,
}

impl Component {
    /// Whether its stock moves in an order by a day's flag table; else cash
    /// stands in for it.
    pub fn moves_stock(&self, table: &FlagTable) -> bool {
        table.says(self.flag, FlagColumn::StockMoves)
    }

    /// Whether a creation may pay cash for what is missing.
    pub fn takes_cash_for_shortage(&self, table: &FlagTable) -> bool {
        table.says(self.flag, FlagColumn::ShortageInCash)
    }

    /// Whether the reference value takes it at its price.
    pub fn is_priced(&self, table: &FlagTable) -> bool {
        table.says(self.flag, FlagColumn::Priced)
    }
}

/// What a list says before its components, but its letters and their count.
#[derive(Clone, Copy, Debug, Default, PartialEq, Eq, Hash)]
pub struct Head {
    /// The fund's fields.
    pub fund: Fund,
    /// Whether the reference value is published.
    pub publish: bool,
    /// Year, month and day in eight digits.
    pub trading_day: u64,
    /// Year, month and day in eight digits.
    pub pre_trading_day: u64,
    /// Cash of a basket on the day before.
    pub cash_component: Cents,
    /// Net asset value of a basket on the day before.
    pub nav_per_basket: Cents,
    /// Net asset value of a unit on the day before, in ten-thousandths of a yuan.
    pub nav: u64,
}
