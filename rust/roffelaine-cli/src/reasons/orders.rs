//! Why an order was refused.

use super::{kept, Situation, MOST_CASH};
use crate::statement::Order;
use roffelaine::{Day, Fund, Holdings, Limits, Money, Record, Refusal, Switch, Units};

const MOST_BASKETS: u64 = 20;
/// The ceiling on the units created, or redeemed, by all accounts.
const CEILING: u64 = 999_999_999_999;

/// One of an account's counts of today.
type Counter = fn(&roffelaine::Account<'_>) -> Units;

/// The kind of an order.
#[derive(Clone, Copy, PartialEq, Eq)]
pub(super) enum Kind {
    Creation,
    Redemption,
}

impl Situation<'_> {
    pub(super) fn order_reason(
        &self,
        kind: Kind,
        order: &Order,
        refusal: Refusal,
    ) -> Option<String> {
        let &Order {
            account,
            units,
            room,
        } = order;
        match refusal {
            Refusal::Account => self.account_reason(account, "makes no orders"),
            Refusal::NotWholeBaskets => {
                let size = self.fund().basket_size;
                Some(format!(
                    "units {units}: 1 to {MOST_BASKETS} whole baskets of {size}"
                ))
            }
            Refusal::Switch => Some(format!("CreationRedemption {}", self.fund().switch)),
            Refusal::Limit => self.limit_reason(kind, account, units),
            Refusal::ShortOfStock { place } => self.stock_reason(kind, order, place as usize),
            Refusal::NoReferenceValue => {
                let missing = self.value_reason(refusal)?;
                Some(format!("stock is missing and there is no value: {missing}"))
            }
            Refusal::CashRatio => self.ratio_reason(order),
            Refusal::ShortOfCash => {
                let (cash, due) = (self.cash(account)?, self.cash_of(kind, order)?);
                Some(format!("account {account} has {cash} yuan, needs {due}"))
            }
            Refusal::ListTooShort => {
                let (room, needed) = (room?, self.records_needed(kind, order)?);
                Some(format!("room for {room} records, {needed} needed"))
            }
            Refusal::FundShort { place } => self.fund_reason(kind, order, place as usize),
            _ => None,
        }
    }

    fn baskets(&self, units: Units) -> u64 {
        units.0.checked_div(self.fund().basket_size.0).unwrap_or(0)
    }

    /// The first limit, in the list's order, that the order would pass.
    fn limit_reason(&self, kind: Kind, account: u64, units: Units) -> Option<String> {
        let book = self.day.book();
        let all = 0..book.accounts();
        let mine = book.account(account as usize)?;
        let of_all = |of: Counter| -> i128 {
            let accounts = all.clone().filter_map(|each| book.account(each));
            accounts.map(|each| i128::from(of(&each).0)).sum()
        };
        let (made, undone): (Counter, Counter) = match kind {
            Kind::Creation => (|each| each.created(), |each| each.redeemed()),
            Kind::Redemption => (|each| each.redeemed(), |each| each.created()),
        };
        let ordered = i128::from(units.0);
        let (fund, own) = (of_all(made) + ordered, i128::from(made(&mine).0) + ordered);
        let would_be = [
            fund,
            own,
            fund - of_all(undone),
            own - i128::from(undone(&mine).0),
        ];
        let first = usize::from(kind == Kind::Redemption);
        let limits = self.fund().limits.in_order();
        let named = Limits::NAMES.into_iter().zip(limits).skip(first).step_by(2);
        let mut passed = named
            .zip(would_be)
            .filter(|((_, limit), would_be)| limit.0 > 0 && *would_be > i128::from(limit.0));
        Some(match passed.next() {
            Some(((name, limit), would_be)) => format!("{name} {limit}, would be {would_be}"),
            None => format!("ceiling of all accounts {CEILING}, would be {fund}"),
        })
    }

    fn stock_reason(&self, kind: Kind, order: &Order, place: usize) -> Option<String> {
        let (account, units) = (order.account, order.units);
        if kind == Kind::Redemption {
            let lots = self.lots(account, self.unit())?;
            let (has, got) = (lots.handable(), lots.got);
            let kept = kept(got, "created today cannot be redeemed today");
            return Some(format!(
                "account {account} has {has} units to redeem, needs {units}{kept}"
            ));
        }
        let component = self.components().get(place)?;
        let lots = self.lots(account, place)?;
        let (has, code) = (lots.handable(), component.code);
        let need = component.quantity * self.baskets(units);
        let kept = kept(lots.got, "got today cannot be handed in today");
        Some(format!(
            "account {account} has {has} of {code:06}, needs {need}{kept}"
        ))
    }

    /// What the stock that is missing is worth, and the most that it may be.
    fn ratio_reason(&self, order: &Order) -> Option<String> {
        let (baskets, table) = (self.baskets(order.units), self.day.flag_table());
        let lines = self.components().iter().enumerate();
        let missing = lines.filter(|(_, component)| component.takes_cash_for_shortage(&table));
        let worth: u128 = missing
            .map(|(line, component)| {
                let lots = self.lots(order.account, line).unwrap_or_default();
                let need = component.quantity * baskets;
                let price = self.day.price(line).unwrap_or_default();
                u128::from(need.saturating_sub(lots.handable())) * u128::from(price.0)
            })
            .sum();
        let value = self.day.reference_value().ok()?;
        let ratio = self.fund().max_cash_ratio;
        let most =
            u128::from(order.units.0) * u128::from(value.0) * u128::from(ratio.0) / 1_000_000;
        let (worth, most) = (money(worth), money(most));
        Some(format!(
            "missing stock is worth {worth}, at most {most} by MaxCashRatio {ratio}"
        ))
    }

    fn fund_reason(&self, kind: Kind, order: &Order, place: usize) -> Option<String> {
        let Some(component) = self.components().get(place) else {
            let (cash, due) = (self.cash(0)?, self.cash_of(kind, order)?);
            return Some(format!("the fund has {cash} yuan, needs {due}"));
        };
        let (has, code) = (self.lots(0, place)?.old, component.code);
        let need = component.quantity * self.baskets(order.units);
        Some(format!("the fund has {has} of {code:06}, needs {need}"))
    }

    fn records_needed(&self, kind: Kind, order: &Order) -> Option<usize> {
        let (account, units) = (order.account as usize, order.units);
        let ample = self.day.ample_rooms();
        let counts = match kind {
            Kind::Creation => self.day.test_creation(account, units, ample),
            Kind::Redemption => self.day.test_redemption(account, units, ample),
        };
        counts.ok().map(|counts| counts.records)
    }

    /// The cash that the order takes or pays: the day book makes the same order
    /// on a day on which nobody is short of anything but the stock that is
    /// missing.
    fn cash_of(&self, kind: Kind, order: &Order) -> Option<Money> {
        let mut day = self.ample_day(kind, order)?;
        let made = match kind {
            Kind::Creation => day.create(1, order.units),
            Kind::Redemption => day.redeem(1, order.units),
        };
        Some(paid(&made.ok()?.records))
    }

    /// A day with the fund and one account, which has the order's stock as it is
    /// there, or its units.
    fn ample_day(&self, kind: Kind, order: &Order) -> Option<Day> {
        let fund = Fund {
            switch: Switch::Both,
            limits: Limits::default(),
            ..*self.fund()
        };
        let mut delivered: Vec<u64> = vec![0; self.unit() + 1];
        let mut handed_in = delivered.clone();
        let baskets = self.baskets(order.units);
        for (line, component) in self.components().iter().enumerate() {
            match kind {
                Kind::Creation => handed_in[line] = self.lots(order.account, line)?.handable(),
                Kind::Redemption => delivered[line] = component.quantity * baskets,
            }
        }
        let (fund_cash, cash) = match kind {
            Kind::Creation => (Money(0), MOST_CASH),
            Kind::Redemption => (MOST_CASH, Money(0)),
        };
        if kind == Kind::Redemption {
            handed_in[self.unit()] = order.units.0;
        }
        let holdings = |cash, lines| Holdings { cash, lines };
        let accounts = [holdings(fund_cash, delivered), holdings(cash, handed_in)];
        let table = self.day.flag_table();
        let mut day = Day::open_with_table(&fund, &table, self.components(), &accounts).ok()?;
        for line in 0..self.unit() {
            let price = self.day.price(line).filter(|price| price.0 > 0);
            price.map(|price| day.set_price(line, price));
        }
        Some(day)
    }
}

/// The cash of an order's records.
fn paid(records: &[Record]) -> Money {
    Money(records.iter().map(|record| record.amount.0).sum())
}

fn money(amount: u128) -> Money {
    Money(amount.try_into().unwrap_or(u64::MAX))
}
