//! Why a call was refused, in words and with figures. The day book decides;
//! what stands here only says what it saw.

mod flags;
mod orders;

use crate::statement::{Call, Trade};
use crate::text::yuan;
use orders::Kind;
use roffelaine::{Component, Day, FlagTable, Fund, Holdings, List, Lots, Money, Refusal};

pub use flags::table as flag_table;

const PRICES: &str = "0.001 to 9999.999";
const QUANTITIES: &str = "1 to 999999999";
/// The most of a line over all accounts at an opening.
const MOST_OF_LINE: u128 = 1_000_000_000_000_000_000;
const MOST_CASH: Money = Money(4_000_000_000_000_000_000);
const MOST_PRICE: u64 = 9_999_999;
const MOST_QUANTITY: u64 = 999_999_999;

/// Why an opening was refused.
pub fn opening(
    list: &List<'_>,
    table: &FlagTable,
    accounts: Option<u64>,
    holdings: &[Holdings],
    refusal: Refusal,
) -> String {
    match (refusal, accounts) {
        (Refusal::Sizes, None) => "there is no line `accounts` above".to_string(),
        (Refusal::Sizes, Some(accounts)) => format!("accounts {accounts}: a day has 2 to 64"),
        (Refusal::FlagTable { place }, _) => flags::table(table, place as usize),
        (Refusal::Component { place }, _) => {
            let reason = flags::component(list, table, place as usize);
            reason.unwrap_or_else(|| refusal.words().to_string())
        }
        (Refusal::Total { place }, _) => total(list, holdings, place as usize),
        _ => refusal.words().to_string(),
    }
}

fn total(list: &List<'_>, holdings: &[Holdings], place: usize) -> String {
    let unit = list.components.len();
    let all = |of: &dyn Fn(&Holdings) -> u64| -> u128 {
        holdings.iter().map(|held| u128::from(of(held))).sum()
    };
    if place > unit {
        let cash = all(&|held| held.cash.0);
        let (yuan, rest) = (cash / 1_000, cash % 1_000);
        return format!("cash totals {yuan}.{rest:03}, at most {MOST_CASH}");
    }
    let code = code_of(list, place);
    let line = all(&|held| held.lines[place]);
    if line > MOST_OF_LINE {
        return format!("{code:06} totals {line}, at most {MOST_OF_LINE}");
    }
    let fund = holdings[0].lines[place];
    format!("the fund holds {fund} of {code:06}, it may hold no units")
}

fn code_of(list: &List<'_>, line: usize) -> u64 {
    let component = list.components.get(line);
    component.map_or(list.head.fund.first_code, |component| component.code)
}

/// The list and the day that a refused call saw, which it left as they were.
pub struct Situation<'d> {
    pub list: &'d List<'d>,
    pub day: &'d Day,
    pub is_open: bool,
}

impl Situation<'_> {
    /// Why a call was refused.
    pub fn reason(&self, call: &Call, refusal: Refusal) -> String {
        if !self.is_open {
            return "no day is open".to_string();
        }
        let reason = match call {
            Call::Price { code, price } => self.price_reason(*code, *price, refusal),
            Call::Trade(trade) => self.trade_reason(trade, refusal),
            Call::Create(order) | Call::TestCreate(order) => {
                self.order_reason(Kind::Creation, order, refusal)
            }
            Call::Redeem(order) | Call::TestRedeem(order) => {
                self.order_reason(Kind::Redemption, order, refusal)
            }
            Call::Value => self.value_reason(refusal),
            Call::Open => None,
        };
        reason.unwrap_or_else(|| refusal.words().to_string())
    }

    fn fund(&self) -> &Fund {
        &self.list.head.fund
    }

    fn components(&self) -> &[Component] {
        &self.list.components
    }

    fn unit(&self) -> usize {
        self.components().len()
    }

    fn lots(&self, account: u64, line: usize) -> Option<Lots> {
        let account = self.day.book().account(account as usize)?;
        Some(account.lots(line))
    }

    fn cash(&self, account: u64) -> Option<Money> {
        Some(self.day.book().account(account as usize)?.cash())
    }

    fn price_reason(&self, code: u64, price: Money, refusal: Refusal) -> Option<String> {
        match refusal {
            Refusal::NoSuchLine if code == self.fund().first_code => {
                Some(format!("{code:06} is the unit, which has no price"))
            }
            Refusal::NoSuchLine => Some(format!("{code:06} is no component of the list")),
            Refusal::QuantityOrPrice => Some(format!("price {price}: {PRICES}")),
            _ => None,
        }
    }

    fn trade_reason(&self, trade: &Trade, refusal: Refusal) -> Option<String> {
        let &Trade {
            code,
            quantity,
            price,
            seller,
            buyer,
        } = trade;
        match refusal {
            Refusal::NoSuchLine => Some(format!(
                "{code:06} is neither a component of the list nor the unit {:06}",
                self.fund().first_code
            )),
            Refusal::QuantityOrPrice if !(1..=MOST_QUANTITY).contains(&quantity) => {
                Some(format!("quantity {quantity}: {QUANTITIES}"))
            }
            Refusal::QuantityOrPrice if !(1..=MOST_PRICE).contains(&price.0) => {
                Some(format!("price {price}: {PRICES}"))
            }
            Refusal::Account if seller == buyer => {
                Some(format!("seller and buyer are both account {seller}"))
            }
            Refusal::Account => self
                .account_reason(seller, "never trades")
                .or_else(|| self.account_reason(buyer, "never trades")),
            Refusal::ShortOfStock { .. } => self.sale_reason(seller, code, quantity),
            Refusal::ShortOfCash => {
                let (cash, due) = (self.cash(buyer)?, yuan(trade.paid()));
                Some(format!("account {buyer} has {cash} yuan, needs {due}"))
            }
            _ => None,
        }
    }

    fn sale_reason(&self, seller: u64, code: u64, quantity: u64) -> Option<String> {
        let lots = self.lots(seller, self.list.line_of(code)?)?;
        let (has, bought) = (lots.sellable(), lots.bought);
        let kept = kept(bought, "bought today cannot be sold today");
        Some(format!(
            "account {seller} has {has} of {code:06} to sell, needs {quantity}{kept}"
        ))
    }

    /// What is wrong with an account, where something is.
    fn account_reason(&self, account: u64, fund: &str) -> Option<String> {
        let accounts = self.day.book().accounts() as u64;
        match account {
            0 => Some(format!("account 0 is the fund, which {fund}")),
            account if account >= accounts => {
                let last = accounts.saturating_sub(1);
                Some(format!("account {account}: the day has 0 to {last}"))
            }
            _ => None,
        }
    }

    fn value_reason(&self, refusal: Refusal) -> Option<String> {
        if refusal != Refusal::NoReferenceValue {
            return None;
        }
        let table = self.day.flag_table();
        let lines = self.components().iter().enumerate();
        let mut unpriced = lines.filter(|(line, component)| {
            let has_none = self.day.price(*line) == Some(Money(0));
            component.is_priced(&table) && component.quantity > 0 && has_none
        });
        Some(match unpriced.next() {
            Some((_, component)) => format!("{:06} has no price", component.code),
            None if self.basket_worth() < 0 => "the basket is worth less than 0".to_string(),
            None => "the value would be above 999.9999".to_string(),
        })
    }

    /// What a basket is worth, in thousandths of a yuan.
    fn basket_worth(&self) -> i128 {
        let table = self.day.flag_table();
        let worth = |(line, component): (usize, &Component)| -> i128 {
            let price = self.day.price(line).unwrap_or_default();
            if component.is_priced(&table) {
                i128::from(component.quantity) * i128::from(price.0)
            } else {
                component.amount.0.into()
            }
        };
        let stock: i128 = self.components().iter().enumerate().map(worth).sum();
        stock + 10 * i128::from(self.fund().estimated_cash.0)
    }
}

/// What an account has besides, but not for this call.
fn kept(quantity: u64, why: &str) -> String {
    match quantity {
        0 => String::new(),
        quantity => format!("; {quantity} {why}"),
    }
}
