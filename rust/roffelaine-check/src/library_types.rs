//! The model's values in the library's types, where these can say them, for
//! the tests that compare the two. The model itself uses none of this.

use crate::model::{
    self, Lengths, Reply, BUY, CASH_REPORT, OTHER_KIND, RECORD_NUMBERS, REPORT_NUMBERS, SELL,
    SHANGHAI_KIND, STOCK_REPORT, UNIT_REPORT,
};
use roffelaine::{
    CashGroup, CashKind, Cents, Component, Counts, FlagTable, Fund, Head, Limits, Money, Rate,
    Record, Refusal, Report, ReportType, Rooms, Side, Switch, Trade, Units,
};

/// A fund; none where its switch is none of the four.
pub fn fund(fund: &model::Fund) -> Option<Fund> {
    let switch = match fund.switch {
        0 => Switch::Neither,
        1 => Switch::Both,
        2 => Switch::CreationOnly,
        3 => Switch::RedemptionOnly,
        _ => return None,
    };
    let limits = fund.limits.map(Units);
    Some(Fund {
        first_code: fund.first_code,
        basket_size: Units(fund.basket_size),
        max_cash_ratio: Rate(fund.max_cash_ratio),
        switch,
        estimated_cash: Cents(fund.estimated_cash),
        limits: Limits {
            creation: limits[0],
            redemption: limits[1],
            creation_per_account: limits[2],
            redemption_per_account: limits[3],
            net_creation: limits[4],
            net_redemption: limits[5],
            net_creation_per_account: limits[6],
            net_redemption_per_account: limits[7],
        },
    })
}

/// A component.
pub fn component(component: &model::Component) -> Component {
    Component {
        code: component.code,
        quantity: component.quantity,
        flag: component.flag,
        premium: Rate(component.premium),
        discount: Rate(component.discount),
        amount: Money(component.amount),
    }
}

/// A flag table.
pub fn flag_table(table: &model::FlagTable) -> FlagTable {
    FlagTable::new(table.0)
}

/// The flag table of a run; none where it has another length than a table.
pub fn table_of_run(run: &[u64]) -> Option<FlagTable> {
    let is_table = run.len() == model::TABLE_NUMBERS;
    is_table.then(|| flag_table(&model::FlagTable::from_numbers(run)))
}

/// A list's head; none where a field has a number that its type has not.
pub fn head(head: &model::list::Head) -> Option<Head> {
    let publish = match head.publish {
        0 => false,
        1 => true,
        _ => return None,
    };
    Some(Head {
        fund: fund(&head.fund)?,
        publish,
        trading_day: head.trading_day,
        pre_trading_day: head.pre_trading_day,
        cash_component: Cents(head.cash_component),
        nav_per_basket: Cents(head.nav_per_basket.try_into().ok()?),
        nav: head.nav,
    })
}

/// A trade.
pub fn trade(trade: &model::Trade) -> Trade {
    Trade {
        line: trade.line as usize,
        quantity: trade.quantity,
        price: Money(trade.price),
        seller: trade.seller as usize,
        buyer: trade.buyer as usize,
    }
}

/// A side; none where it is neither.
fn side(number: u64) -> Option<Side> {
    match number {
        BUY => Some(Side::Buy),
        SELL => Some(Side::Sell),
        _ => None,
    }
}

/// A record from its numbers; none where its side is neither.
pub fn record(numbers: &[u64]) -> Option<Record> {
    Some(Record {
        code: numbers[0],
        side: side(numbers[1])?,
        quantity: numbers[2],
        price: Money(numbers[3]),
        amount: Money(numbers[4]),
    })
}

/// A report from its numbers; none where its type, its side or a kind is none
/// of the paper's.
pub fn report(numbers: &[u64]) -> Option<Report> {
    let report_type = match numbers[0] {
        UNIT_REPORT => ReportType::Unit,
        STOCK_REPORT => ReportType::Stock,
        CASH_REPORT => ReportType::Cash,
        _ => return None,
    };
    let mut groups = [None; 3];
    for (group, numbers) in groups.iter_mut().zip(numbers[4..].chunks_exact(2)) {
        let kind = match numbers[0] {
            0 => continue,
            SHANGHAI_KIND => CashKind::Shanghai,
            OTHER_KIND => CashKind::Other,
            _ => return None,
        };
        let amount = Money(numbers[1]);
        *group = Some(CashGroup { kind, amount });
    }
    Some(Report {
        report_type,
        side: side(numbers[1])?,
        code: numbers[2],
        quantity: numbers[3],
        groups,
    })
}

/// The rooms of lists of such lengths.
pub fn rooms(lengths: Lengths) -> Rooms {
    Rooms {
        records: lengths.records / RECORD_NUMBERS,
        investor: lengths.investor / REPORT_NUMBERS,
        fund: lengths.fund / REPORT_NUMBERS,
    }
}

/// An answer of the library as the model's reply, with a value of its own.
pub fn reply<T>(answer: Result<T, Refusal>, value: impl FnOnce(T) -> u64) -> Reply {
    match answer {
        Ok(answer) => Reply::accepted(value(answer)),
        Err(refusal) => Reply::refused(refusal.number(), refusal.place()),
    }
}

/// An answer of the library to an order.
pub fn order_reply(answer: Result<Counts, Refusal>) -> Reply {
    match answer {
        Ok(counts) => Reply::made(model::Counts {
            records: counts.records as u64,
            reports: counts.reports as u64,
        }),
        Err(refusal) => Reply::refused(refusal.number(), refusal.place()),
    }
}
