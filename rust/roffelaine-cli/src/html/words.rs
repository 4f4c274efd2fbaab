//! A call in the words of whoever keeps the positions.

use super::text::{account_name, grouped};
use crate::names::text_name;
use crate::statement::{Call, Order};
use roffelaine::{List, Units};

/// What a call is given, behind its word.
pub fn arguments(list: &List<'_>, call: &Call) -> String {
    match *call {
        Call::Open | Call::Value => String::new(),
        Call::Price { code, price } => {
            format!("{}, {} yuan", named_code(list, code), grouped(price))
        }
        Call::Trade(trade) => {
            let (quantity, price) = (grouped(trade.quantity), grouped(trade.price));
            let (seller, buyer) = (account_name(trade.seller), account_name(trade.buyer));
            let code = named_code(list, trade.code);
            format!("{quantity} of {code} at {price} yuan, {seller} sells to {buyer}")
        }
        Call::Create(order)
        | Call::Redeem(order)
        | Call::TestCreate(order)
        | Call::TestRedeem(order) => ordered(list, &order),
    }
}

fn ordered(list: &List<'_>, order: &Order) -> String {
    let account = account_name(order.account);
    let baskets = baskets(order.units, list.head.fund.basket_size);
    let units = grouped(order.units);
    let room = order.room.map_or(String::new(), |room| {
        format!(", room for {} records", grouped(room))
    });
    format!("{account}, {units} units ({baskets}){room}")
}

/// A code with its name, where it has one.
fn named_code(list: &List<'_>, code: u64) -> String {
    match text_name(list, code) {
        name if name.is_empty() => format!("{code:06}"),
        name => format!("{code:06} {name}"),
    }
}

/// How many baskets so many units are.
fn baskets(units: Units, size: Units) -> String {
    let whole = units.0.checked_div(size.0).unwrap_or(0);
    let over = units.0.checked_rem(size.0).unwrap_or(units.0);
    let baskets = match whole {
        1 => "1 basket".to_string(),
        whole => format!("{} baskets", grouped(whole)),
    };
    match (whole, over) {
        (_, 0) => baskets,
        (0, _) => "less than 1 basket".to_string(),
        (_, over) => format!("{baskets} and {} units", grouped(over)),
    }
}

#[cfg(test)]
mod tests {
    use super::*;

    #[test]
    fn baskets_are_counted() {
        let size = Units(1_000_000);
        let counts = [
            (0, "0 baskets"),
            (999_999, "less than 1 basket"),
            (1_000_000, "1 basket"),
            (1_500_000, "1 basket and 500,000 units"),
            (20_000_000, "20 baskets"),
        ];
        for (units, words) in counts {
            assert_eq!(baskets(Units(units), size), words);
        }
        assert_eq!(baskets(Units(5), Units(0)), "less than 1 basket");
    }
}
