//! Days tuned so that one check of a call is just passed or just failed.
//!
//! The model finds the edge; the call is then compared on both sides of it.

use super::{calls, Rng, Scale};
use crate::engine::{Engine, Lent, Model};
use crate::model::{range, stretch_width, Call, FlagColumn, Order, Reply, LOTS, STRETCH_HEAD};

/// Tunes the day and gives a call that meets the edge. Where the day does not
/// allow it, the day stays and the call is an ordinary order.
pub fn edge_call(rng: &mut Rng, lent: &mut Lent) -> Call {
    let order = Order {
        account: rng.between(1, lent.day.accounts - 1),
        units: lent.day.fund.basket_size * rng.between(1, 4),
        lengths: lent.runs.lengths(),
    };
    let make: fn(Order) -> Call = if rng.one_in(2) {
        Call::Create
    } else {
        Call::Redeem
    };
    let call = make(order);
    match rng.below(11) {
        0 => tune_cash(rng, lent, &call, order.account),
        1 => tune_a_limit(rng, lent, &call, order.account),
        2 => tune_ratio(rng, lent, order),
        3 => tune_stock(rng, lent, &call, order),
        4 => tune_units(rng, lent, order),
        5 => tune_ceiling(rng, lent, &call, order),
        6 => tune_ratio_exactly(rng, lent, order),
        7 => tune_a_rate(rng, lent, &call, order),
        8 => return tune_trade(rng, lent),
        9 => return tune_value(rng, lent),
        _ => return tune_room(rng, lent, make, order),
    }
    call
}

/// What the call would answer and leave.
fn outcome(lent: &Lent, call: &Call) -> (Reply, Lent) {
    let mut after = lent.clone();
    let reply = Model.call(call, &mut after);
    (reply, after)
}

/// The payer has just the cash due, or one thousandth less.
fn tune_cash(rng: &mut Rng, lent: &mut Lent, call: &Call, account: u64) {
    let (reply, after) = outcome(lent, call);
    let payer = if matches!(call, Call::Create(_)) {
        account
    } else {
        0
    };
    let place = payer as usize * stretch_width(lent.prices.len());
    if reply.is_accepted() {
        let due = lent.book[place] - after.book[place];
        lent.book[place] = due.saturating_sub(rng.below(2));
    }
}

/// A limit is just what the order reaches, or one basket less. Counters not
/// reached by orders alone are no multiples of the basket and are left out.
fn tune_a_limit(rng: &mut Rng, lent: &mut Lent, call: &Call, account: u64) {
    lent.day.fund.limits = [0; 8];
    let (reply, after) = outcome(lent, call);
    if !reply.is_accepted() {
        return;
    }
    let width = stretch_width(lent.prices.len());
    let counts = |stretch: &[u64]| (stretch[1], stretch[2]);
    let own = counts(&after.book[account as usize * width..]);
    let stretches = after.book.chunks_exact(width).map(counts);
    let all = stretches.fold((0, 0), |sum, count| (sum.0 + count.0, sum.1 + count.1));
    let redemption = usize::from(matches!(call, Call::Redeem(_)));
    let at = redemption + 2 * rng.index(4);
    let (created, redeemed) = if matches!(at, 2 | 3 | 6 | 7) {
        own
    } else {
        all
    };
    let (same, reverse) = if redemption == 0 {
        (created, redeemed)
    } else {
        (redeemed, created)
    };
    let reached = if at < 4 {
        same
    } else {
        same.saturating_sub(reverse)
    };
    let basket_size = lent.day.fund.basket_size;
    if reached.is_multiple_of(basket_size) {
        lent.day.fund.limits[at] = reached.saturating_sub(basket_size * rng.below(2));
    }
}

/// The order brings the fund-wide count just to its ceiling, or one over.
fn tune_ceiling(rng: &mut Rng, lent: &mut Lent, call: &Call, order: Order) {
    lent.day.fund.limits = [0; 8];
    let width = stretch_width(lent.prices.len());
    let counter = if matches!(call, Call::Create(_)) {
        1
    } else {
        2
    };
    let counts = lent.book.iter().skip(counter).step_by(width);
    let after = counts.sum::<u64>() + order.units;
    if let Some(left) = range::COUNTER_MAX.checked_sub(after) {
        lent.book[order.account as usize * width + counter] += left + rng.below(2);
    }
}

/// The ratio is the smallest that lets the creation pass, or just below it.
fn tune_ratio(rng: &mut Rng, lent: &mut Lent, order: Order) {
    let passes = |lent: &mut Lent, ratio| {
        lent.day.fund.max_cash_ratio = ratio;
        Model.call(&Call::TestCreation(order), lent).is_accepted()
    };
    if let Some(least) = least_passing(lent, 0, range::RATIO_MAX, passes) {
        lent.day.fund.max_cash_ratio = least.saturating_sub(rng.below(2));
    }
}

/// What is missing of one line is worth just its share of the units' value,
/// or one share of the stock more.
fn tune_ratio_exactly(rng: &mut Rng, lent: &mut Lent, order: Order) {
    let line = rng.index(lent.prices.len());
    let component = lent.day.components[line];
    let reply = Model.call(&Call::Value, lent);
    let worth = order.units * reply.value;
    let unit = 1_000_000 * lent.prices[line];
    let in_cash = lent
        .day
        .table
        .says(component.flag, FlagColumn::ShortageInCash);
    if !in_cash || worth == 0 || unit == 0 {
        return;
    }
    // The least ratio whose share is a whole number of missing stock.
    let ratio = unit / greatest_divisor(worth, unit);
    let missing = u128::from(worth) * u128::from(ratio) / u128::from(unit);
    let need = order.units / lent.day.fund.basket_size * component.quantity;
    if ratio <= range::RATIO_MAX && missing < u128::from(need) {
        lent.day.fund.max_cash_ratio = ratio;
        tune_lot(rng, lent, order.account, line, need - missing as u64);
    }
}

fn greatest_divisor(one: u64, other: u64) -> u64 {
    if other == 0 {
        one
    } else {
        greatest_divisor(other, one % other)
    }
}

/// The rate that the order takes of one component is the least that moves its
/// cash by a thousandth, or just below it; the other rate is any.
fn tune_a_rate(rng: &mut Rng, lent: &mut Lent, call: &Call, order: Order) {
    let line = rng.index(lent.prices.len());
    let before = lent.day.components[line];
    if !lent.day.table.says(before.flag, FlagColumn::RateUsed) {
        return;
    }
    let other = rng.between(0, range::RATE_MAX);
    let set_rate = |lent: &mut Lent, rate| {
        let component = &mut lent.day.components[line];
        (component.premium, component.discount) = match call {
            Call::Create(_) => (rate, other),
            _ => (other, rate),
        };
    };
    let place = order.account as usize * stretch_width(lent.prices.len());
    let cash = |lent: &mut Lent, rate| {
        set_rate(lent, rate);
        let (reply, after) = outcome(lent, call);
        reply.is_accepted().then_some(after.book[place])
    };
    let without = cash(lent, 0);
    let moves = |lent: &mut Lent, rate| cash(lent, rate).is_some_and(|cash| Some(cash) != without);
    match least_passing(lent, 0, range::RATE_MAX, moves) {
        Some(least) => set_rate(lent, least.saturating_sub(rng.below(2))),
        None => lent.day.components[line] = before,
    }
}

/// The buyer has just the cash of a trade, or one thousandth less.
fn tune_trade(rng: &mut Rng, lent: &mut Lent) -> Call {
    let trade = calls::trade(rng, lent, Scale::Tiny);
    let call = Call::Trade(trade);
    let place = (trade.buyer as usize).wrapping_mul(stretch_width(lent.prices.len()));
    if outcome(lent, &call).0.is_accepted() {
        lent.book[place] = trade.quantity * trade.price - rng.below(2);
    }
    call
}

/// The least number that passes, if the highest does; passing is monotone.
fn least_passing(
    lent: &mut Lent,
    low: u64,
    high: u64,
    passes: impl Fn(&mut Lent, u64) -> bool,
) -> Option<u64> {
    if !passes(lent, high) {
        return None;
    }
    let (mut low, mut high) = (low, high);
    while low < high {
        let middle = low + (high - low) / 2;
        if passes(lent, middle) {
            high = middle;
        } else {
            low = middle + 1;
        }
    }
    Some(low)
}

/// The old lot of one line leaves just what the order needs, or one less.
fn tune_stock(rng: &mut Rng, lent: &mut Lent, call: &Call, order: Order) {
    let line = rng.index(lent.prices.len());
    let baskets = order.units / lent.day.fund.basket_size;
    let need = baskets * lent.day.components[line].quantity;
    let giver = if matches!(call, Call::Create(_)) {
        order.account
    } else {
        0
    };
    tune_lot(rng, lent, giver, line, need);
}

/// The old lot of units leaves just what a redemption needs, or one less.
fn tune_units(rng: &mut Rng, lent: &mut Lent, order: Order) {
    let line = lent.prices.len();
    tune_lot(rng, lent, order.account, line, order.units);
}

/// Lowers the old lot, so that totals stay in range.
fn tune_lot(rng: &mut Rng, lent: &mut Lent, account: u64, line: usize, need: u64) {
    let width = stretch_width(lent.prices.len());
    let place = account as usize * width + STRETCH_HEAD + LOTS * line;
    let bought = lent.book[place + 1];
    let wanted = need.saturating_sub(bought).saturating_sub(rng.below(2));
    lent.book[place] = lent.book[place].min(wanted);
}

/// One price is the highest that leaves a reference value, or one more.
fn tune_value(rng: &mut Rng, lent: &mut Lent) -> Call {
    let line = rng.index(lent.prices.len());
    let highest = *range::PRICE.end();
    let too_high = |lent: &mut Lent, price| {
        lent.prices[line] = price;
        !Model.call(&Call::Value, lent).is_accepted()
    };
    lent.prices[line] = match least_passing(lent, 1, highest, too_high) {
        Some(least) => least - rng.below(2),
        None => highest,
    };
    Call::Value
}

/// The lists are just long enough, or nearly.
fn tune_room(rng: &mut Rng, lent: &Lent, make: fn(Order) -> Call, order: Order) -> Call {
    let (reply, _) = outcome(lent, &make(order));
    let lengths = calls::list_lengths(rng, reply, lent.runs.lengths());
    make(Order { lengths, ..order })
}
