//! The archive as an engine to compare with the model.

use crate::engine::{Engine, Lent, LentList};
use crate::flat::{day_numbers, day_of, field_numbers, fund_numbers};
use crate::model::list::Writing;
use crate::model::refusal::NO_SUCH_LINE;
use crate::model::{Call, Lengths, Lists, Opening, Reply};
use roffelaine::lent;

/// The proved library, called through the runs that it is lent.
pub struct Archive;

/// The four numbers of the archive's answer are those of the model's.
impl From<lent::Reply> for Reply {
    fn from(reply: lent::Reply) -> Self {
        Reply {
            number: reply.number,
            place: reply.place,
            value: reply.value,
            reports: reply.reports,
        }
    }
}

/// The model's lists as the library takes them.
pub fn lists_of(lists: Lists<'_>) -> lent::Lists<'_> {
    lent::Lists {
        records: lists.records,
        investor: lists.investor,
        fund: lists.fund,
    }
}

fn lengths_of(lengths: Lengths) -> lent::Lengths {
    lent::Lengths {
        records: lengths.records,
        investor: lengths.investor,
        fund: lengths.fund,
    }
}

impl Engine for Archive {
    fn open(&self, opening: &Opening<'_>, lent: &mut Lent) -> Reply {
        let mut day = day_numbers(&lent.day);
        let reply = lent::open(
            opening.accounts,
            opening.count,
            &fund_numbers(&opening.fund),
            opening.table,
            opening.components,
            opening.holdings,
            &mut lent.book,
            &mut lent.prices,
            &mut day,
        );
        lent.day = day_of(&day);
        reply.into()
    }

    fn call(&self, call: &Call, lent: &mut Lent) -> Reply {
        let Lent {
            day,
            book,
            prices,
            runs,
        } = lent;
        let lists = runs.front(call.lengths());
        self::call(&day_numbers(day), book, prices, lists, call)
    }

    fn run(&self, rows: &[u64], lent: &mut Lent, answers: &mut [u64]) -> Reply {
        let Lent {
            day,
            book,
            prices,
            runs,
        } = lent;
        let (day, lists) = (day_numbers(day), lists_of(runs.lend()));
        lent::run(&day, book, prices, rows, lists, answers).into()
    }

    fn run_one_by_one(&self, rows: &[u64], lent: &mut Lent, answers: &mut [u64]) -> Reply {
        let Lent {
            day,
            book,
            prices,
            runs,
        } = lent;
        let (day, lists) = (day_numbers(day), lists_of(runs.lend()));
        lent::run_one_by_one(&day, book, prices, rows, lists, answers).into()
    }

    fn read(&self, text: &[u8], table: &[u64], lent: &mut LentList) -> Reply {
        let LentList {
            components,
            fields,
            first_row,
        } = lent;
        lent::read(text, table, components, fields, first_row).into()
    }

    fn name(&self, text: &[u8], first_row: u64, component: u64, part: &mut [u64]) -> u64 {
        lent::name(text, first_row, component, part)
    }

    fn letters(&self, text: &[u8], part: &mut [u64]) -> u64 {
        lent::letters(text, part)
    }

    fn write(&self, list: &Writing<'_>, output: &mut [u8]) -> Reply {
        let fields = field_numbers(&list.head, list.count);
        lent::write(
            &fields,
            list.table,
            list.components,
            list.names,
            list.letters,
            output,
        )
        .into()
    }
}

/// Makes one call on a day given as its numbers; an order is lent all of its
/// lists.
pub fn call(
    day: &[u64],
    book: &mut [u64],
    prices: &mut [u64],
    lists: Lists<'_>,
    call: &Call,
) -> Reply {
    let lists = lists_of(lists);
    let reply = match *call {
        Call::Price { line, price } => lent::price(day, book, prices, line, price),
        Call::Trade(trade) => lent::trade(
            day,
            book,
            prices,
            trade.line,
            trade.quantity,
            trade.price,
            trade.seller,
            trade.buyer,
        ),
        Call::Create(order) => lent::create(day, book, prices, order.account, order.units, lists),
        Call::Redeem(order) => lent::redeem(day, book, prices, order.account, order.units, lists),
        Call::Value => lent::reference_value(day, book, prices),
        Call::TestDay => test_day(day, book, prices),
        Call::TestCreation(order) => {
            let lengths = lengths_of(order.lengths);
            lent::creation_test(day, book, prices, order.account, order.units, lengths)
        }
        Call::TestRedemption(order) => {
            let lengths = lengths_of(order.lengths);
            lent::redemption_test(day, book, prices, order.account, order.units, lengths)
        }
    };
    reply.into()
}

/// The archive has no call for the test alone: a price for a component that
/// no day has goes no further than that.
fn test_day(day: &[u64], book: &[u64], prices: &mut [u64]) -> lent::Reply {
    match lent::price(day, book, prices, u64::MAX, 0) {
        lent::Reply {
            number: NO_SUCH_LINE,
            place: 0,
            value: 0,
            reports: 0,
        } => lent::Reply::default(),
        other => other,
    }
}
