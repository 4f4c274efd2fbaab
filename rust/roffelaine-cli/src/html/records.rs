//! The records of an order, each with the cash of the order so far and with
//! what the account has once it is posted.

use super::text::{account_name, counted, grouped, Escaped};
use crate::names::text_name;
use crate::posting::Posting;
use crate::statement::{Call, Order};
use crate::text::yuan;
use roffelaine::{List, Record, Side};
use std::io::{self, Write};

/// What a record posts.
#[derive(Clone, Copy, PartialEq, Eq)]
enum What {
    Units,
    Shares,
    Cash,
}

/// Writes the records of an accepted order and posts them one by one.
pub fn records(
    out: &mut impl Write,
    list: &List<'_>,
    posting: &mut Posting,
    call: &Call,
    records: &[Record],
) -> io::Result<()> {
    let Some(order) = call.order() else {
        return Ok(());
    };
    let (of, account) = (records.len(), account_name(order.account));
    let verb = if is_creation(call) { "pays" } else { "gets" };
    let all = yuan(records.iter().map(|each| cash_of(list, call, each)).sum());
    let (count, all) = (counted(of, "record"), grouped(all));
    write!(
        out,
        "<details open><summary>{count}, {account} {verb} {all} yuan</summary>"
    )?;
    header(out, call, order)?;
    let mut so_far = 0;
    for (before, record) in records.iter().enumerate() {
        so_far += cash_of(list, call, record);
        posting.post(list, call, std::slice::from_ref(record));
        write!(out, "<tr><td>{} of {of}</td>", before + 1)?;
        self::record(out, list, record)?;
        running(out, list, posting, order, record, so_far)?;
    }
    write!(out, "</tbody></table></div></details>")
}

fn is_creation(call: &Call) -> bool {
    matches!(call, Call::Create(_))
}

fn what(list: &List<'_>, record: &Record) -> What {
    match record.code.checked_sub(list.head.fund.first_code) {
        Some(0 | 1) => What::Units,
        Some(2 | 5) => What::Cash,
        _ => What::Shares,
    }
}

/// The cash of a record, above 0 where a creation pays it or a redemption gets
/// it.
fn cash_of(list: &List<'_>, call: &Call, record: &Record) -> i128 {
    let amount = i128::from(record.amount.0);
    match (what(list, record), is_creation(call), record.side) {
        (What::Cash, true, Side::Buy) | (What::Cash, false, Side::Sell) => amount,
        (What::Cash, ..) => -amount,
        _ => 0,
    }
}

fn header(out: &mut impl Write, call: &Call, order: &Order) -> io::Result<()> {
    let paid = if is_creation(call) { "Paid" } else { "Got" };
    let account = order.account;
    write!(
        out,
        "<div class=\"w\"><table><thead><tr><th scope=\"col\">Record</th>\
         <th scope=\"col\">Code</th><th scope=\"col\" class=\"t\">Name</th>\
         <th scope=\"col\" class=\"t\">Side</th><th scope=\"col\">Quantity</th>\
         <th scope=\"col\">Price, yuan</th><th scope=\"col\">Amount, yuan</th>\
         <th scope=\"col\">{paid} so far, yuan</th>\
         <th scope=\"col\" colspan=\"2\">Account {account} then has</th></tr></thead><tbody>"
    )
}

fn record(out: &mut impl Write, list: &List<'_>, record: &Record) -> io::Result<()> {
    let (code, side) = (record.code, record.side.letter());
    let name = text_name(list, code);
    write!(
        out,
        "<th scope=\"row\">{code:06}</th><td class=\"t\">{}</td><td class=\"t\">{side}</td>",
        Escaped(&name)
    )?;
    let (quantity, price) = (grouped(record.quantity), grouped(record.price));
    let amount = grouped(record.amount);
    write!(out, "<td>{quantity}</td><td>{price}</td><td>{amount}</td>")
}

/// The cash of the order so far, for a record of cash, and the position that
/// the record was posted to.
fn running(
    out: &mut impl Write,
    list: &List<'_>,
    posting: &Posting,
    order: &Order,
    record: &Record,
    so_far: i128,
) -> io::Result<()> {
    let account = order.account as usize;
    let at = |place: usize| posting.at(account, place).posted();
    let (so_far, has, unit) = match what(list, record) {
        What::Cash => (grouped(yuan(so_far)), yuan(at(posting.cash())), "yuan"),
        What::Units => {
            let units = at(list.components.len());
            (String::new(), units.to_string(), "units")
        }
        What::Shares => {
            let shares = list.line_of(record.code).map(at);
            (String::new(), shares.unwrap_or(0).to_string(), "shares")
        }
    };
    let has = grouped(has);
    write!(
        out,
        "<td>{so_far}</td><td>{has}</td><td class=\"t\">{unit}</td></tr>"
    )
}
