//! Accepted prices and trades that follow each other, as rows of one table.

use super::looks::How;
use super::text::{code, grouped, Escaped};
use super::Kept;
use crate::names::text_name;
use crate::said::{Answer, Said};
use crate::statement::Call;
use crate::text::yuan;
use roffelaine::{List, Money};
use std::io::{self, Write};

/// The fewest prices and trades that stand in a table.
const FEWEST: usize = 2;

/// How many entries from the first one stand in a table: prices and trades that
/// were accepted, and expectations of them that were met.
pub fn length(kept: &[Kept]) -> usize {
    if kept.first().and_then(row_call).is_none() {
        return 0;
    }
    let is_row = |kept: &&Kept| row_call(kept).is_some() || kept.entry.said == Said::Met;
    let length = kept.iter().take_while(is_row).count();
    let calls = kept[..length].iter().filter_map(row_call).take(FEWEST);
    if calls.count() < FEWEST {
        return 0;
    }
    length
}

/// The price or trade of an entry that is a row.
fn row_call(kept: &Kept) -> Option<&Call> {
    match &kept.entry.said {
        Said::Answer(Answer {
            call: call @ (Call::Price { .. } | Call::Trade(_)),
            outcome: Ok(_),
        }) => Some(call),
        _ => None,
    }
}

/// Writes a run as a table; one of prices alone has fewer columns.
pub fn table(out: &mut impl Write, list: &List<'_>, run: &[Kept]) -> io::Result<()> {
    let is_trade = |kept: &Kept| matches!(row_call(kept), Some(Call::Trade(_)));
    let has_trades = run.iter().any(is_trade);
    let columns: &[(&str, &str)] = match has_trades {
        true => &WITH_TRADES,
        false => &PRICES,
    };
    let how = How::of_rows(run.len());
    write!(
        out,
        "<li{how}><div class=\"w\"><table class=\"run\"><thead><tr>"
    )?;
    for (name, class) in columns {
        write!(out, "<th scope=\"col\"{class}>{name}</th>")?;
    }
    write!(out, "</tr></thead><tbody>")?;
    for kept in run {
        let line = kept.entry.line;
        write!(out, "<tr id=\"l{line}\"><th scope=\"row\">{line}</th>")?;
        match row_call(kept) {
            Some(call) => cells(out, list, call, has_trades)?,
            None => {
                let (span, said) = (columns.len() - 1, code(&kept.text));
                write!(out, "<td class=\"t\" colspan=\"{span}\">{said} met</td>")?;
            }
        }
        writeln!(out, "</tr>")?;
    }
    writeln!(out, "</tbody></table></div></li>")
}

const TEXT: &str = " class=\"t\"";
const PRICES: [(&str, &str); 5] = [
    ("Line", ""),
    ("Accepted call", TEXT),
    ("Code", ""),
    ("Name", TEXT),
    ("Price, yuan", ""),
];
const WITH_TRADES: [(&str, &str); 9] = [
    ("Line", ""),
    ("Accepted call", TEXT),
    ("Code", ""),
    ("Name", TEXT),
    ("Price, yuan", ""),
    ("Quantity", ""),
    ("Amount, yuan", ""),
    ("Seller", ""),
    ("Buyer", ""),
];

fn cells(out: &mut impl Write, list: &List<'_>, call: &Call, has_trades: bool) -> io::Result<()> {
    match *call {
        Call::Price { code, price } => {
            first_cells(out, list, "price", code, price)?;
            if has_trades {
                write!(out, "<td></td><td></td><td></td><td></td>")?;
            }
            Ok(())
        }
        Call::Trade(trade) => {
            first_cells(out, list, "trade", trade.code, trade.price)?;
            let (quantity, amount) = (grouped(trade.quantity), grouped(yuan(trade.paid())));
            let (seller, buyer) = (trade.seller, trade.buyer);
            write!(
                out,
                "<td>{quantity}</td><td>{amount}</td><td>{seller}</td><td>{buyer}</td>"
            )
        }
        _ => Ok(()),
    }
}

fn first_cells(
    out: &mut impl Write,
    list: &List<'_>,
    word: &str,
    code: u64,
    price: Money,
) -> io::Result<()> {
    let (name, price) = (text_name(list, code), grouped(price));
    write!(
        out,
        "<td class=\"t\">{word}</td><td>{code:06}</td><td class=\"t\">{}</td><td>{price}</td>",
        Escaped(&name)
    )
}
