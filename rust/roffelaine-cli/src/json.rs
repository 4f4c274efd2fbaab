//! A rehearsal as one JSON object: all answers, with the records of orders, and
//! with their reports where they are on.

use crate::names::{text_name, text_report_name};
use crate::said::{Answer, Counts, Entry, Made, Position, Said, Total};
use crate::statement::Call;
use crate::text::figures;
use roffelaine::{FlagColumn, FlagTable, List, Report, FLAG_COLUMNS};
use std::fmt::{self, Display};
use std::io::{self, Write};

/// Writes the list, with the flag table that it was read under where one is
/// given, and the start of the entries.
pub fn start(
    out: &mut impl Write,
    file: &str,
    list: &List<'_>,
    table: Option<&FlagTable>,
) -> io::Result<()> {
    let (head, fund) = (&list.head, &list.head.fund);
    let components = list.components.iter().map(|component| {
        object([
            ("code", code(component.code)),
            ("name", string(&text_name(list, component.code))),
            ("quantity", component.quantity.to_string()),
            ("flag", component.flag.to_string()),
            ("premium", string(&component.premium)),
            ("discount", string(&component.discount)),
            ("amount", string(&component.amount)),
        ])
    });
    let mut list = vec![
        ("letters", string(&String::from_utf8_lossy(list.letters))),
        ("first_code", code(fund.first_code)),
        ("basket_size", fund.basket_size.to_string()),
        ("trading_day", string(&format!("{:08}", head.trading_day))),
        ("components", array(components)),
    ];
    list.extend(table.map(flag_table));
    let (file, list) = (string(&file), object(list));
    write!(out, "{{\"file\":{file},\n\"list\":{list},\n\"entries\":[")
}

/// Writes what a line came to, behind `before` others.
pub fn entry(
    out: &mut impl Write,
    list: &List<'_>,
    entry: &Entry,
    before: usize,
) -> io::Result<()> {
    let comma = if before > 0 { "," } else { "" };
    let mut members = vec![("line", entry.line.to_string())];
    members.extend(said(list, &entry.said));
    write!(out, "{comma}\n{}", object(members))
}

/// Writes the totals, the positions and the counts, and the end.
pub fn end(
    out: &mut impl Write,
    totals: &[Total],
    positions: &[Position],
    counts: &Counts,
) -> io::Result<()> {
    let totals = array(totals.iter().map(total));
    let positions = array(positions.iter().map(|each| object(position(each))));
    let counts = object([
        ("calls", counts.calls().to_string()),
        ("accepted", counts.accepted.to_string()),
        ("refused", counts.refused.to_string()),
        ("not_understood", counts.not_understood.to_string()),
        ("expected", counts.met.to_string()),
        ("not_expected", counts.not_met.to_string()),
    ]);
    writeln!(
        out,
        "\n],\n\"totals\":{totals},\n\"positions\":{positions},\n\"counts\":{counts}}}"
    )
}

/// A file whose list is refused.
pub fn refused_list(
    out: &mut impl Write,
    file: &str,
    refusal: roffelaine::Refusal,
    reason: &str,
) -> io::Result<()> {
    let refused = object([
        ("number", refusal.number().to_string()),
        ("place", refusal.place().to_string()),
        ("reason", string(&reason)),
    ]);
    let whole = object([("file", string(&file)), ("list_refused", refused)]);
    writeln!(out, "{whole}")
}

type Members = Vec<(&'static str, String)>;

fn said(list: &List<'_>, said: &Said) -> Members {
    match said {
        Said::Answer(answer) => self::answer(list, answer),
        Said::Account(position) => vec![("position", object(self::position(position)))],
        Said::Totals(totals) => vec![("totals", array(totals.iter().map(total)))],
        Said::NotUnderstood { column, why } => vec![
            ("answer", string(&"not understood")),
            ("column", column.to_string()),
            ("reason", string(&why)),
        ],
        Said::NotMade { why } => vec![
            ("call", string(&"open")),
            ("answer", string(&"not made")),
            ("reason", string(&why)),
        ],
        Said::Met => vec![("answer", string(&"expected"))],
        Said::NotMet { why } => vec![
            ("answer", string(&"not expected")),
            ("reason", string(&why)),
        ],
    }
}

fn answer(list: &List<'_>, answer: &Answer) -> Members {
    let mut members = vec![("call", string(&answer.call.word()))];
    members.extend(arguments(&answer.call));
    match &answer.outcome {
        Err(refused) => members.extend([
            ("answer", string(&"refused")),
            ("number", refused.refusal.number().to_string()),
            ("place", refused.refusal.place().to_string()),
            ("reason", string(&refused.reason)),
        ]),
        Ok(made) => {
            members.push(("answer", string(&"ok")));
            match made {
                Made::Done => {}
                Made::Opened { table } => members.extend(table.as_deref().map(flag_table)),
                Made::Value(value) => members.push(("value", string(value))),
                Made::Order { reports, .. } => {
                    members.push(("records", records(list, answer)));
                    if let Some(both) = reports {
                        members.push(("investor_reports", self::reports(list, &both.investor)));
                        members.push(("fund_reports", self::reports(list, &both.fund)));
                    }
                }
                Made::Tested { records, reports } => {
                    members.push(("record_count", records.to_string()));
                    let reports = reports.map(|reports| ("report_count", reports.to_string()));
                    members.extend(reports);
                }
            }
        }
    }
    members
}

/// The names of a flag table's columns, in the order of `FlagColumn::ALL`.
const COLUMNS: [&str; FLAG_COLUMNS] = [
    "stock_moves",
    "shortage_in_cash",
    "rate_used",
    "amount_used",
    "shanghai",
    "priced",
    "in_use",
];

/// A flag table as a member: an object for each flag.
fn flag_table(table: &FlagTable) -> (&'static str, String) {
    let rows = table.rows().iter().enumerate();
    let rows = rows.map(|(flag, row)| {
        let numbers = FlagColumn::ALL.map(|column| {
            let at = column as usize;
            (COLUMNS[at], row[at].to_string())
        });
        object([("flag", flag.to_string())].into_iter().chain(numbers))
    });
    ("flag_table", array(rows))
}

fn arguments(call: &Call) -> Members {
    match call {
        Call::Open | Call::Value => Vec::new(),
        Call::Price { code: of, price } => vec![("code", code(*of)), ("price", string(price))],
        Call::Trade(trade) => vec![
            ("code", code(trade.code)),
            ("quantity", trade.quantity.to_string()),
            ("price", string(&trade.price)),
            ("seller", trade.seller.to_string()),
            ("buyer", trade.buyer.to_string()),
        ],
        Call::Create(order)
        | Call::Redeem(order)
        | Call::TestCreate(order)
        | Call::TestRedeem(order) => vec![
            ("account", order.account.to_string()),
            ("units", order.units.to_string()),
        ],
    }
}

fn records(list: &List<'_>, answer: &Answer) -> String {
    let records = answer.records();
    array(records.iter().enumerate().map(|(before, record)| {
        object([
            ("seq", (before + 1).to_string()),
            ("of", records.len().to_string()),
            ("code", code(record.code)),
            ("name", string(&text_name(list, record.code))),
            ("side", string(&record.side.letter())),
            ("quantity", record.quantity.to_string()),
            ("price", string(&record.price)),
            ("amount", string(&record.amount)),
        ])
    }))
}

fn reports(list: &List<'_>, reports: &[Report]) -> String {
    array(reports.iter().enumerate().map(|(before, report)| {
        let groups = report.groups.iter().flatten().map(|group| {
            object([
                ("kind", group.kind.number().to_string()),
                ("amount", string(&group.amount)),
            ])
        });
        object([
            ("seq", (before + 1).to_string()),
            ("of", reports.len().to_string()),
            ("type", report.report_type.number().to_string()),
            ("side", report.side.number().to_string()),
            ("code", code(report.code)),
            ("name", string(&text_report_name(list, report))),
            ("quantity", report.quantity.to_string()),
            ("groups", array(groups)),
        ])
    }))
}

fn position(position: &Position) -> Members {
    let lots = position.lots.iter().map(|(of, lots)| {
        object([
            ("code", code(*of)),
            ("old", lots.old.to_string()),
            ("bought", lots.bought.to_string()),
            ("got", lots.got.to_string()),
        ])
    });
    vec![
        ("account", position.account.to_string()),
        ("cash", string(&position.cash)),
        ("created", position.created.to_string()),
        ("redeemed", position.redeemed.to_string()),
        ("lots", array(lots)),
    ]
}

fn total(total: &Total) -> String {
    let [opened, came_in, went_out, holds] = figures(total).map(|figure| string(&figure));
    object([
        ("code", total.code.map_or(string(&"cash"), code)),
        ("opened", opened),
        ("in", came_in),
        ("out", went_out),
        ("holds", holds),
    ])
}

/// A code as a string, since it has six digits and may start with zeros.
fn code(code: u64) -> String {
    format!("\"{code:06}\"")
}

fn object(members: impl IntoIterator<Item = (&'static str, String)>) -> String {
    let members: Vec<String> = members
        .into_iter()
        .map(|(name, value)| format!("\"{name}\":{value}"))
        .collect();
    format!("{{{}}}", members.join(","))
}

fn array(items: impl Iterator<Item = String>) -> String {
    format!("[{}]", items.collect::<Vec<_>>().join(","))
}

/// A string of JSON.
fn string(text: &impl Display) -> String {
    format!("\"{}\"", Escaped(&text.to_string()))
}

struct Escaped<'t>(&'t str);

impl Display for Escaped<'_> {
    fn fmt(&self, out: &mut fmt::Formatter<'_>) -> fmt::Result {
        self.0.chars().try_for_each(|each| match each {
            '"' => out.write_str("\\\""),
            '\\' => out.write_str("\\\\"),
            control if control < ' ' => write!(out, "\\u{:04x}", u32::from(control)),
            other => write!(out, "{other}"),
        })
    }
}

#[cfg(test)]
mod tests {
    use super::*;

    #[test]
    fn strings_are_escaped() {
        assert_eq!(string(&"a\"b\\c\n"), r#""a\"b\\c\u000a""#);
    }
}
