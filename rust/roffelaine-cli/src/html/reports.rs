//! The execution reports of an order, a table for each party.

use super::text::{account_name, counted, grouped, Escaped};
use crate::names::text_report_name;
use crate::said::Reports;
use crate::statement::Order;
use roffelaine::{CashKind, List, Report, ReportType};
use std::io::{self, Write};

/// Writes the reports to the investor, and those to the fund's manager.
pub fn reports(
    out: &mut impl Write,
    list: &List<'_>,
    order: &Order,
    reports: &Reports,
) -> io::Result<()> {
    let investor = format!("{}, the investor", account_name(order.account));
    table(out, list, &investor, &reports.investor)?;
    table(out, list, "the fund's manager", &reports.fund)
}

/// How many rows the tables of reports have, and how many are their headings.
pub fn rows(reports: &Reports) -> usize {
    let headings = 2;
    reports.investor.len() + reports.fund.len() + 2 * headings
}

fn table(
    out: &mut impl Write,
    list: &List<'_>,
    receiver: &str,
    reports: &[Report],
) -> io::Result<()> {
    let of = reports.len();
    let count = counted(of, "report");
    write!(
        out,
        "<details open><summary>{count} to {receiver}</summary>\
         <div class=\"w\"><table><thead><tr><th scope=\"col\">Report</th>\
         <th scope=\"col\" class=\"t\">Type</th><th scope=\"col\">Code</th>\
         <th scope=\"col\" class=\"t\">Name</th><th scope=\"col\" class=\"t\">Side</th>\
         <th scope=\"col\">Quantity</th>"
    )?;
    for kind in CashKind::ALL {
        write!(out, "<th scope=\"col\">{}, yuan</th>", kind_words(kind))?;
    }
    write!(out, "</tr></thead><tbody>")?;
    for (before, report) in reports.iter().enumerate() {
        write!(out, "<tr><td>{} of {of}</td>", before + 1)?;
        cells(out, list, report)?;
    }
    write!(out, "</tbody></table></div></details>")
}

/// A report of cash has no code and no quantity, the others have no cash.
fn cells(out: &mut impl Write, list: &List<'_>, report: &Report) -> io::Result<()> {
    let (code, quantity) = match report.report_type {
        ReportType::Unit | ReportType::Stock => {
            (format!("{:06}", report.code), grouped(report.quantity))
        }
        ReportType::Cash => (String::new(), String::new()),
    };
    let (number, side) = (report.side.number(), report.side.letter());
    write!(
        out,
        "<td class=\"t\">{}</td><th scope=\"row\">{code}</th><td class=\"t\">{}</td>\
         <td class=\"t\">{number} ({side})</td><td>{quantity}</td>",
        type_words(report.report_type),
        Escaped(&text_report_name(list, report))
    )?;
    for kind in CashKind::ALL {
        let mut groups = report.groups.iter().flatten();
        let group = groups.find(|group| group.kind == kind);
        let amount = group.map_or(String::new(), |group| grouped(group.amount));
        write!(out, "<td>{amount}</td>")?;
    }
    write!(out, "</tr>")
}

fn type_words(report_type: ReportType) -> &'static str {
    match report_type {
        ReportType::Unit => "1 unit",
        ReportType::Stock => "2 stock",
        ReportType::Cash => "3 cash",
    }
}

fn kind_words(kind: CashKind) -> &'static str {
    match kind {
        CashKind::Shanghai => "1 Shanghai cash",
        CashKind::Other => "2 other cash",
    }
}
