//! The records of a rehearsal as rows of a table, and its reports where they are
//! on.

use crate::names::{name_of, report_name};
use crate::said::{Entry, Said};
use roffelaine::{List, Record, Report};
use std::io::{self, Write};

const RECORDS: &str = "line,call,account,seq,of,code,name,side,quantity,price,amount";
/// The further columns of a day that says reports.
const REPORTS: &str = "list,type,kind1,amount1,kind2,amount2,kind3,amount3";

/// A table of one of two widths.
#[derive(Clone, Copy)]
pub struct Table {
    /// Whether it has the columns of reports.
    pub has_reports: bool,
}

impl Table {
    /// Writes the names of the columns.
    pub fn header(self, out: &mut impl Write) -> io::Result<()> {
        match self.has_reports {
            true => writeln!(out, "{RECORDS},{REPORTS}"),
            false => writeln!(out, "{RECORDS}"),
        }
    }

    /// Writes a row for each record of an entry and for each of its reports;
    /// `seq` counts from 1 to `of` in each list.
    pub fn entry(self, out: &mut impl Write, list: &List<'_>, entry: &Entry) -> io::Result<()> {
        let Said::Answer(answer) = &entry.said else {
            return Ok(());
        };
        let Some(order) = answer.call.order() else {
            return Ok(());
        };
        let order = format!("{},{},{}", entry.line, answer.call.word(), order.account);
        let records = answer.records();
        for (seq, each) in (1..).zip(records) {
            write!(out, "{order},{seq},{},", records.len())?;
            record(out, list, each)?;
            match self.has_reports {
                true => writeln!(out, ",records,,,,,,,")?,
                false => writeln!(out)?,
            }
        }
        let Some(reports) = answer.reports() else {
            return Ok(());
        };
        for (party, reports) in reports.by_party() {
            for (seq, each) in (1..).zip(reports) {
                write!(out, "{order},{seq},{},", reports.len())?;
                report(out, list, party, each)?;
            }
        }
        Ok(())
    }
}

fn record(out: &mut impl Write, list: &List<'_>, record: &Record) -> io::Result<()> {
    let (code, side) = (record.code, record.side.letter());
    write!(out, "{code:06},")?;
    field(out, &name_of(list, code))?;
    let (quantity, price, amount) = (record.quantity, record.price, record.amount);
    write!(out, ",{side},{quantity},{price},{amount}")
}

/// A report has no price and no amount of its own.
fn report(out: &mut impl Write, list: &List<'_>, party: &str, report: &Report) -> io::Result<()> {
    let (code, quantity) = (report.code, report.quantity);
    write!(out, "{code:06},")?;
    field(out, &report_name(list, report))?;
    let (side, report_type) = (report.side.number(), report.report_type.number());
    write!(out, ",{side},{quantity},,,{party},{report_type}")?;
    for group in report.groups {
        match group {
            Some(group) => write!(out, ",{},{}", group.kind.number(), group.amount)?,
            None => write!(out, ",,")?,
        }
    }
    writeln!(out)
}

/// A field, in quotes where a comma or a quote is in it.
pub fn field(out: &mut impl Write, text: &[u8]) -> io::Result<()> {
    if !text.iter().any(|byte| matches!(byte, b',' | b'"')) {
        return out.write_all(text);
    }
    out.write_all(b"\"")?;
    for &byte in text {
        out.write_all(if byte == b'"' {
            b"\"\""
        } else {
            std::slice::from_ref(&byte)
        })?;
    }
    out.write_all(b"\"")
}
