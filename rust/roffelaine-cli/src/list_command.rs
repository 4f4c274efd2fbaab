//! `roffelaine list`: what a list has, or what is wrong with it and where.

use crate::flag_rows::GivenRows;
use crate::input::Input;
use crate::names::text_name;
use crate::output_error;
use roffelaine::{Component, FlagColumn, FlagTable, Limits, List};
use std::ffi::OsStr;
use std::io::{self, Write};

/// Reads a list; whether it was accepted.
pub fn run(
    out: &mut impl Write,
    file: &OsStr,
    crlf: bool,
    output: Option<&OsStr>,
) -> Result<bool, String> {
    let input = Input::read(file, crlf)?;
    if input.mended > 0 {
        let (name, lines) = (&input.name, input.mended);
        eprintln!("{name}: {lines} lines that end in LF are read as if they ended in CRLF");
    }
    match input.list() {
        Ok(list) => {
            if let Some(output) = output {
                let written = std::fs::write(output, input.bytes());
                written.map_err(|error| format!("{}: {error}", output.to_string_lossy()))?;
            }
            summary(out, &list, &input.rows).map(|()| true)
        }
        Err(refused) => writeln!(out, "{refused}").map(|()| false),
    }
    .map_err(output_error)
}

fn summary(out: &mut impl Write, list: &List<'_>, rows: &GivenRows) -> io::Result<()> {
    let (head, fund) = (&list.head, &list.head.fund);
    let letters = String::from_utf8_lossy(list.letters);
    writeln!(out, "list ETF{letters} of {:08}", head.trading_day)?;
    let [units, orders, shanghai, other] = [0, 1, 2, 5].map(|step| fund.first_code + step);
    write!(
        out,
        "codes: {units:06} units, {orders:06} creation and redemption, "
    )?;
    writeln!(out, "{shanghai:06} Shanghai cash, {other:06} other cash")?;
    let (basket, cash) = (fund.basket_size, fund.estimated_cash);
    writeln!(out, "basket of {basket} units, estimated cash {cash}")?;
    writeln!(out, "CreationRedemption {}", fund.switch)?;
    writeln!(out, "MaxCashRatio {}", fund.max_cash_ratio)?;
    let limits = Limits::NAMES.into_iter().zip(fund.limits.in_order());
    let mut set = limits.filter(|(_, limit)| limit.0 > 0).peekable();
    if set.peek().is_none() {
        writeln!(out, "no limits")?;
    }
    for (name, limit) in set {
        writeln!(out, "{name} {limit}")?;
    }
    if let Some(table) = rows.table() {
        let mut flags = rows.flags();
        flags.try_for_each(|each| flag(out, &table, each))?;
    }
    writeln!(out, "{} components", list.components.len())?;
    let mut components = list.components.iter();
    components.try_for_each(|each| component(out, list, each))
}

/// What a given row says of a flag.
fn flag(out: &mut impl Write, table: &FlagTable, flag: usize) -> io::Result<()> {
    let is_yes = |column: &FlagColumn| table.says(flag as u64, *column);
    if !is_yes(&FlagColumn::InUse) {
        return writeln!(out, "flag {flag}: not in use");
    }
    let columns = FlagColumn::ALL.into_iter().filter(is_yes);
    let others = columns.filter(|column| *column != FlagColumn::InUse);
    let words: Vec<&str> = others.map(FlagColumn::words).collect();
    writeln!(out, "flag {flag}: {}", words.join(", "))
}

fn component(out: &mut impl Write, list: &List<'_>, component: &Component) -> io::Result<()> {
    let name = text_name(list, component.code);
    let (code, quantity, flag) = (component.code, component.quantity, component.flag);
    write!(out, "{code:06} {name:<8} {quantity} flag {flag}")?;
    // Where one rate is 0 and the other is not, both are said.
    let (premium, discount) = (component.premium, component.discount);
    if premium.0 > 0 || discount.0 > 0 {
        write!(out, " premium {premium} discount {discount}")?;
    }
    if component.amount.0 > 0 {
        write!(out, " amount {}", component.amount)?;
    }
    writeln!(out)
}
