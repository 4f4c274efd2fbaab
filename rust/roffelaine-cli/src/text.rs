//! A rehearsal as plain lines.

use crate::said::{Answer, Counts, Entry, Made, Position, Reports, Said, Total};
use std::io::{self, Write};

/// Writes what a line came to.
pub fn entry(out: &mut impl Write, entry: &Entry) -> io::Result<()> {
    let line = entry.line;
    match &entry.said {
        Said::Answer(answer) => self::answer(out, line, answer),
        Said::Account(position) => self::position(out, line, position),
        Said::Totals(totals) => self::totals(out, line, totals),
        Said::NotUnderstood { column, why } => {
            writeln!(out, "{line} not understood: column {column}: {why}")
        }
        Said::NotMade { why } => writeln!(out, "{line} open not made: {why}"),
        Said::Met => Ok(()),
        Said::NotMet { why } => writeln!(out, "{line} not expected: {why}"),
    }
}

fn answer(out: &mut impl Write, line: usize, answer: &Answer) -> io::Result<()> {
    let word = answer.call.word();
    match &answer.outcome {
        Ok(Made::Done | Made::Opened { .. }) => writeln!(out, "{line} {word} ok"),
        Ok(Made::Value(value)) => writeln!(out, "{line} {word} ok {value}"),
        Ok(Made::Order { records, reports }) => {
            writeln!(out, "{line} {word} ok {}", records.len())?;
            records
                .iter()
                .try_for_each(|each| writeln!(out, "{each}"))?;
            reports.iter().try_for_each(|each| self::reports(out, each))
        }
        Ok(Made::Tested { records, reports }) => {
            let reports = reports.map_or(String::new(), |reports| format!(" {reports}"));
            writeln!(out, "{line} {word} ok {records}{reports}")
        }
        Err(refused) => {
            let (number, place) = (refused.refusal.number(), refused.refusal.place());
            let reason = &refused.reason;
            writeln!(out, "{line} {word} refused {number} {place}: {reason}")
        }
    }
}

/// Each report in a line, behind the name of the party that gets it.
fn reports(out: &mut impl Write, reports: &Reports) -> io::Result<()> {
    for (party, reports) in reports.by_party() {
        for report in reports {
            writeln!(out, "{party} {report}")?;
        }
    }
    Ok(())
}

fn position(out: &mut impl Write, line: usize, position: &Position) -> io::Result<()> {
    let Position {
        account,
        cash,
        created,
        redeemed,
        lots,
    } = position;
    writeln!(
        out,
        "{line} account {account} cash {cash} created {created} redeemed {redeemed}"
    )?;
    lots.iter().try_for_each(|(code, lots)| {
        let (old, bought, got) = (lots.old, lots.bought, lots.got);
        writeln!(out, "{code:06} {old} {bought} {got}")
    })
}

fn totals(out: &mut impl Write, line: usize, totals: &[Total]) -> io::Result<()> {
    writeln!(out, "{line} totals")?;
    totals.iter().try_for_each(|total| {
        let [opened, came_in, went_out, holds] = figures(total);
        let what = total
            .code
            .map_or("cash".to_string(), |code| format!("{code:06}"));
        write!(
            out,
            "{what} opened {opened} in {came_in} out {went_out} holds {holds}"
        )?;
        writeln!(
            out,
            "{}",
            if total.balances() {
                ""
            } else {
                " does not balance"
            }
        )
    })
}

/// The figures of a total: opened, came in, went out, holds; yuan for cash.
pub fn figures(total: &Total) -> [String; 4] {
    let numbers = [total.opened, total.came_in, total.went_out, total.holds];
    numbers.map(|number| match total.code {
        Some(_) => number.to_string(),
        None => yuan(number),
    })
}

/// Thousandths of a yuan, in yuan.
pub fn yuan(thousandths: i128) -> String {
    let sign = if thousandths < 0 { "-" } else { "" };
    let size = thousandths.unsigned_abs();
    format!("{sign}{}.{:03}", size / 1_000, size % 1_000)
}

/// The last line.
pub fn counts(out: &mut impl Write, counts: &Counts) -> io::Result<()> {
    writeln!(out, "{counts}")
}
