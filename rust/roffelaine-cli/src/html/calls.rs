//! What the lines of a day came to, in order.

use super::looks::How;
use super::text::{account_name, code, counted, shortened, Escaped};
use super::words::arguments;
use super::{flags, positions, records, reports, runs, totals, Kept};
use crate::posting::Posting;
use crate::said::{Answer, Made, Position, Refused, Said, Total};
use crate::statement::Call;
use roffelaine::{List, FLAGS};
use std::io::{self, Write};

/// Writes all entries; prices and trades that follow each other stand in a
/// table.
pub fn section(out: &mut impl Write, list: &List<'_>, kept: &[Kept]) -> io::Result<()> {
    writeln!(out, "<section id=\"calls\"><h2>Calls in order</h2>")?;
    if kept.is_empty() {
        return writeln!(
            out,
            "<p>The file has no lines behind its list.</p></section>"
        );
    }
    writeln!(
        out,
        "<p>The number in front is the line of the file. Quantities are in shares and units, \
         prices and amounts in yuan; commas stand between thousands.</p>\n<ol class=\"calls\">"
    )?;
    let posting = Posting::default();
    let mut calls = Calls { out, list, posting };
    let mut rest = kept;
    while let Some((first, others)) = rest.split_first() {
        rest = match runs::length(rest) {
            0 => {
                calls.item(first)?;
                others
            }
            length => {
                calls.run(&rest[..length])?;
                &rest[length..]
            }
        };
    }
    writeln!(out, "</ol></section>")
}

struct Calls<'p, W> {
    out: &'p mut W,
    list: &'p List<'p>,
    /// The positions as posted up to here.
    posting: Posting,
}

impl<W: Write> Calls<'_, W> {
    fn run(&mut self, run: &[Kept]) -> io::Result<()> {
        for kept in run {
            if let Said::Answer(answer) = &kept.entry.said {
                self.posting.post(self.list, &answer.call, &[]);
            }
        }
        runs::table(self.out, self.list, run)
    }

    fn item(&mut self, kept: &Kept) -> io::Result<()> {
        let (line, text) = (kept.entry.line, code(&kept.text));
        match &kept.entry.said {
            Said::Answer(answer) => self.answer(line, answer, kept.opened.as_ref())?,
            Said::Account(position) => self.account(line, position)?,
            Said::Totals(totals) => self.totals(line, totals)?,
            Said::NotUnderstood { column, why } => {
                self.start(line, How::Odd, &text, "not understood")?;
                self.why(&shortened(&format!("column {column}: {why}")))?;
            }
            Said::NotMade { why } => {
                self.start(line, How::Odd, &text, "not made")?;
                self.why(why)?;
            }
            Said::Met => self.start(line, How::Plain, &text, "met")?,
            Said::NotMet { why } => {
                self.start(line, How::Odd, &text, "not met")?;
                self.why(why)?;
            }
        }
        writeln!(self.out, "</li>")
    }

    /// The line, what it says and what it came to.
    fn start(&mut self, line: usize, how: How, said: &str, came_to: &str) -> io::Result<()> {
        write!(
            self.out,
            "<li id=\"l{line}\"{how}><p><b>{line}</b> <span>{said}</span>"
        )?;
        if !came_to.is_empty() {
            write!(self.out, " <em>{came_to}</em>")?;
        }
        write!(self.out, "</p>")
    }

    fn why(&mut self, why: &str) -> io::Result<()> {
        write!(self.out, "<p class=\"y\">{}</p>", Escaped(why))
    }

    fn answer(&mut self, line: usize, answer: &Answer, opened: Option<&Posting>) -> io::Result<()> {
        let Answer { call, outcome } = answer;
        let given = match opened {
            Some(opened) => counted(opened.accounts(), "account"),
            None => arguments(self.list, call),
        };
        let said = format!("<strong>{}</strong> {}", call.word(), Escaped(&given));
        match outcome {
            Err(refused) => self.refused(line, &said, refused),
            Ok(Made::Value(value)) => {
                self.start(line, How::Plain, &said, &format!("{value} yuan for a unit"))
            }
            Ok(made @ Made::Opened { table: Some(table) }) => {
                self.start(line, How::of_rows(FLAGS), &said, "accepted")?;
                flags::table(self.out, table)?;
                self.post(call, made, opened)
            }
            Ok(Made::Tested { records, reports }) => {
                self.start(line, How::Plain, &said, &would_make(*records, *reports))
            }
            Ok(made) => {
                let reports = answer.reports().map_or(0, reports::rows);
                let how = How::of_rows(answer.records().len() + reports);
                self.start(line, how, &said, "accepted")?;
                self.post(call, made, opened)
            }
        }
    }

    fn refused(&mut self, line: usize, said: &str, refused: &Refused) -> io::Result<()> {
        let (refusal, reason) = (refused.refusal, &refused.reason);
        let (number, place) = (refusal.number(), refusal.place());
        let came_to = format!("refused {number}, place {place}");
        self.start(line, How::Refused, said, &came_to)?;
        match refusal.words() {
            words if words == reason => self.why(words),
            words => write!(
                self.out,
                "<p class=\"y\">{} <span class=\"f\">({})</span></p>",
                Escaped(reason),
                Escaped(words)
            ),
        }
    }

    /// Posts an accepted call, and writes its records, and its reports where
    /// they are on.
    fn post(&mut self, call: &Call, made: &Made, opened: Option<&Posting>) -> io::Result<()> {
        if let Some(opened) = opened {
            self.posting = opened.clone();
        }
        match (made, call.order()) {
            (Made::Order { records, reports }, Some(order)) => {
                records::records(self.out, self.list, &mut self.posting, call, records)?;
                let mut reports = reports.iter();
                reports.try_for_each(|both| reports::reports(self.out, self.list, order, both))
            }
            _ => {
                self.posting.post(self.list, call, &[]);
                Ok(())
            }
        }
    }

    fn account(&mut self, line: usize, position: &Position) -> io::Result<()> {
        let account = account_name(position.account as u64);
        let said = format!("<strong>show</strong> {account}");
        self.start(line, How::of_rows(position.lots.len()), &said, "")?;
        let figures = positions::figures(position);
        write!(self.out, "<details open><summary>{figures}</summary>")?;
        positions::lots(self.out, self.list, position)?;
        write!(self.out, "</details>")
    }

    fn totals(&mut self, line: usize, totals: &[Total]) -> io::Result<()> {
        let (how, came_to) = match totals.iter().all(Total::balances) {
            true => (How::of_rows(totals.len()), "balances"),
            false => (How::Odd, "does not balance"),
        };
        self.start(line, how, "<strong>totals</strong>", came_to)?;
        write!(self.out, "<details open><summary>All accounts</summary>")?;
        totals::table(self.out, self.list, totals)?;
        write!(self.out, "</details>")
    }
}

/// What the tests alone say of an order that they let pass.
fn would_make(records: usize, reports: Option<usize>) -> String {
    let records = counted(records, "record");
    let reports = reports.map_or(String::new(), |reports| {
        format!(", {} to each party", counted(reports, "report"))
    });
    format!("would be accepted, {records}{reports}")
}
