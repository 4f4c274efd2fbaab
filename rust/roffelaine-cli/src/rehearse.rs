//! `roffelaine rehearse`: a day, line by line, in the form that is asked for.

use crate::args::Form;
use crate::csv::Table;
use crate::html::{self, Kept, Page};
use crate::input::{Input, RefusedList};
use crate::output_error;
use crate::said::Entry;
use crate::session::Session;
use crate::statement::{statement, Statement};
use crate::{json, text};
use roffelaine::{FlagTable, List};
use std::ffi::OsStr;
use std::io::{self, Write};

/// Rehearses a day; whether all was clean.
pub fn run(
    out: &mut impl Write,
    day: &OsStr,
    form: Form,
    strict: bool,
    crlf: bool,
) -> Result<bool, String> {
    let input = Input::read(day, crlf)?;
    match input.list() {
        Err(refused) => {
            refused_list(out, form, &input, &refused).map_err(output_error)?;
            Ok(false)
        }
        Ok(list) => {
            let mut session = Session::new(&list);
            let mut printer = Printer::new(out, form, &input, &list);
            rehearse(&input, &mut session, &mut printer).map_err(output_error)?;
            Ok(session.counts().is_clean(strict))
        }
    }
}

fn rehearse(
    input: &Input,
    session: &mut Session<'_>,
    printer: &mut Printer<'_, impl Write>,
) -> io::Result<()> {
    printer.start()?;
    if printer.form != Form::Html {
        session.lines(input.texts(), |entry| printer.entry(&entry))?;
        return printer.end(session);
    }
    // A page looks at the day behind each line.
    for (line, text) in input.texts() {
        if let Some(entry) = session.line(line, &text) {
            printer.kept.push(Kept::of(entry, &text, session));
        }
    }
    if let Some(entry) = session.end() {
        printer.kept.push(Kept::of(entry, "", session));
    }
    printer.end(session)
}

/// Whether a line of the day turns reports on.
fn turns_reports_on(input: &Input) -> bool {
    let on = Ok(Some(Statement::Reports { on: true }));
    input.texts().any(|(_, text)| statement(&text) == on)
}

/// Prints a rehearsal in one of its forms.
struct Printer<'p, W> {
    out: &'p mut W,
    form: Form,
    file: &'p str,
    list: &'p List<'p>,
    /// The flag table that the list was read under, where one is given.
    flags: Option<FlagTable>,
    table: Table,
    printed: usize,
    /// What a page shows, which is written at the end.
    kept: Vec<Kept>,
}

impl<'p, W: Write> Printer<'p, W> {
    fn new(out: &'p mut W, form: Form, input: &'p Input, list: &'p List<'p>) -> Self {
        Printer {
            out,
            form,
            file: &input.name,
            list,
            flags: input.rows.table(),
            table: Table {
                has_reports: form == Form::Csv && turns_reports_on(input),
            },
            printed: 0,
            kept: Vec::new(),
        }
    }

    fn start(&mut self) -> io::Result<()> {
        match self.form {
            Form::Text | Form::Html => Ok(()),
            Form::Csv => self.table.header(self.out),
            Form::Json => json::start(self.out, self.file, self.list, self.flags.as_ref()),
        }
    }

    fn entry(&mut self, entry: &Entry) -> io::Result<()> {
        match self.form {
            Form::Text => text::entry(self.out, entry)?,
            Form::Csv => {
                self.table.entry(self.out, self.list, entry)?;
                complain(self.file, entry);
            }
            Form::Json => json::entry(self.out, self.list, entry, self.printed)?,
            Form::Html => {}
        }
        self.printed += 1;
        Ok(())
    }

    fn end(&mut self, session: &Session<'_>) -> io::Result<()> {
        match self.form {
            Form::Text => text::counts(self.out, session.counts()),
            Form::Csv => Ok(()),
            Form::Json => {
                let accounts = 0..session.day().book().accounts();
                let positions: Vec<_> = accounts.map(|each| session.position(each)).collect();
                let totals = session.all_totals();
                json::end(self.out, &totals, &positions, session.counts())
            }
            Form::Html => {
                let (file, kept) = (self.file, &self.kept);
                let page = Page {
                    file,
                    session,
                    kept,
                };
                html::page(self.out, &page)
            }
        }
    }
}

/// Says on standard error what a table of records does not show: lines that
/// were not understood or not expected.
fn complain(file: &str, entry: &Entry) {
    use crate::said::Said;
    if let Said::NotUnderstood { .. } | Said::NotMade { .. } | Said::NotMet { .. } = entry.said {
        let mut line = Vec::new();
        if text::entry(&mut line, entry).is_ok() {
            eprint!("{file}: {}", String::from_utf8_lossy(&line));
        }
    }
}

fn refused_list(
    out: &mut impl Write,
    form: Form,
    input: &Input,
    refused: &RefusedList,
) -> io::Result<()> {
    let (refusal, reason) = (refused.refusal, &refused.reason);
    match form {
        Form::Text => writeln!(out, "{refused}"),
        Form::Json => json::refused_list(out, &input.name, refusal, reason),
        Form::Csv => {
            eprintln!("{refused}");
            Ok(())
        }
        Form::Html => {
            eprintln!("{refused}");
            html::refused_list(out, &input.name, refusal, reason)
        }
    }
}
