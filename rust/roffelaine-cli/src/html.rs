//! A rehearsal as one page that needs nothing else.

mod calls;
mod flags;
mod front;
mod limits;
mod looks;
mod positions;
mod records;
mod reports;
mod runs;
mod text;
mod totals;
mod words;

use crate::posting::Posting;
use crate::said::{Answer, Entry, Said};
use crate::session::Session;
use crate::statement::Call;
use roffelaine::Refusal;
use std::io::{self, Write};
use text::{shortened, Escaped};

const STYLE: &str = include_str!("html/page.css");

/// What a page is made of.
pub struct Page<'p> {
    pub file: &'p str,
    pub session: &'p Session<'p>,
    pub kept: &'p [Kept],
}

/// What a line came to, with what a page says of it besides.
pub struct Kept {
    entry: Entry,
    /// The line as the file has it, where no call shows what it says.
    text: String,
    /// What the accounts open with, where the line opened the day.
    opened: Option<Posting>,
}

impl Kept {
    /// What a line came to just now.
    pub fn of(entry: Entry, text: &str, session: &Session<'_>) -> Self {
        let has_opened = matches!(
            entry.said,
            Said::Answer(Answer {
                call: Call::Open,
                outcome: Ok(_)
            })
        );
        let text = match entry.said {
            Said::Answer(_) | Said::Account(_) | Said::Totals(_) => String::new(),
            _ => shortened(text.trim()),
        };
        Kept {
            entry,
            text,
            opened: has_opened.then(|| session.posting().clone()),
        }
    }
}

/// Writes the page of a rehearsal.
pub fn page(out: &mut impl Write, page: &Page<'_>) -> io::Result<()> {
    let (session, list) = (page.session, page.session.list());
    start(out, &front::title(list, page.file))?;
    front::header(out, page)?;
    writeln!(out, "<main>")?;
    calls::section(out, list, page.kept)?;
    positions::section(out, session)?;
    limits::section(out, session)?;
    totals::section(out, list, &session.all_totals())?;
    writeln!(out, "</main>")?;
    end(out)
}

/// Writes the page of a file whose list is refused.
pub fn refused_list(
    out: &mut impl Write,
    file: &str,
    refusal: Refusal,
    reason: &str,
) -> io::Result<()> {
    let file = front::file_name(file);
    start(out, &format!("List refused: {file}"))?;
    let (number, place) = (refusal.number(), refusal.place());
    writeln!(
        out,
        "<main><h1>The list is refused</h1>\n<p>File <code>{}</code></p>\n\
         <div class=\"banner\"><p><strong>Refused {number}, place {place}:</strong> {}</p>",
        Escaped(file),
        Escaped(refusal.words())
    )?;
    if reason != refusal.words() {
        writeln!(out, "<p>{}</p>", Escaped(reason))?;
    }
    writeln!(out, "</div>\n<p>No line of the day was read.</p></main>")?;
    end(out)
}

fn start(out: &mut impl Write, title: &str) -> io::Result<()> {
    writeln!(
        out,
        "<!DOCTYPE html>\n<html lang=\"en\">\n<head>\n<meta charset=\"utf-8\">\n\
         <meta name=\"viewport\" content=\"width=device-width, initial-scale=1\">\n\
         <meta name=\"color-scheme\" content=\"light dark\">\n\
         <title>{}</title>\n<style>\n{STYLE}</style>\n</head>\n<body>",
        Escaped(title)
    )
}

fn end(out: &mut impl Write) -> io::Result<()> {
    let version = env!("CARGO_PKG_VERSION");
    writeln!(
        out,
        "<footer><p>roffelaine {version}</p></footer>\n</body>\n</html>"
    )
}
