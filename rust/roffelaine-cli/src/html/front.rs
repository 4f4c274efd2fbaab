//! The head of a page: the fund, the counts, and what needs to be looked at.

use super::text::{counted, grouped, Escaped};
use super::{Kept, Page};
use crate::said::{Counts, Said};
use roffelaine::List;
use std::io::{self, Write};

/// How many links stand in a row before the others are put away.
const LINKS: usize = 40;

/// The title of the page, as plain text.
pub fn title(list: &List<'_>, file: &str) -> String {
    let (fund, day) = (fund_name(list), trading_day(list));
    format!("{fund} on {day}: {}", file_name(file))
}

/// A file's name, in words for standard input.
pub fn file_name(file: &str) -> &str {
    match file {
        "-" => "standard input",
        file => file,
    }
}

fn fund_name(list: &List<'_>) -> String {
    format!("ETF{}", String::from_utf8_lossy(list.letters))
}

fn trading_day(list: &List<'_>) -> String {
    let day = list.head.trading_day;
    let (year, month, day) = (day / 10_000, day / 100 % 100, day % 100);
    format!("{year:04}-{month:02}-{day:02}")
}

/// Writes the head, a banner where a line was not understood or not expected,
/// and links to the parts of the page.
pub fn header(out: &mut impl Write, page: &Page<'_>) -> io::Result<()> {
    let list = page.session.list();
    let (fund, day) = (fund_name(list), trading_day(list));
    writeln!(
        out,
        "<header>\n<h1>{} on <time>{day}</time></h1>\n<p>Rehearsal of <code>{}</code></p>\n<dl>",
        Escaped(&fund),
        Escaped(file_name(page.file))
    )?;
    facts(out, list)?;
    fact(out, "Opened", &opened(page.kept))?;
    counts(out, page.session.counts())?;
    writeln!(out, "</dl>")?;
    banner(out, page)?;
    writeln!(
        out,
        "<nav aria-label=\"Parts of the page\"><a href=\"#calls\">Calls</a> \
         <a href=\"#positions\">Positions</a> <a href=\"#limits\">Limits</a> \
         <a href=\"#totals\">Totals</a></nav>\n</header>"
    )
}

fn facts(out: &mut impl Write, list: &List<'_>) -> io::Result<()> {
    let fund = &list.head.fund;
    let (name, first) = (fund_name(list), fund.first_code);
    let components = list.components.len().to_string();
    let size = grouped(fund.basket_size);
    fact(out, "Fund", &format!("{name}, first code {first:06}"))?;
    fact(out, "Trading day", &trading_day(list))?;
    fact(out, "Basket", &format!("{size} units"))?;
    fact(out, "Components", &components)?;
    fact(out, "Orders taken", fund.switch.words())
}

/// In which lines the day was opened; the book at the end is that of the last.
fn opened(kept: &[Kept]) -> String {
    let opened = kept.iter().filter(|kept| kept.opened.is_some());
    let lines: Vec<String> = opened.map(|kept| kept.entry.line.to_string()).collect();
    match &lines[..] {
        [] => "no".to_string(),
        [line] => format!("in line {line}"),
        [.., last] => {
            let lines = lines.join(", ");
            format!("in lines {lines}; positions, limits and totals are those since line {last}")
        }
    }
}

fn counts(out: &mut impl Write, counts: &Counts) -> io::Result<()> {
    let (calls, accepted) = (grouped(counts.calls()), grouped(counts.accepted));
    let (refused, lines) = (grouped(counts.refused), grouped(counts.not_understood));
    let expected = match counts.met + counts.not_met {
        0 => "none".to_string(),
        all => format!("{} of {} met", grouped(counts.met), grouped(all)),
    };
    fact(
        out,
        "Calls",
        &format!("{calls}: {accepted} accepted, {refused} refused"),
    )?;
    fact(out, "Not understood or not made", &lines)?;
    fact(out, "Expectations", &expected)
}

fn fact(out: &mut impl Write, name: &str, what: &str) -> io::Result<()> {
    writeln!(out, "<div><dt>{name}</dt><dd>{}</dd></div>", Escaped(what))
}

fn banner(out: &mut impl Write, page: &Page<'_>) -> io::Result<()> {
    let lines = |is_such: fn(&Said) -> bool| -> Vec<usize> {
        let such = page.kept.iter().filter(|kept| is_such(&kept.entry.said));
        such.map(|Kept { entry, .. }| entry.line).collect()
    };
    let unclear = lines(|said| matches!(said, Said::NotUnderstood { .. }));
    let not_made = lines(|said| matches!(said, Said::NotMade { .. }));
    let not_met = lines(|said| matches!(said, Said::NotMet { .. }));
    if [&unclear, &not_made, &not_met]
        .iter()
        .all(|lines| lines.is_empty())
    {
        return Ok(());
    }
    writeln!(out, "<div class=\"banner\">")?;
    links(out, "line", "not understood", &unclear)?;
    links(out, "opening", "not made", &not_made)?;
    links(out, "expectation", "not met", &not_met)?;
    writeln!(out, "</div>")
}

/// Writes how many there are of a kind, and a link to each.
fn links(out: &mut impl Write, noun: &str, what: &str, lines: &[usize]) -> io::Result<()> {
    if lines.is_empty() {
        return Ok(());
    }
    let count = counted(lines.len(), noun);
    let (shown, more) = lines.split_at(lines.len().min(LINKS));
    write!(out, "<p><strong>{count} {what}</strong>, in line")?;
    shown.iter().try_for_each(|line| link(out, *line))?;
    writeln!(out, "</p>")?;
    if more.is_empty() {
        return Ok(());
    }
    write!(
        out,
        "<details><summary>and {} more</summary><p>",
        more.len()
    )?;
    more.iter().try_for_each(|line| link(out, *line))?;
    writeln!(out, "</p></details>")
}

fn link(out: &mut impl Write, line: usize) -> io::Result<()> {
    write!(out, " <a href=\"#l{line}\">{line}</a>")
}
