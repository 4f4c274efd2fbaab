//! `roffelaine reconcile`: positions as posted from the records of a day, as
//! its book has them, and as they are given; and the reports of orders, where
//! they are on, against their records.

mod calls;
mod compare;
mod differences;
mod parting;
mod reports;
mod search;
mod track;

use crate::input::Input;
use crate::positions::{GivenFile, Positions};
use crate::said::{Answer, Counts, Entry, Said};
use crate::session::Session;
use crate::statement::Call;
use crate::{output_error, text};
use differences::{code, differences, figure, Difference};
use parting::Parting;
use roffelaine::List;
use search::Search;
use std::ffi::OsStr;
use std::io::{self, Write};
use track::{Misreported, Parted, Track};

/// Reconciles a day with positions; whether all was clean and agrees.
pub fn run(
    out: &mut impl Write,
    day: &OsStr,
    positions: &OsStr,
    crlf: bool,
) -> Result<bool, String> {
    if day == "-" && positions == "-" {
        return Err("one of DAY and POSITIONS.csv may be -, not both".to_string());
    }
    let input = Input::read(day, crlf)?;
    let given = GivenFile::read(positions)?;
    let reconciled = match input.list() {
        Ok(list) => reconcile(out, &input, &list, &given),
        Err(refused) => writeln!(out, "{refused}").map(|()| false),
    };
    reconciled.map_err(output_error)
}

fn reconcile(
    out: &mut impl Write,
    input: &Input,
    list: &List<'_>,
    given: &GivenFile,
) -> io::Result<bool> {
    let positions = Positions::read(list, &given.bytes);
    let mut session = Session::new(list);
    let mut track = Track::of(&positions);
    rehearse(input, &mut session, |session, entry| {
        track.entry(list, entry, session.posting(), &session.day().book());
        match is_printed(&entry.said) {
            true => text::entry(out, entry),
            false => Ok(()),
        }
    })?;
    if let Some(parted) = track.parted() {
        part(out, list, parted)?;
    }
    if let Some(Misreported { by, why }) = track.misreported() {
        writeln!(out, "{by}: {why}")?;
    }
    let book = session.day().book();
    if let Some(why) = obstacle(out, book.accounts(), &positions, &given.name)? {
        writeln!(out, "nothing is compared: {why}")?;
        return Ok(false);
    }
    let mut found = differences(session.posting(), &book, &positions, &track);
    search(input, list, &mut found)?;
    for difference in &found {
        writeln!(out, "{}", difference.words(list))?;
    }
    summary(out, &found, positions.count(), &track, session.counts())?;
    let is_clean = session.counts().is_clean(false) && track.is_clean();
    Ok(is_clean && found.is_empty())
}

/// Runs the lines of a day one by one, and hands on what each came to with the
/// day as it then is.
fn rehearse<'l>(
    input: &Input,
    session: &mut Session<'l>,
    mut each: impl FnMut(&Session<'l>, &Entry) -> io::Result<()>,
) -> io::Result<()> {
    for (line, text) in input.texts() {
        if let Some(entry) = session.line(line, &text) {
            each(session, &entry)?;
        }
    }
    session.end().map_or(Ok(()), |entry| each(session, &entry))
}

/// Looks for calls that moved as much as a position differs. The day is run
/// once more for that, so that its moves need not be kept.
fn search(input: &Input, list: &List<'_>, found: &mut [Difference]) -> io::Result<()> {
    let mut search = Search::default();
    for each in found.iter() {
        if each.parting == Some(Parting::Unexplained) {
            search.want(each.at.account, each.at.place, each.missing());
        }
    }
    if search.is_empty() {
        return Ok(());
    }
    rehearse(input, &mut Session::new(list), |session, entry| {
        search.entry(entry, session.posting());
        Ok(())
    })?;
    for each in found {
        if let Some(parting) = search.parting(each.at.account, each.at.place) {
            each.parting = Some(parting);
        }
    }
    Ok(())
}

/// Of refused calls, which move nothing, only an opening is printed: without it
/// there may be no day to compare.
fn is_printed(said: &Said) -> bool {
    match said {
        Said::NotUnderstood { .. } | Said::NotMade { .. } | Said::NotMet { .. } => true,
        Said::Answer(Answer { call, outcome }) => *call == Call::Open && outcome.is_err(),
        Said::Account(_) | Said::Totals(_) | Said::Met => false,
    }
}

/// The positions in which posted and book part first.
fn part(out: &mut impl Write, list: &List<'_>, parted: &Parted) -> io::Result<()> {
    for each in &parted.positions {
        let (account, place) = (each.account, each.place);
        let [posted, book] = [each.posted, each.book].map(|number| figure(list, place, number));
        let (by, code) = (parted.by, code(list, place));
        writeln!(
            out,
            "{by}: account {account} {code} posted {posted}, book {book}"
        )?;
    }
    Ok(())
}

/// Says which rows are not understood, and why nothing can be compared.
fn obstacle(
    out: &mut impl Write,
    accounts: usize,
    positions: &Positions,
    name: &str,
) -> io::Result<Option<String>> {
    let faults = positions.faults(accounts);
    for fault in &faults {
        writeln!(out, "{name}:{fault}")?;
    }
    Ok(match faults.len() {
        _ if accounts == 0 => Some("no day is open".to_string()),
        0 if positions.count() == 0 => Some(format!("{name} has no rows")),
        0 => None,
        1 => Some(format!("1 row of {name} is not understood")),
        rows => Some(format!("{rows} rows of {name} are not understood")),
    })
}

/// The last line.
fn summary(
    out: &mut impl Write,
    found: &[Difference],
    given: usize,
    track: &Track<'_>,
    counts: &Counts,
) -> io::Result<()> {
    let differ = found.iter().filter(|each| each.given.is_some()).count();
    let agree = given - differ;
    write!(
        out,
        "{} given, {agree} {}, {differ} {}",
        counted(given, "position", "positions"),
        if agree == 1 { "agrees" } else { "agree" },
        if differ == 1 { "differs" } else { "differ" }
    )?;
    if found.len() > differ {
        write!(out, ", {} not given", found.len() - differ)?;
    }
    match (track.parted(), track.orders_and_trades()) {
        (Some(parted), _) => write!(out, "; posted and book part after {}", parted.by)?,
        (None, 0) => write!(out, "; no orders and trades")?,
        (None, 1) => write!(out, "; posted and book agree after 1 order or trade")?,
        (None, all) => write!(
            out,
            "; posted and book agree after each of {all} orders and trades"
        )?,
    }
    match (track.misreported(), track.reported_orders()) {
        (_, 0) => {}
        (Some(Misreported { by, .. }), _) => {
            write!(out, "; reports and records part in {by}")?;
        }
        (None, orders) => {
            let orders = counted(orders, "order", "orders");
            write!(out, "; reports agree with the records of {orders}")?;
        }
    }
    if counts.not_understood > 0 {
        let lines = counted(counts.not_understood, "line", "lines");
        write!(out, "; {lines} of the day not understood")?;
    }
    if counts.not_met > 0 {
        let unmet = counted(counts.not_met, "expectation", "expectations");
        write!(out, "; {unmet} not met")?;
    }
    writeln!(out)
}

fn counted(number: usize, one: &str, many: &str) -> String {
    format!("{number} {}", if number == 1 { one } else { many })
}

#[cfg(test)]
mod tests {
    use super::*;
    use crate::posting::Posting;
    use crate::said::{Made, Reports};
    use crate::sample;
    use calls::tests::{accepted, creation, made};
    use roffelaine::Units;

    const PARTED: &str = "\
line 43 create: account 0 600000 posted 20000, book 23072
line 43 create: account 0 600036 posted 10000, book 13000
line 43 create: account 0 cash posted 1000000.000, book 1287008.000
line 43 create: account 1 600000 posted 3072, book 0
line 43 create: account 1 600036 posted 3000, book 0
line 43 create: account 1 510300 posted 0, book 1000000
line 43 create: account 1 cash posted 500000.000, book 212992.000
0 positions given, 0 agree, 0 differ; posted and book part after line 43 create
";

    #[test]
    fn a_creation_that_is_not_posted_is_named() {
        let mut day = sample::day();
        let records = day.create(1, Units(1_000_000)).expect("records").records;
        let created = accepted(43, creation(), made(records));
        let positions = Positions::default();
        let mut track = Track::of(&positions);
        let posting = Posting::of(&sample::holdings());
        track.entry(&sample::list(), &created, &posting, &day.book());
        let mut out = Vec::new();
        let parted = track.parted().expect("a parting");
        part(&mut out, &sample::list(), parted).expect("written");
        summary(&mut out, &[], 0, &track, &Counts::default()).expect("written");
        assert_eq!(String::from_utf8_lossy(&out), PARTED);
    }

    /// The last line for a creation whose reports have been changed.
    fn last_line(change: impl Fn(&mut Reports)) -> String {
        let list = sample::list();
        let (mut day, mut posting) = (sample::day(), Posting::of(&sample::holdings()));
        let created = day.create(1, Units(1_000_000)).expect("records");
        posting.post(&list, &creation(), &created.records);
        let mut reports = Reports {
            investor: created.investor,
            fund: created.fund,
        };
        change(&mut reports);
        let outcome = Made::Order {
            records: created.records,
            reports: Some(reports),
        };
        let positions = Positions::default();
        let mut track = Track::of(&positions);
        let created = accepted(43, creation(), outcome);
        track.entry(&list, &created, &posting, &day.book());
        let mut out = Vec::new();
        summary(&mut out, &[], 0, &track, &Counts::default()).expect("written");
        String::from_utf8_lossy(&out).into_owned()
    }

    #[test]
    fn the_last_line_says_whether_reports_agree() {
        let start =
            "0 positions given, 0 agree, 0 differ; posted and book agree after 1 order or trade; ";
        assert_eq!(
            last_line(|_| {}),
            format!("{start}reports agree with the records of 1 order\n")
        );
        assert_eq!(
            last_line(|reports| reports.investor[0].quantity = 0),
            format!("{start}reports and records part in line 43 create\n")
        );
    }
}
