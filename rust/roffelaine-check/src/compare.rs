//! The same call on two engines: replies and all that was lent must agree.

use crate::engine::{Engine, Lent, LentList};
use crate::flat::PART_NUMBERS;
use crate::model::list::COMPONENT_LINE;
use crate::model::refusal::LIST_TOO_SHORT;
use crate::model::{
    lengths_for, Call, Counts, Lengths, Order, PerList, Reply, ANSWER_NUMBERS, ROW_NUMBERS,
};
use crate::random::{OpeningCase, TextCase, WritingCase};
use std::collections::BTreeMap;
use std::fmt::{Debug, Write};

/// The first difference found, told in full.
#[derive(Clone, Debug)]
pub struct Difference(pub String);

/// How often each kind of call got each refusal number, 0 for accepted.
#[derive(Clone, Debug, Default)]
pub struct Tally {
    counts: BTreeMap<(&'static str, u64), u64>,
}

impl Tally {
    fn add(&mut self, kind: &'static str, number: u64) {
        *self.counts.entry((kind, number)).or_default() += 1;
    }

    pub fn count(&self, kind: &'static str, number: u64) -> u64 {
        self.counts.get(&(kind, number)).copied().unwrap_or(0)
    }

    /// Lines of text: a kind, then its numbers with their counts.
    pub fn table(&self) -> String {
        let mut table = String::new();
        let mut last = "";
        for (&(kind, number), count) in &self.counts {
            if kind != last {
                let _ = write!(
                    table,
                    "{}{kind:<27}",
                    if last.is_empty() { "" } else { "\n" }
                );
                last = kind;
            }
            let _ = write!(table, " {number}:{count}");
        }
        table
    }
}

/// What a call is named in the tally.
fn kind_of(call: &Call) -> &'static str {
    match call {
        Call::Price { .. } => "price",
        Call::Trade(_) => "trade",
        Call::Create(_) => "creation",
        Call::Redeem(_) => "redemption",
        Call::Value => "value",
        Call::TestDay => "test of day",
        Call::TestCreation(_) => "creation test",
        Call::TestRedemption(_) => "redemption test",
    }
}

/// What the tests alone that are made before an order are named in the tally.
fn kind_of_tests(alone: &Call) -> &'static str {
    match alone {
        Call::TestCreation(_) => "tests before creation",
        _ => "tests before redemption",
    }
}

/// Lists for an accepted order, by what they are named in the tally: each as long
/// as it must be, but for so many numbers.
const SHORT_LISTS: [(&str, [usize; 3]); 4] = [
    ("lists just enough", [0, 0, 0]),
    ("records a number short", [1, 0, 0]),
    ("investor's a number short", [0, 1, 0]),
    ("fund's a number short", [0, 0, 1]),
];

/// The same order with lists of other lengths; none where it is no order.
fn with_lengths(call: &Call, lengths: Lengths) -> Option<Call> {
    match *call {
        Call::Create(order) => Some(Call::Create(Order { lengths, ..order })),
        Call::Redeem(order) => Some(Call::Redeem(Order { lengths, ..order })),
        _ => None,
    }
}

/// What the call of a row is named in the tally.
fn kind_of_row(row: &[u64]) -> &'static str {
    match row[0] {
        1 => "row: price",
        2 => "row: trade",
        3 => "row: creation",
        4 => "row: redemption",
        5 => "row: value",
        _ => "row: no call",
    }
}

/// Gathers what differs between the answers to one call.
#[derive(Default)]
struct Findings {
    lines: String,
}

impl Findings {
    fn value<T: PartialEq + Debug>(&mut self, what: &str, first: &T, second: &T) {
        if first != second {
            let _ = writeln!(self.lines, "{what}: {first:?} and {second:?}");
        }
    }

    fn run<T: PartialEq + Debug>(&mut self, what: &str, first: &[T], second: &[T]) {
        self.value(&format!("length of {what}"), &first.len(), &second.len());
        let places = first
            .iter()
            .zip(second)
            .enumerate()
            .filter(|(_, (one, other))| one != other);
        for (place, (one, other)) in places {
            let _ = writeln!(self.lines, "{what}, place {place}: {one:?} and {other:?}");
        }
    }

    fn lent(&mut self, first: &Lent, second: &Lent) {
        let (one, other) = (&first.day, &second.day);
        self.value("accounts", &one.accounts, &other.accounts);
        self.value("count", &one.count, &other.count);
        self.value("fund", &one.fund, &other.fund);
        self.run("flag table", &one.table.0, &other.table.0);
        self.run("components", &one.components, &other.components);
        self.run("book", &first.book, &second.book);
        self.run("prices", &first.prices, &second.prices);
        let runs = first.runs.as_ref().zip(second.runs.as_ref()).each();
        let names = ["record run", "investor's run", "fund's run"];
        for (name, (one, other)) in names.into_iter().zip(runs) {
            self.run(name, one, other);
        }
    }

    /// Says with what the first, tested once, was compared, if it differed.
    fn against(&mut self, which: &str) {
        if !self.lines.is_empty() {
            let _ = writeln!(
                self.lines,
                "up to here: the first, tested once, and {which}"
            );
        }
    }

    /// Nothing if all agreed, else what was asked and what differed.
    fn finish(self, asked: impl FnOnce() -> String) -> Result<(), Difference> {
        if self.lines.is_empty() {
            return Ok(());
        }
        Err(Difference(format!("{}asked: {}", self.lines, asked())))
    }
}

/// The state before a call in one line, without unused components.
fn state(lent: &Lent) -> String {
    let Lent {
        day,
        book,
        prices,
        runs,
    } = lent;
    let listed = prices.len().min(day.components.len());
    format!(
        "accounts {}, count {}, {:?}, {:?}, components {:?}, book {book:?}, prices {prices:?}, runs of {:?}",
        day.accounts,
        day.count,
        day.fund,
        day.table,
        &day.components[..listed],
        runs.lengths(),
    )
}

/// A way to run rows on an engine.
type Run = fn(&dyn Engine, &[u64], &mut Lent, &mut [u64]) -> Reply;

/// Two engines and the tally of what was compared on them.
pub struct Comparison<'e> {
    first: &'e dyn Engine,
    second: &'e dyn Engine,
    pub tally: Tally,
    /// Calls compared, those of rows once for each way of running them.
    pub calls: u64,
    /// Texts read or written.
    pub texts: u64,
}

impl<'e> Comparison<'e> {
    pub fn new(first: &'e dyn Engine, second: &'e dyn Engine) -> Self {
        Comparison {
            first,
            second,
            tally: Tally::default(),
            calls: 0,
            texts: 0,
        }
    }

    /// Opens on both; `lent` is left as the opening leaves it.
    pub fn opening(&mut self, case: &OpeningCase, lent: &mut Lent) -> Result<Reply, Difference> {
        let mut other = lent.clone();
        let reply = self.first.open(&case.opening(), lent);
        let second = self.second.open(&case.opening(), &mut other);
        self.calls += 1;
        self.tally.add("opening", reply.number);
        let mut findings = Findings::default();
        findings.value("reply", &reply, &second);
        findings.lent(lent, &other);
        findings.finish(|| format!("opening {case:?}"))?;
        Ok(reply)
    }

    /// Makes one call on both; `lent` is left as the call leaves it. Before an
    /// order its tests are made alone, and must answer what it then answers.
    pub fn call(&mut self, call: &Call, lent: &mut Lent) -> Result<Reply, Difference> {
        let tests = call.tests_alone();
        let tests = tests.map(|alone| self.tests_alone(&alone, lent));
        let tests = tests.transpose()?;
        let (before, mut other) = (lent.clone(), lent.clone());
        let reply = self.first.call(call, lent);
        let second = self.second.call(call, &mut other);
        self.calls += 1;
        self.tally.add(kind_of(call), reply.number);
        let mut findings = Findings::default();
        findings.value("reply", &reply, &second);
        findings.lent(lent, &other);
        if let Some(tests) = tests {
            findings.value("tests alone and order", &tests, &reply);
        }
        findings.finish(|| format!("{call:?} on {}", state(&before)))?;
        Ok(reply)
    }

    /// Makes the tests of an order alone on both; they change nothing.
    fn tests_alone(&mut self, alone: &Call, before: &Lent) -> Result<Reply, Difference> {
        let mut findings = Findings::default();
        let [reply, second] = [self.first, self.second].map(|engine| {
            let mut lent = before.clone();
            let reply = engine.call(alone, &mut lent);
            findings.lent(before, &lent);
            reply
        });
        self.calls += 1;
        self.tally.add(kind_of_tests(alone), reply.number);
        findings.value("reply", &reply, &second);
        findings.finish(|| format!("{alone:?} on {}", state(before)))?;
        Ok(reply)
    }

    /// Makes an accepted order again as it was made: with lists that just take
    /// what it makes it answers the same, with one of them a number shorter the
    /// order and its tests alone give 16.
    pub fn short_lists(
        &mut self,
        call: &Call,
        before: &Lent,
        made: Reply,
    ) -> Result<(), Difference> {
        if !made.is_accepted() {
            return Ok(());
        }
        let needed = lengths_for(Counts {
            records: made.value,
            reports: made.reports,
        });
        for (name, missing) in SHORT_LISTS {
            let lengths = needed.zip(PerList::from(missing));
            let lengths = lengths.map(|(needed, missing)| needed.saturating_sub(missing));
            let Some(order) = with_lengths(call, lengths) else {
                return Ok(());
            };
            let expected = match lengths == needed {
                true => made,
                false => Reply::refused(LIST_TOO_SHORT, 0),
            };
            let reply = self.call(&order, &mut before.clone())?;
            self.tally.add(name, reply.number);
            let mut findings = Findings::default();
            findings.value(name, &reply, &expected);
            findings.finish(|| format!("{order:?} on {}", state(before)))?;
        }
        Ok(())
    }

    /// Makes the calls of some rows on both, with one test of the day and then
    /// with a test in each call. Gives the answers and what the rows leave;
    /// `answers` is what the lent answers hold before.
    pub fn rows(
        &mut self,
        rows: &[u64],
        start: &Lent,
        answers: &[u64],
    ) -> Result<(Vec<u64>, Lent), Difference> {
        let tested_once: Run = |engine, rows, lent, answers| engine.run(rows, lent, answers);
        let tested_by_each: Run =
            |engine, rows, lent, answers| engine.run_one_by_one(rows, lent, answers);
        let outcome = |engine: &dyn Engine, run: Run| {
            let (mut lent, mut answers) = (start.clone(), answers.to_vec());
            let reply = run(engine, rows, &mut lent, &mut answers);
            (reply, answers, lent)
        };
        let mut findings = Findings::default();
        let (reply, answers, lent) = outcome(self.first, tested_once);
        for (which, engine, run) in [
            ("the second, tested once", self.second, tested_once),
            ("the first, tested by each call", self.first, tested_by_each),
            (
                "the second, tested by each call",
                self.second,
                tested_by_each,
            ),
        ] {
            let (second, answers_left, left) = outcome(engine, run);
            findings.value("reply", &reply, &second);
            findings.run("answers", &answers, &answers_left);
            findings.lent(&lent, &left);
            findings.against(which);
        }
        findings.finish(|| format!("rows {rows:?} on {}", state(start)))?;
        self.count_rows(rows, reply, &answers);
        Ok((answers, lent))
    }

    /// Counts the calls of rows once for each of the two ways.
    fn count_rows(&mut self, rows: &[u64], reply: Reply, answers: &[u64]) {
        self.tally.add("rows", reply.number);
        if !reply.is_accepted() {
            return;
        }
        let answers = answers.chunks_exact(ANSWER_NUMBERS);
        for (row, answer) in rows.chunks_exact(ROW_NUMBERS).zip(answers) {
            self.tally.add(kind_of_row(row), answer[0]);
            self.calls += 2;
        }
    }

    /// Reads a text on both, and asks for its letters and names; `start` is
    /// what reading is lent.
    pub fn text(&mut self, case: &TextCase, start: &LentList) -> Result<Reply, Difference> {
        let (mut lent, mut other) = (start.clone(), start.clone());
        let reply = self.first.read(&case.text, &case.table, &mut lent);
        let second = self.second.read(&case.text, &case.table, &mut other);
        self.texts += 1;
        self.tally.add("reading", reply.number);
        let mut findings = Findings::default();
        findings.value("reply", &reply, &second);
        findings.run("components", &lent.components, &other.components);
        findings.run("fields", &lent.fields, &other.fields);
        findings.value("first row", &lent.first_row, &other.first_row);
        self.parts(&mut findings, &case.text, lent.first_row, reply.value);
        findings.finish(|| {
            let (room, table, shown) = (case.room, &case.table, case.text.escape_ascii());
            format!("reading with {room} numbers lent, table {table:?}, of text \"{shown}\"")
        })?;
        Ok(reply)
    }

    /// Asks both for the letters of a text and for names: of every component
    /// and one past the last, from where the first component line starts; as
    /// if that line were the text's first, up to the text's end; and far past
    /// it.
    fn parts(&self, findings: &mut Findings, text: &[u8], first_row: u64, count: u64) {
        self.part(
            findings,
            |engine, part| engine.letters(text, part),
            || "letters".to_string(),
        );
        let (end, lines) = (text.len() as u64, (text.len() / COMPONENT_LINE) as u64);
        let of_components = (0..=count).map(|at| (first_row, at));
        let from_start = (0..=lines).map(|at| (0, at));
        let far = [first_row, 0, end, u64::MAX].map(|from| (from, u64::MAX));
        let behind = [end, end + 1, u64::MAX].map(|from| (from, 0));
        for (from, at) in of_components.chain(from_start).chain(far).chain(behind) {
            self.part(
                findings,
                |engine, part| engine.name(text, from, at, part),
                || format!("name {at} from place {from}"),
            );
        }
    }

    /// Asks both for a part of a text, with a run of each length up to one
    /// more than a part takes.
    fn part(
        &self,
        findings: &mut Findings,
        ask: impl Fn(&dyn Engine, &mut [u64]) -> u64,
        what: impl Fn() -> String,
    ) {
        for room in 0..=PART_NUMBERS + 1 {
            let outcome = |engine: &dyn Engine| {
                let mut part = [u64::MAX; PART_NUMBERS + 1];
                let length = ask(engine, &mut part[..room]);
                (length, part)
            };
            let (first, second) = (outcome(self.first), outcome(self.second));
            if first != second {
                let what = format!("{} with {room} numbers lent", what());
                findings.value(&what, &first, &second);
            }
        }
    }

    /// Writes a list on both.
    pub fn writing(&mut self, case: &WritingCase) -> Result<Reply, Difference> {
        let (mut lent, mut other) = (case.output.clone(), case.output.clone());
        let reply = self.first.write(&case.list(), &mut lent);
        let second = self.second.write(&case.list(), &mut other);
        self.texts += 1;
        self.tally.add("writing", reply.number);
        let mut findings = Findings::default();
        findings.value("reply", &reply, &second);
        findings.run("output", &lent, &other);
        findings.finish(|| format!("writing {case:?}"))?;
        Ok(reply)
    }
}
