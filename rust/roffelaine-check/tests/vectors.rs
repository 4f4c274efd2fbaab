//! The model and the archive against every row of the six vector files.

mod support;

use roffelaine::List;
use roffelaine_check::archive::Archive;
use roffelaine_check::engine::{Engine, Lent, LentList, Model, Runs};
use roffelaine_check::flat::{
    answers_length, field_numbers, part_of, row_of, rows_of, FIELD_NUMBERS, PART_NUMBERS,
};
use roffelaine_check::library_types;
use roffelaine_check::model::list::{self, Head, Writing};
use roffelaine_check::model::{
    book_length, lengths_for, stretch_width, Call, Component, Counts, Day, FlagTable, Fund,
    Opening, Order, PerList, Reply, Trade, COMPONENT_NUMBERS, FLAG_COLUMNS, LOTS, MAX_COMPONENTS,
};
use std::collections::BTreeSet;
use support::json::Json;
use support::rows;
use support::sha256::hash_of_numbers;

/// What lent runs and outputs hold beforehand, to see what is written.
const FILLER: u64 = 0x5A5A;
const FILLER_BYTE: u8 = 0x5A;
/// The length of runs that take the records or the reports of any order in the
/// vectors.
const RUN: usize = 4096;

/// Runs of such a length with nothing written.
fn blank_runs() -> Runs {
    PerList::from([RUN; 3]).map(|length| vec![FILLER; length])
}

/// Both engines with a row of a vector file, which has these fields besides its
/// cause. What is printed last, where one fails, is the cause.
fn each_row(file: &str, fields: &[&str], check: impl Fn(&dyn Engine, &Json)) {
    for (number, row) in rows(file).iter().enumerate() {
        let cause = row.get("cause").text();
        assert_known(row, &[&["cause"], fields].concat());
        for (name, engine) in [("model", &Model as &dyn Engine), ("archive", &Archive)] {
            println!("{file} row {number}, {name}: {cause}");
            check(engine, row);
        }
    }
}

/// No field of a row is passed over: the object has no others than these.
fn assert_known(object: &Json, fields: &[&str]) {
    for name in object.names() {
        assert!(fields.contains(&name), "{name} is not compared");
    }
}

const FUND_FIELDS: [&str; 6] = [
    "first_code",
    "basket_size",
    "max_cash_ratio",
    "switch",
    "estimated_cash",
    "limits",
];

fn is_filler(numbers: &[u64]) -> bool {
    numbers.iter().all(|&number| number == FILLER)
}

fn fund(row: &Json) -> Fund {
    let fund = row.get("fund");
    assert_known(fund, &FUND_FIELDS);
    let limits = fund.get("limits").run();
    Fund {
        first_code: fund.get("first_code").number(),
        basket_size: fund.get("basket_size").number(),
        max_cash_ratio: fund.get("max_cash_ratio").number(),
        switch: fund.get("switch").number(),
        estimated_cash: fund.get("estimated_cash").number(),
        limits: limits.try_into().expect("eight limits"),
    }
}

/// The run of a row's flag table: empty where none is given.
fn table_run(row: &Json) -> Vec<u64> {
    match row.get("table") {
        Json::Null => Vec::new(),
        table => table.run(),
    }
}

/// The flag table of a day: ours where none is given.
fn day_table(row: &Json) -> FlagTable {
    FlagTable::given(&table_run(row)).expect("ten rows of seven numbers")
}

/// What the cause of a row starts with whose table has another length. A run of no
/// numbers is none in all calls, so a row with a table of no rows is left out.
const TABLE_LENGTH: &str = "table-length";

fn is_left_out(row: &Json) -> bool {
    let has_no_rows = matches!(row.get("table"), Json::List(rows) if rows.is_empty());
    assert!(!has_no_rows || row.get("cause").text().starts_with(TABLE_LENGTH));
    has_no_rows
}

/// How many rows of a file have a table of another length that is lent as it is.
fn other_lengths(file: &str) -> usize {
    let rows = rows(file);
    let is_other = |row: &&Json| row.get("cause").text().starts_with(TABLE_LENGTH);
    let (out, lent): (Vec<&Json>, Vec<&Json>) = rows
        .iter()
        .filter(is_other)
        .partition(|row| is_left_out(row));
    println!("{file}: {} rows left out", out.len());
    lent.len()
}

/// A reply of a number and a place, and of a value and a count of reports where
/// the row has them.
fn reply(value: &Json) -> Reply {
    let (number, place, value, reports) = match value.run()[..] {
        [number, place] => (number, place, 0, 0),
        [number, place, value] => (number, place, value, 0),
        [number, place, value, reports] => (number, place, value, reports),
        _ => panic!("{value:?} is no reply"),
    };
    Reply {
        number,
        place,
        value,
        reports,
    }
}

fn call_of(value: &Json) -> Call {
    let (kind, arguments) = value.list().split_first().expect("a call");
    let order = || match arguments {
        [account, units, rooms] => match rooms.list() {
            [records, investor, fund] => Order {
                account: account.number(),
                units: units.number(),
                lengths: PerList {
                    records: records.number(),
                    investor: investor.number(),
                    fund: fund.number(),
                },
            },
            _ => panic!("{rooms:?} are not the rooms of three lists"),
        },
        _ => panic!("{arguments:?} is no order"),
    };
    let number = |at: usize| arguments[at].number();
    match (kind.text(), arguments.len()) {
        ("price", 2) => Call::Price {
            line: number(0),
            price: number(1),
        },
        ("trade", 5) => Call::Trade(Trade {
            line: number(0),
            quantity: number(1),
            price: number(2),
            seller: number(3),
            buyer: number(4),
        }),
        ("create", _) => Call::Create(order()),
        ("redeem", _) => Call::Redeem(order()),
        ("test-create", _) => Call::TestCreation(order()),
        ("test-redeem", _) => Call::TestRedemption(order()),
        ("value", 0) => Call::Value,
        other => panic!("no call {other:?}"),
    }
}

/// The day of a row.
fn day_of(row: &Json) -> Day {
    let mut day = Day::blank();
    day.accounts = row.get("accounts").number();
    day.count = row.get("count").number();
    day.fund = fund(row);
    day.table = day_table(row);
    let numbers = row.get("components").run();
    let components = numbers.chunks_exact(COMPONENT_NUMBERS);
    assert!(components.remainder().is_empty());
    for (place, numbers) in day.components.iter_mut().zip(components) {
        *place = Component::from_numbers(numbers);
    }
    day
}

/// Opens with the row's runs, and compares the reply and all that was lent.
fn check_opening(engine: &dyn Engine, row: &Json, holdings: &[u64], expected: Reply) -> Lent {
    let (accounts, count) = (row.get("accounts").number(), row.get("count").number());
    let length =
        |name, needed: &dyn Fn() -> usize| row.find(name).map_or_else(needed, Json::number);
    let needed = || book_length(accounts as usize, count as usize);
    let mut lent = Lent {
        day: Day::blank(),
        book: vec![FILLER; length("book_length", &needed)],
        prices: vec![FILLER; length("prices_length", &|| count as usize)],
        runs: blank_runs(),
    };
    let (table, components) = (table_run(row), row.get("components").run());
    let opening = Opening {
        accounts,
        count,
        fund: fund(row),
        table: &table,
        components: &components,
        holdings,
    };
    let before = lent.clone();
    let found = engine.open(&opening, &mut lent);
    assert_eq!(found, expected);
    if !found.is_accepted() {
        assert_eq!(lent, before);
        return lent;
    }
    let opened = Lent {
        day: day_of(row),
        book: opened_book(holdings, count as usize),
        prices: vec![0; count as usize],
        ..before
    };
    assert_eq!(lent, opened);
    lent
}

/// The holdings of each account in its old lots, and 0 elsewhere.
fn opened_book(holdings: &[u64], count: usize) -> Vec<u64> {
    let accounts = holdings.chunks_exact(count + 2);
    let stretches = accounts.flat_map(|held| {
        let lots = held[1..].iter().flat_map(|&old| [old, 0, 0]);
        [held[0], 0, 0].into_iter().chain(lots)
    });
    stretches.collect()
}

const OPENING_FIELDS: [&str; 9] = [
    "accounts",
    "count",
    "fund",
    "table",
    "components",
    "holdings",
    "book_length",
    "prices_length",
    "reply",
];

#[test]
fn openings() {
    each_row("openings.jsonl", &OPENING_FIELDS, |engine, row| {
        if is_left_out(row) {
            return;
        }
        let holdings = row.get("holdings").run();
        check_opening(engine, row, &holdings, reply(row.get("reply")));
    });
}

/// What an accepted order wrote to each list, all of it, and that the rest of
/// the list holds the filler. The fields are those of the numbers written, and
/// of their hash.
fn check_lists(made: &Json, call: &Call, lists: PerList<&[u64]>, found: Reply) {
    let is_order = matches!(call, Call::Create(_) | Call::Redeem(_));
    let written = match is_order {
        true => lengths_for(Counts {
            records: found.value,
            reports: found.reports,
        }),
        false => PerList::default(),
    };
    let fields = PerList {
        records: ["records", "records_sha256"],
        investor: ["investor", "investor_sha256"],
        fund: ["fund_reports", "fund_reports_sha256"],
    };
    for ((list, written), [numbers, hash]) in lists.zip(written).zip(fields).each() {
        let (written, rest) = list.split_at(written);
        assert!(is_filler(rest), "{numbers}: written past the last");
        match (made.find(numbers), made.find(hash)) {
            (Some(expected), None) => assert_eq!(written, expected.run(), "{numbers}"),
            (None, Some(hash)) => assert_eq!(hash_of_numbers(written), hash.text(), "{numbers}"),
            (None, None) => assert!(written.is_empty(), "the row has no {numbers}"),
            _ => panic!("the row has its {numbers} twice"),
        }
    }
}

/// An order and its tests alone give the same reply, whichever of them the row
/// has; the tests change nothing.
fn check_order_and_tests(engine: &dyn Engine, made: &Call, before: &Lent, expected: Reply) {
    let order = match *made {
        Call::TestCreation(order) => Call::Create(order),
        Call::TestRedemption(order) => Call::Redeem(order),
        other => other,
    };
    let Some(alone) = order.tests_alone() else {
        return;
    };
    let mut lent = before.clone();
    assert_eq!(engine.call(&alone, &mut lent), expected, "{alone:?}");
    assert_eq!(lent, *before, "{alone:?}");
    assert_eq!(engine.call(&order, &mut lent), expected, "{order:?}");
}

const CALL_FIELDS: [&str; 9] = [
    "call",
    "reply",
    "records",
    "records_sha256",
    "investor",
    "investor_sha256",
    "fund_reports",
    "fund_reports_sha256",
    "after",
];

/// Makes a call, and compares its reply, its records and reports, and that it
/// changes no more than a call of its kind may.
fn check_call(engine: &dyn Engine, made: &Json, lent: &mut Lent) -> Reply {
    assert_known(made, &CALL_FIELDS);
    let (call, expected) = (call_of(made.get("call")), reply(made.get("reply")));
    lent.runs = blank_runs();
    check_order_and_tests(engine, &call, lent, expected);
    let before = lent.clone();
    let found = engine.call(&call, lent);
    assert_eq!(found, expected, "{call:?}");
    check_lists(made, &call, lent.runs.as_ref().map(|run| &run[..]), found);
    let is_price = matches!(call, Call::Price { .. });
    assert_eq!(lent.day, before.day, "{call:?}");
    assert!(is_price || lent.prices == before.prices, "{call:?}");
    assert!(!is_price || lent.book == before.book, "{call:?}");
    if !found.is_accepted() || only_reads(&call) {
        assert_eq!(*lent, before, "{call:?}");
    }
    found
}

/// Whether a call changes nothing, accepted or not.
fn only_reads(call: &Call) -> bool {
    matches!(
        call,
        Call::Value | Call::TestCreation(_) | Call::TestRedemption(_)
    )
}

const DAY_FIELDS: [&str; 10] = [
    "accounts",
    "count",
    "fund",
    "table",
    "components",
    "holdings",
    "opening",
    "calls",
    "book",
    "prices",
];

#[test]
fn days() {
    each_row("days.jsonl", &DAY_FIELDS, |engine, row| {
        let holdings = row.get("holdings").run();
        let mut lent = check_opening(engine, row, &holdings, reply(row.get("opening")));
        for made in row.get("calls").list() {
            check_call(engine, made, &mut lent);
        }
        assert_eq!(lent.book, row.get("book").run());
        assert_eq!(lent.prices, row.get("prices").run());
    });
}

/// Every file of days has every call, the tests alone among them.
#[test]
fn every_call_is_among_the_rows() {
    let all = [
        "create",
        "price",
        "redeem",
        "test-create",
        "test-redeem",
        "trade",
        "value",
    ];
    for file in ["days.jsonl", "big_days.jsonl", "broken_days.jsonl"] {
        let rows = rows(file);
        let calls = rows.iter().flat_map(|row| row.get("calls").list());
        let found: BTreeSet<&str> = calls
            .map(|made| made.get("call").list()[0].text())
            .collect();
        assert_eq!(found, BTreeSet::from(all), "{file}");
    }
}

/// A way to run rows on an engine.
type Run = fn(&dyn Engine, &[u64], &mut Lent, &mut [u64]) -> Reply;

/// The calls of a day as rows, and what the day comes to: with one test of the
/// day, and with a test in each call. Tests alone have no row.
fn run_in_the_driver(engine: &dyn Engine, row: &Json, holdings: &[u64]) -> Lent {
    let opened = check_opening(engine, row, holdings, reply(row.get("opening")));
    let run: Run = |engine, rows, lent, answers| engine.run(rows, lent, answers);
    let run_one_by_one: Run =
        |engine, rows, lent, answers| engine.run_one_by_one(rows, lent, answers);
    let with_calls = row.get("calls").list().iter();
    let with_calls = with_calls.map(|made| (made, call_of(made.get("call"))));
    let has_row = |(_, call): &(&Json, Call)| row_of(call, PerList::default()).is_some();
    let (made, calls): (Vec<&Json>, Vec<Call>) = with_calls.filter(has_row).unzip();
    let replies: Vec<Reply> = made.iter().map(|made| reply(made.get("reply"))).collect();
    let expected: Vec<u64> = replies.iter().flat_map(|reply| reply.numbers()).collect();
    let (rows, lengths) = rows_of(&calls);
    let ways = [run, run_one_by_one].map(|run| {
        let mut lent = Lent {
            runs: lengths.map(|length| vec![FILLER; length]),
            ..opened.clone()
        };
        let mut answers = vec![FILLER; answers_length(&rows)];
        let reply = run(engine, &rows, &mut lent, &mut answers);
        assert_eq!((reply, &answers), (Reply::accepted(0), &expected));
        assert_eq!(lent.day, opened.day);
        lent
    });
    let [lent, one_by_one] = ways;
    assert_eq!(lent, one_by_one);
    let mut rest = lent.runs.as_ref().map(|run| &run[..]);
    for ((made, call), reply) in made.iter().zip(&calls).zip(replies) {
        let parts = rest.zip(call.lengths());
        let parts = parts.map(|(run, length)| run.split_at(length));
        check_lists(made, call, parts.map(|(list, _)| list), reply);
        rest = parts.map(|(_, after)| after);
    }
    lent
}

#[test]
fn days_in_the_driver() {
    each_row("days.jsonl", &DAY_FIELDS, |engine, row| {
        let lent = run_in_the_driver(engine, row, &row.get("holdings").run());
        assert_eq!(lent.book, row.get("book").run());
        assert_eq!(lent.prices, row.get("prices").run());
    });
}

/// The holdings of a big day: for each account the row that it names.
fn big_holdings(row: &Json) -> Vec<u64> {
    let rows = row.get("holdings_rows").list();
    let of_accounts = row.get("holdings_of").list();
    of_accounts
        .iter()
        .flat_map(|at| rows[at.number::<usize>()].run())
        .collect()
}

/// The book and the prices at the end of a big day, by their hashes; besides,
/// totals over all accounts, and numbers of the last one.
fn check_big_end(row: &Json, lent: &Lent) {
    assert_eq!(hash_of_numbers(&lent.book), row.get("book_sha256").text());
    assert_eq!(
        hash_of_numbers(&lent.prices),
        row.get("prices_sha256").text()
    );
    let width = stretch_width(lent.prices.len());
    let total = |of: fn(&[u64]) -> u64| lent.book.chunks_exact(width).map(of).sum::<u64>();
    let units: fn(&[u64]) -> u64 = |stretch| stretch[stretch.len() - LOTS..].iter().sum();
    for (name, found) in [
        ("cash_total", total(|stretch| stretch[0])),
        ("created_total", total(|stretch| stretch[1])),
        ("redeemed_total", total(|stretch| stretch[2])),
        ("units_total", total(units)),
    ] {
        assert_eq!(found, row.get(name).number::<u64>(), "{name}");
    }
    let last = &lent.book[lent.book.len() - width..];
    let shown = [&last[..9], &last[width - 6..]].concat();
    assert_eq!(shown, row.get("last_account").run());
}

const BIG_DAY_FIELDS: [&str; 16] = [
    "accounts",
    "count",
    "fund",
    "table",
    "components",
    "holdings_rows",
    "holdings_of",
    "opening",
    "calls",
    "book_sha256",
    "prices_sha256",
    "cash_total",
    "units_total",
    "created_total",
    "redeemed_total",
    "last_account",
];

#[test]
fn big_days() {
    each_row("big_days.jsonl", &BIG_DAY_FIELDS, |engine, row| {
        let holdings = big_holdings(row);
        let mut lent = check_opening(engine, row, &holdings, reply(row.get("opening")));
        for made in row.get("calls").list() {
            check_call(engine, made, &mut lent);
        }
        check_big_end(row, &lent);
        check_big_end(row, &run_in_the_driver(engine, row, &holdings));
    });
}

/// A state that no run of a day can say: this run has as many components as its
/// count says.
const NO_RUN: &str = "day: one component more";

const BROKEN_DAY_FIELDS: [&str; 8] = [
    "accounts",
    "count",
    "fund",
    "table",
    "components",
    "book",
    "prices",
    "calls",
];

#[test]
fn broken_days() {
    each_row("broken_days.jsonl", &BROKEN_DAY_FIELDS, |engine, row| {
        if row.get("cause").text() == NO_RUN {
            return;
        }
        let before = Lent {
            day: day_of(row),
            book: row.get("book").run(),
            prices: row.get("prices").run(),
            runs: blank_runs(),
        };
        for made in row.get("calls").list() {
            let mut lent = before.clone();
            let found = check_call(engine, made, &mut lent);
            let after = made.find("after");
            assert!(after.is_none() || found.is_accepted());
            after.inspect(|after| assert_known(after, &["book", "prices"]));
            let left = |name, before: &[u64]| {
                let changed = after.and_then(|after| after.find(name));
                changed.map_or_else(|| before.to_vec(), Json::run)
            };
            assert_eq!(lent.book, left("book", &before.book));
            assert_eq!(lent.prices, left("prices", &before.prices));
        }
    });
}

fn head(row: &Json) -> Head {
    Head {
        fund: fund(row),
        publish: row.get("publish").number(),
        trading_day: row.get("trading_day").number(),
        pre_trading_day: row.get("pre_trading_day").number(),
        cash_component: row.get("cash_component").number(),
        nav_per_basket: row.get("nav_per_cu").number(),
        nav: row.get("nav").number(),
    }
}

/// The fields of a list, besides those of its text or of its names.
const LIST_FIELDS: [&str; 12] = [
    "letters",
    "table",
    "fund",
    "publish",
    "trading_day",
    "pre_trading_day",
    "cash_component",
    "nav_per_cu",
    "nav",
    "count",
    "components",
    "reply",
];

#[test]
fn texts() {
    let fields = [&LIST_FIELDS[..], &["text", "capacity", "name_places"]].concat();
    each_row("texts.jsonl", &fields, |engine, row| {
        if is_left_out(row) {
            return;
        }
        let (text, table) = (row.get("text").bytes(), table_run(row));
        let capacity: usize = row.get("capacity").number();
        let before = LentList {
            components: vec![FILLER; COMPONENT_NUMBERS * capacity],
            fields: [FILLER; FIELD_NUMBERS],
            first_row: FILLER,
        };
        let mut lent = before.clone();
        let found = engine.read(text, &table, &mut lent);
        check_any_parts(engine, text);
        let mut expected = reply(row.get("reply"));
        assert_eq!(expected.is_accepted(), row.find("count").is_some());
        if !expected.is_accepted() {
            assert_eq!((found, lent), (expected, before));
            return;
        }
        let count: u64 = row.get("count").number();
        expected.value = count;
        assert_eq!(found, expected);
        let written = row.get("components").run();
        let (components, rest) = lent.components.split_at(written.len());
        assert_eq!(components, written);
        assert!(is_filler(rest));
        assert_eq!(lent.fields, field_numbers(&head(row), count));
        check_places(engine, row, text, lent.first_row);
        check_parts(row, text);
    });
}
/// What an engine puts in a run for a part of a text; its answer is the length.
fn part(ask: impl Fn(&mut [u64]) -> u64) -> [u64; PART_NUMBERS] {
    let mut part = [FILLER; PART_NUMBERS];
    assert_eq!(ask(&mut part), part[1]);
    part
}

/// The letters of any text, and names as if its first line were a component
/// line, past the last too, are the model's.
fn check_any_parts(engine: &dyn Engine, text: &[u8]) {
    let letters = |engine: &dyn Engine| part(|run| engine.letters(text, run));
    assert_eq!(letters(engine), letters(&Model));
    let lines = (text.len() / list::COMPONENT_LINE) as u64;
    for component in (0..=lines).chain([u64::MAX]) {
        let name = |engine: &dyn Engine| part(|run| engine.name(text, 0, component, run));
        assert_eq!(name(engine), name(&Model), "component {component}");
    }
}

/// The letters and names of an accepted text stand where its row says, and
/// past the last component there is no name.
fn check_places(engine: &dyn Engine, row: &Json, text: &[u8], first_row: u64) {
    let letters = part(|run| engine.letters(text, run));
    assert_eq!(part_of(text, letters), row.get("letters").bytes());
    let name = |component| part(|run| engine.name(text, first_row, component, run));
    let places = row.get("name_places").run();
    for (component, &place) in (0..).zip(&places) {
        assert_eq!(name(component), [place, list::NAME_BYTES as u64]);
    }
    for past in [places.len() as u64, u64::MAX] {
        assert_eq!(name(past), [0, 0]);
    }
}

/// The letters and names of an accepted text are parts of it, by the model and
/// by the library; the head and the components are the row's.
fn check_parts(row: &Json, text: &[u8]) {
    let mut components = vec![0; COMPONENT_NUMBERS * MAX_COMPONENTS];
    let table = table_run(row);
    let model = list::read(text, &table, &mut components).expect("the model reads it");
    let library = match library_types::table_of_run(&table) {
        Some(table) => List::read_with_table(text, &table),
        None => List::read(text),
    };
    let library = library.expect("the library reads it");
    let letters = row.get("letters").bytes();
    assert_eq!((model.letters, library.letters), (letters, letters));
    assert_eq!(model.head, head(row));
    assert_eq!(Some(library.head), library_types::head(&head(row)));
    let numbers = row.get("components").run();
    let expected = numbers.chunks_exact(COMPONENT_NUMBERS);
    let expected = expected.map(Component::from_numbers);
    let expected = expected.map(|each| library_types::component(&each));
    assert!(library.components.iter().copied().eq(expected));
    let places = row.get("name_places").run();
    assert_eq!(library.names.len(), places.len());
    for (component, place) in places.into_iter().enumerate() {
        let name = &text[place as usize..][..list::NAME_BYTES];
        assert!(std::ptr::eq(model.name(component), name));
        assert!(std::ptr::eq(list::name(text, component), name));
        assert!(std::ptr::eq(&library.names[component][..], name));
    }
    assert!(model.name(model.count as usize).is_empty());
}

#[test]
fn writings() {
    let fields = [&LIST_FIELDS[..], &["text", "names", "output_length"]].concat();
    each_row("writings.jsonl", &fields, |engine, row| {
        if is_left_out(row) {
            return;
        }
        let (table, components) = (table_run(row), row.get("components").run());
        let writing = Writing {
            letters: row.get("letters").bytes(),
            head: head(row),
            count: row.get("count").number(),
            table: &table,
            components: &components,
            names: row.get("names").bytes(),
        };
        let mut output = vec![FILLER_BYTE; row.get("output_length").number()];
        let found = engine.write(&writing, &mut output);
        assert_eq!(found, reply(row.get("reply")));
        assert_eq!(found.is_accepted(), row.find("text").is_some());
        let text = row.find("text").map_or(&[][..], Json::bytes);
        assert_eq!(found.value, text.len() as u64);
        let (written, rest) = output.split_at(text.len());
        assert_eq!(written, text);
        assert!(rest.iter().all(|&byte| byte == FILLER_BYTE));
    });
}

/// Tables of other lengths are lent to the calls as they are, but for those of no
/// rows.
#[test]
fn tables_of_other_lengths() {
    for file in ["openings.jsonl", "texts.jsonl", "writings.jsonl"] {
        assert!(other_lengths(file) > 0, "{file}");
    }
    for file in ["days.jsonl", "big_days.jsonl", "broken_days.jsonl"] {
        for row in rows(file) {
            let table = row.get("table");
            let is_given = *table != Json::Null;
            assert!(
                !is_given
                    || table
                        .list()
                        .iter()
                        .all(|row| row.run().len() == FLAG_COLUMNS)
            );
        }
    }
}

/// A row like another one, bytes in pieces, and the text of a row with edits.
#[test]
fn rows_are_read_in_full() {
    let rows = support::rows_of(concat!(
        r#"{"cause":"a","text":"000102030405","count":18446744073709551615}"#,
        "\n",
        r#"{"cause":"b\r","like":0,"names":["ff",[3,"0a0b"],""]}"#,
        "\n",
        r#"{"cause":"c","text":{"row":0,"edit":[[0,1,""],[2,0,"a1a2"],[4,2,"fe"]]},"like":0}"#,
        "\n",
    ));
    let [first, second, third] = &rows[..] else {
        panic!("{} rows", rows.len());
    };
    assert_eq!(first.get("text").bytes(), [0, 1, 2, 3, 4, 5]);
    assert_eq!(second.get("cause").text(), "b\r");
    assert_eq!(second.get("text"), first.get("text"));
    assert_eq!(
        second.get("names").bytes(),
        [0xff, 0x0a, 0x0b, 0x0a, 0x0b, 0x0a, 0x0b]
    );
    assert_eq!(third.get("text").bytes(), [1, 0xa1, 0xa2, 2, 3, 0xfe]);
    for row in &rows {
        assert_eq!(row.get("count").number::<u64>(), u64::MAX);
        assert!(row.find("like").is_none());
    }
}
