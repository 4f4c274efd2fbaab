//! Times of the archive beside those of the model.
//!
//! Full size: 64 accounts and 300 components. Archive and model make the same
//! checks on the same cases, each on the day in its own form.

use roffelaine::lent;
use roffelaine_check::archive::{self, lists_of, Archive};
use roffelaine_check::engine::{Engine, LentList, Model, Runs};
use roffelaine_check::flat::{answers_length, fund_numbers, row_of, DAY_NUMBERS, FIELD_NUMBERS};
use roffelaine_check::full_size::{
    component_run, holdings, list_text, names, opening, order, writing, COUNT, MOST, PRICE,
};
use roffelaine_check::model::{
    self, book_length, lengths_for, Call, Day, FlagTable, Lengths, Opening, Order, Reply, Trade,
    Work, ANSWER_NUMBERS, COMPONENT_NUMBERS,
};
use roffelaine_check::timing::{median_nanos, table_heading, Medians, Timing};
use std::hint::black_box;

const ACCOUNTS: usize = 64;
/// The account that orders, which is short of some lines.
const HOLDER: usize = 1;
/// Times that archive and model take turns, and runs in a turn.
const ROUNDS: usize = 15;
const RUNS: usize = 51;
/// Calls in a list: many trades, fewer orders.
const TRADES: usize = 2_000;
const ORDERS: usize = 200;
/// After so many orders their lists are used again, so that what they write,
/// 60 KB each, stays in the cache.
const LISTS: usize = 40;

fn main() {
    println!("{}", table_heading());
    let mut timings = Vec::new();
    for row in ROWS {
        let timing = time_row(row);
        println!("{}", timing.table_row());
        timings.push(timing);
    }
    let test_and_read = Timing::of(
        "the day's test; model: a plain read",
        ROUNDS,
        || time_call(Side::Archive, Call::TestDay),
        time_plain_read,
    );
    println!("{}", test_and_read.table_row());
    print_noise(&timings);
    print_goals(&timings, test_and_read.ratio());
}

fn time_row(row: &Row) -> Timing {
    let (archive, model) = (|| (row.time)(Side::Archive), || (row.time)(Side::Model));
    Timing::of(row.name, ROUNDS, archive, model)
}

/// How far the medians of the rounds lie apart, of one and the same row.
fn print_noise(timings: &[Timing]) {
    let sides = timings
        .iter()
        .flat_map(|timing| [&timing.archive, &timing.model]);
    let mut spreads: Vec<f64> = sides.map(Medians::spread).collect();
    spreads.sort_by(f64::total_cmp);
    let (middle, most) = (spreads[spreads.len() / 2], spreads[spreads.len() - 1]);
    println!(
        "noise: over {ROUNDS} rounds the medians of one row lie {:.0} % apart, {:.0} % at most",
        100.0 * middle,
        100.0 * most
    );
}

fn print_goals(timings: &[Timing], plain_reads: f64) {
    let slowest = timings.iter().map(Timing::ratio).fold(0.0, f64::max);
    let found = |name: &str, of: fn(&Timing) -> f64| {
        let timing = timings.iter().find(|timing| timing.name == name);
        timing.map_or(f64::NAN, of)
    };
    let archive = |name| found(name, |timing| timing.archive.median());
    let ratio = |name| found(name, Timing::ratio);
    let (trade, creation) = (archive(TRADE_IN_LIST), archive(CREATION_IN_LIST));
    print_goal("largest ratio of a row to the model", slowest, 1.2);
    print_goal("nanoseconds of a trade in a list", trade, 100.0);
    print_goal(
        "nanoseconds of a creation with reports in a list",
        creation,
        4_000.0,
    );
    print_goal(
        "ratio of a creation with reports in a list to the model",
        ratio(CREATION_IN_LIST),
        1.0,
    );
    print_goal(
        "plain reads of the book in the day's test",
        plain_reads,
        1.3,
    );
}

fn print_goal(what: &str, found: f64, most: f64) {
    let verdict = if found <= most { "met" } else { "missed" };
    println!("goal {verdict}: {what}: {found:.2}, at most {most}");
}

/// A row of the table: what is timed, in nanoseconds.
struct Row {
    name: &'static str,
    time: fn(Side) -> f64,
}

const TRADE_IN_LIST: &str = "trade, in a list of calls";
const CREATION_IN_LIST: &str = "creation of 20 with reports, in a list of calls";

const ROWS: &[Row] = &[
    Row {
        name: "trade, with the day's test",
        time: |side| time_call(side, trade()),
    },
    Row {
        name: "creation of 20 with reports, with the day's test",
        time: |side| time_call(side, creation()),
    },
    Row {
        name: "redemption of 20 with reports, with the day's test",
        time: |side| time_call(side, redemption()),
    },
    Row {
        name: "creation of 20, tests alone, with the day's test",
        time: |side| time_call(side, Call::TestCreation(ordered())),
    },
    Row {
        name: "redemption of 20, tests alone, with the day's test",
        time: |side| time_call(side, Call::TestRedemption(ordered())),
    },
    Row {
        name: TRADE_IN_LIST,
        time: |side| time_list(side, trade(), TRADES, LISTS),
    },
    Row {
        name: CREATION_IN_LIST,
        time: |side| time_list(side, creation(), ORDERS, LISTS),
    },
    Row {
        name: "the same, each with lists of its own, 12 MB",
        time: |side| time_list(side, creation(), ORDERS, ORDERS),
    },
    Row {
        name: "redemption of 20 with reports, in a list of calls",
        time: |side| time_list(side, redemption(), ORDERS, LISTS),
    },
    Row {
        name: "opening",
        time: |side| time_opening(side, &[]),
    },
    Row {
        name: "opening, with a flag table",
        time: |side| time_opening(side, A_TABLE.numbers()),
    },
    Row {
        name: "reading a list of 300 components",
        time: |side| time_reading(side, &[]),
    },
    Row {
        name: "reading a list of 300 components, with a flag table",
        time: |side| time_reading(side, A_TABLE.numbers()),
    },
    Row {
        name: "writing a list of 300 components",
        time: time_writing,
    },
    Row {
        name: "the day's test",
        time: |side| time_call(side, Call::TestDay),
    },
];

/// A table as a customer gives it. The fund's components go with ours.
const A_TABLE: FlagTable = FlagTable::OURS;

/// Who is timed.
#[derive(Clone, Copy)]
enum Side {
    Archive,
    Model,
}

impl Side {
    /// For the list text, which has no day.
    fn engine(self) -> &'static dyn Engine {
        match self {
            Side::Archive => &Archive,
            Side::Model => &Model,
        }
    }

    /// A day with nothing in it, and runs of such lengths for orders.
    fn blank(self, lengths: Lengths) -> Box<dyn Timed> {
        let lent = Lent {
            book: vec![0; book_length(ACCOUNTS, COUNT)],
            prices: vec![0; COUNT],
            runs: lengths.map(|length| vec![0; length]),
        };
        match self {
            Side::Archive => Box::new((Box::new([0; DAY_NUMBERS]), lent)),
            Side::Model => Box::new((Box::new(Day::blank()), lent)),
        }
    }

    /// The day opened, every component with its price.
    fn opened(self, lengths: Lengths) -> Box<dyn Timed> {
        let mut day = self.blank(lengths);
        let holdings = holdings(ACCOUNTS, HOLDER);
        let reply = day.open(&opening(ACCOUNTS, &component_run(), &holdings));
        assert!(reply.is_accepted(), "the opening is refused");
        for line in 0..COUNT as u64 {
            let reply = day.call(&Call::Price { line, price: PRICE });
            assert!(reply.is_accepted(), "a price is refused");
        }
        day
    }
}

/// What calls are lent besides the day.
struct Lent {
    book: Vec<u64>,
    prices: Vec<u64>,
    runs: Runs,
}

/// A day with its runs, in the form of one side.
trait Timed {
    fn open(&mut self, opening: &Opening<'_>) -> Reply;
    fn call(&mut self, call: &Call) -> Reply;
    fn run(&mut self, rows: &[u64], answers: &mut [u64]) -> Reply;
}

impl Timed for (Box<[u64; DAY_NUMBERS]>, Lent) {
    fn open(&mut self, opening: &Opening<'_>) -> Reply {
        let (day, lent) = self;
        lent::open(
            opening.accounts,
            opening.count,
            &fund_numbers(&opening.fund),
            opening.table,
            opening.components,
            opening.holdings,
            &mut lent.book,
            &mut lent.prices,
            &mut day[..],
        )
        .into()
    }

    fn call(&mut self, call: &Call) -> Reply {
        let (day, lent) = self;
        let Lent { book, prices, runs } = lent;
        archive::call(&day[..], book, prices, runs.front(call.lengths()), call)
    }

    fn run(&mut self, rows: &[u64], answers: &mut [u64]) -> Reply {
        let (day, lent) = self;
        let Lent { book, prices, runs } = lent;
        let lists = lists_of(runs.lend());
        lent::run(&day[..], book, prices, rows, lists, answers).into()
    }
}

impl Timed for (Box<Day>, Lent) {
    fn open(&mut self, opening: &Opening<'_>) -> Reply {
        let (day, lent) = self;
        match model::open(opening, &mut lent.book, &mut lent.prices) {
            Ok(opened) => {
                **day = opened;
                Reply::accepted(0)
            }
            Err(refusal) => refusal.into(),
        }
    }

    fn call(&mut self, call: &Call) -> Reply {
        let (day, lent) = self;
        let Lent { book, prices, runs } = lent;
        model::call(day, book, prices, runs.front(call.lengths()), call)
    }

    fn run(&mut self, rows: &[u64], answers: &mut [u64]) -> Reply {
        let (day, lent) = self;
        let mut work = Work {
            day,
            book: &mut lent.book,
            prices: &mut lent.prices,
            runs: lent.runs.lend(),
        };
        model::run(&mut work, rows, answers)
    }
}

fn trade() -> Call {
    Call::Trade(Trade {
        line: 150,
        quantity: 100,
        price: 10_000,
        seller: 1,
        buyer: 2,
    })
}

/// The order of all rows that have one.
fn ordered() -> Order {
    order(HOLDER as u64)
}

fn creation() -> Call {
    Call::Create(ordered())
}

fn redemption() -> Call {
    Call::Redeem(ordered())
}

/// One call on a day that lasts through all runs.
fn time_call(side: Side, call: Call) -> f64 {
    let mut day = side.opened(lengths_for(MOST));
    assert!(day.call(&call).is_accepted(), "{call:?} is refused");
    median_nanos(RUNS, 5, || {
        black_box(day.call(black_box(&call)));
    })
}

/// One call among many in a list, the day tested once for all of them; so many
/// have lists of their own before these are used again.
fn time_list(side: Side, call: Call, length: usize, lists: usize) -> f64 {
    let starts = |at: usize| call.lengths().map(|length| length * (at % lists));
    let rows = (0..length).filter_map(|at| row_of(&call, starts(at)));
    let rows: Vec<u64> = rows.flatten().collect();
    let mut day = side.opened(call.lengths().map(|length| length * lists));
    let mut answers = vec![0; answers_length(&rows)];
    let list = median_nanos(RUNS, 1, || {
        black_box(day.run(black_box(&rows), black_box(&mut answers)));
    });
    let mut numbers = answers.iter().step_by(ANSWER_NUMBERS);
    assert!(
        numbers.all(|&number| number == 0),
        "{call:?} is refused in a list"
    );
    list / length as f64
}

fn time_opening(side: Side, table: &[u64]) -> f64 {
    let (components, holdings) = (component_run(), holdings(ACCOUNTS, HOLDER));
    let opening = Opening {
        table,
        ..opening(ACCOUNTS, &components, &holdings)
    };
    let mut day = side.blank(lengths_for(MOST));
    assert!(day.open(&opening).is_accepted());
    median_nanos(RUNS, 5, || {
        black_box(day.open(black_box(&opening)));
    })
}

fn time_reading(side: Side, table: &[u64]) -> f64 {
    let (engine, text) = (side.engine(), list_text());
    let mut lent = LentList {
        components: vec![0; COMPONENT_NUMBERS * COUNT],
        fields: [0; FIELD_NUMBERS],
        first_row: 0,
    };
    assert!(engine.read(&text, table, &mut lent).is_accepted());
    median_nanos(RUNS, 5, || {
        black_box(engine.read(black_box(&text), black_box(table), black_box(&mut lent)));
    })
}

fn time_writing(side: Side) -> f64 {
    let (engine, components, names) = (side.engine(), component_run(), names());
    let list = writing(&components, &names);
    let mut output = vec![0; list_text().len()];
    assert!(engine.write(&list, &mut output).is_accepted());
    median_nanos(RUNS, 5, || {
        black_box(engine.write(black_box(&list), black_box(&mut output)));
    })
}

/// Every number of the book added up, to set the day's test against.
fn time_plain_read() -> f64 {
    let book = vec![1u64; book_length(ACCOUNTS, COUNT)];
    median_nanos(RUNS, 5, || {
        let numbers = black_box(&book).iter();
        black_box(numbers.fold(0u64, |sum, &number| sum.wrapping_add(number)));
    })
}
