//! The driver: a list of calls as rows of numbers.

use super::calls::{call, Call, Order};
use super::creation::create_on_sound_day;
use super::order_lists::{Lengths, Lists, PerList};
use super::price::set_price_on_sound_day;
use super::redemption::redeem_on_sound_day;
use super::refusal::{Refusal, Reply, SIZES};
use super::soundness::stays_sound;
use super::trade::{trade_on_sound_day, Trade};
use super::types::Day;
use super::value::value_on_sound_day;

/// Numbers of a row: 1 price: line, price; 2 trade: line, quantity, price,
/// seller, buyer; 3 create and 4 redeem: account, units, and start and length
/// of the parts that are its lists, of the record run, of the run of the
/// investor's reports and of that of the fund's; 5 value.
pub const ROW_NUMBERS: usize = 9;
/// Numbers of an answer: number, place, value, count of reports.
pub const ANSWER_NUMBERS: usize = 4;

/// What the rows work on.
pub struct Work<'a> {
    pub day: &'a Day,
    pub book: &'a mut [u64],
    pub prices: &'a mut [u64],
    /// The three runs; each order's lists are parts of them.
    pub runs: Lists<'a>,
}

/// Makes the calls that the rows name and puts an answer to each. The day is
/// tested once where calls keep it sound, else by each call. Refuses by 1
/// rows that are not whole or have not an answer each.
pub fn run(work: &mut Work<'_>, rows: &[u64], answers: &mut [u64]) -> Reply {
    if stays_sound(work.day, work.book, work.prices) {
        run_rows(work, rows, answers, call_on_sound_day)
    } else {
        run_one_by_one(work, rows, answers)
    }
}

/// The same calls, each with its own test of the day.
pub fn run_one_by_one(work: &mut Work<'_>, rows: &[u64], answers: &mut [u64]) -> Reply {
    run_rows(work, rows, answers, |work, row| {
        let lists = parts(&mut work.runs, row);
        call(work.day, work.book, work.prices, lists, &row.call)
    })
}

fn run_rows(
    work: &mut Work<'_>,
    rows: &[u64],
    answers: &mut [u64],
    make: impl Fn(&mut Work<'_>, &Row) -> Reply,
) -> Reply {
    let count = rows.len() / ROW_NUMBERS;
    if rows.len() != ROW_NUMBERS * count || answers.len() != ANSWER_NUMBERS * count {
        return Refusal::new(SIZES).into();
    }
    let answers = answers.chunks_exact_mut(ANSWER_NUMBERS);
    for (numbers, answer) in rows.chunks_exact(ROW_NUMBERS).zip(answers) {
        let reply = Row::of(numbers).map_or(Refusal::new(SIZES).into(), |row| make(work, &row));
        answer.copy_from_slice(&reply.numbers());
    }
    Reply::accepted(0)
}

/// A call and where its parts of the runs start.
struct Row {
    call: Call,
    starts: PerList<usize>,
}

impl Row {
    /// What the numbers of a row name, if anything.
    fn of(numbers: &[u64]) -> Option<Self> {
        let cells = |places: [usize; 3]| PerList::from(places.map(|at| numbers[at] as usize));
        let order = || Order {
            account: numbers[1],
            units: numbers[2],
            lengths: cells([4, 6, 8]),
        };
        let call = match numbers[0] {
            1 => Call::Price {
                line: numbers[1],
                price: numbers[2],
            },
            2 => Call::Trade(Trade {
                line: numbers[1],
                quantity: numbers[2],
                price: numbers[3],
                seller: numbers[4],
                buyer: numbers[5],
            }),
            3 => Call::Create(order()),
            4 => Call::Redeem(order()),
            5 => Call::Value,
            _ => return None,
        };
        Some(Row {
            call,
            starts: cells([3, 5, 7]),
        })
    }
}

/// The lists of a row's call: its parts of the runs.
fn parts<'w>(runs: &'w mut Lists<'_>, row: &Row) -> Lists<'w> {
    let lengths: Lengths = row.call.lengths();
    runs.as_mut()
        .zip(row.starts.zip(lengths))
        .map(|(run, (start, length))| part(run, start, length))
}

/// A part of a run, empty where it does not lie in the run.
fn part(run: &mut [u64], start: usize, length: usize) -> &mut [u64] {
    start
        .checked_add(length)
        .and_then(|end| run.get_mut(start..end))
        .unwrap_or_default()
}

fn call_on_sound_day(work: &mut Work<'_>, row: &Row) -> Reply {
    let Work {
        day,
        book,
        prices,
        runs,
    } = work;
    match row.call {
        Call::Price { line, price } => set_price_on_sound_day(day, prices, line, price).into(),
        Call::Trade(ref terms) => trade_on_sound_day(day, book, terms).into(),
        Call::Create(order) => {
            let lists = parts(runs, row);
            create_on_sound_day(day, book, prices, order.account, order.units, lists).into()
        }
        Call::Redeem(order) => {
            let lists = parts(runs, row);
            redeem_on_sound_day(day, book, order.account, order.units, lists).into()
        }
        Call::Value => value_on_sound_day(day, prices).into(),
        Call::TestDay | Call::TestCreation(_) | Call::TestRedemption(_) => {
            unreachable!("no row names a test")
        }
    }
}
