//! Orders write in place, their tests write nothing, and reading a list holds
//! none of its numbers (change request 3).
//!
//! The book lies in pages of its own. While an order is made, every page on which
//! it has nothing to write is read-only: a write there, as of a book that is
//! copied and put back, would end the process. In the driver an order takes as
//! many instructions on a large book as on a small one, and no stack on which a
//! number for each component would fit. Nor is there such a stack where a list is
//! read, and a refused list leaves the pages that it is lent as they are.
//!
//! Linux on x86-64 only, as the archive is: read-only pages, child processes and
//! single steps are asked of this system by its own numbers.
#![cfg(all(target_os = "linux", target_arch = "x86_64"))]

#[path = "in_place/memory.rs"]
mod memory;
#[path = "in_place/steps.rs"]
mod steps;
#[path = "in_place/system.rs"]
mod system;

use memory::{Memory, Pages};
use roffelaine::lent;
use roffelaine_check::archive::lists_of;
use roffelaine_check::engine::{Engine, Lent, Model};
use roffelaine_check::flat::{answers_length, day_numbers, rows_of, DAY_NUMBERS, FIELD_NUMBERS};
use roffelaine_check::full_size::{
    component_run, holdings, list_text, opening, order, COUNT, MOST, PRICE,
};
use roffelaine_check::model::{
    book_length, lengths_for, stretch_width, Call, Day, FlagTable, Order, ANSWER_NUMBERS,
};
use std::ffi::c_int;
use std::io::Write;
use std::ops::Range;
use steps::Count;
use system::{child, Run, State, PAGE, SIGSEGV};

const ACCOUNTS: usize = 64;
/// What a child says with its status.
const FINE: c_int = 0;
const NOT_PROTECTED: c_int = 1;
const REFUSED: c_int = 2;

/// A day of the largest list, by the model; every component has its price.
fn opened(accounts: usize, holder: usize) -> Lent {
    let mut lent = Lent {
        day: Day::blank(),
        book: vec![0; book_length(accounts, COUNT)],
        prices: vec![0; COUNT],
        runs: lengths_for(MOST).map(|length| vec![0; length]),
    };
    let (components, holdings) = (component_run(), holdings(accounts, holder));
    let reply = Model.open(&opening(accounts, &components, &holdings), &mut lent);
    assert!(reply.is_accepted(), "the opening is refused");
    lent.prices.fill(PRICE);
    lent
}

/// Two orders of 20 baskets, each with its own lists. Behind what it makes each
/// list has a page at least.
fn orders(holder: usize) -> [Call; 2] {
    let mut order = order(holder as u64);
    order.lengths = order.lengths.map(|length| length + 2 * PAGE);
    [Call::Create(order), Call::Redeem(order)]
}

/// Orders of an account on a day, and what the model leaves.
struct Case {
    start: Lent,
    calls: [Call; 2],
    rows: Vec<u64>,
    after: Lent,
    answers: Vec<u64>,
}

impl Case {
    fn of(holder: usize) -> Self {
        let calls = orders(holder);
        let (rows, lengths) = rows_of(&calls);
        let start = Lent {
            runs: lengths.map(|length| vec![7; length]),
            ..opened(ACCOUNTS, holder)
        };
        let (mut after, mut answers) = (start.clone(), vec![7; answers_length(&rows)]);
        Model.run(&rows, &mut after, &mut answers);
        let mut numbers = answers.iter().step_by(ANSWER_NUMBERS);
        assert!(numbers.all(|&number| number == 0), "an order is refused");
        Case {
            start,
            calls,
            rows,
            after,
            answers,
        }
    }

    fn memory(&self) -> Memory {
        Memory::of(&self.start, self.answers.len())
    }

    fn order(&self) -> &Order {
        match &self.calls[0] {
            Call::Create(order) => order,
            _ => unreachable!("the first is a creation"),
        }
    }

    /// The numbers of the book that the orders may write: the stretches of the
    /// fund and of the account.
    fn stretches(&self) -> [Range<usize>; 2] {
        [0, self.order().account as usize].map(|account| {
            let start = book_length(account, COUNT);
            start..start + stretch_width(COUNT)
        })
    }

    /// All pages but those on which the orders write.
    fn untouched(&self, memory: &Memory) -> Pages {
        memory.pages_without(&self.stretches(), &self.calls, &self.answers)
    }
}

/// A way to make the orders of a case; whether they were asked at all.
type Way = fn(&mut Memory, &Case) -> bool;

/// The orders call by call, with the day's test in each.
fn one_by_one(memory: &mut Memory, case: &Case) -> bool {
    for at in 0..case.calls.len() {
        memory.call(&case.calls, at);
    }
    true
}

/// The orders in the driver, with one test of the day.
fn in_the_driver(memory: &mut Memory, case: &Case) -> bool {
    memory.run(&case.rows).is_accepted()
}

const WAYS: [(&str, Way); 2] = [("one by one", one_by_one), ("in the driver", in_the_driver)];

/// Makes the orders in a child, with pages that may only be read.
fn made_with(pages: &Pages, memory: &mut Memory, way: Way, case: &Case) -> State {
    child(|| match memory.protect(pages) {
        false => NOT_PROTECTED,
        true if way(memory, case) => FINE,
        true => REFUSED,
    })
}

/// An account in the middle, and the last one.
const HOLDERS: [usize; 2] = [ACCOUNTS / 2, ACCOUNTS - 1];

#[test]
fn orders_write_on_their_two_stretches_alone() {
    for holder in HOLDERS {
        let case = Case::of(holder);
        for (name, way) in WAYS {
            let mut memory = case.memory();
            let pages = case.untouched(&memory);
            let (protected, all) = (pages.book.len(), case.start.book.len().div_ceil(PAGE));
            println!("account {holder}, {name}: {protected} of {all} pages of the book read-only");
            assert!(protected >= 100, "{protected} pages");
            assert!(pages
                .lists
                .as_ref()
                .each()
                .iter()
                .all(|list| !list.is_empty()));
            let state = made_with(&pages, &mut memory, way, &case);
            assert_eq!(
                state,
                State::Exited(FINE),
                "account {holder}, {name}: a page is written on which no order has to write"
            );
            assert_eq!(memory.answers.numbers(), case.answers, "{name}");
            assert_eq!(memory.left(&case.start), case.after, "{name}");
        }
    }
}

/// The orders as they are, on a page of the fund, of the account and of each
/// list that may only be read: the test above can fail.
#[test]
fn a_write_to_a_page_that_is_only_read_ends_a_child() {
    let case = Case::of(HOLDERS[0]);
    let mut memory = case.memory();
    let untouched = case.untouched(&memory);
    let place = PAGE * untouched.book[0];
    let state = child(|| match memory.protect(&untouched) {
        false => NOT_PROTECTED,
        true => {
            memory.book.numbers_mut()[place] += 1;
            FINE
        }
    });
    assert_eq!(state, State::Died(SIGSEGV), "a write of the test's own");
    let [fund, account] = case.stretches().map(|stretch| stretch.start / PAGE);
    for (name, way) in WAYS {
        for page in [fund, account] {
            let mut memory = case.memory();
            let pages = Pages {
                book: vec![page],
                ..Pages::default()
            };
            let state = made_with(&pages, &mut memory, way, &case);
            assert_eq!(
                state,
                State::Died(SIGSEGV),
                "page {page} of the book, {name}"
            );
        }
    }
}

/// The tests alone are lent nothing to write: every page of day, book and prices
/// is read-only. They answer what the orders do.
#[test]
fn tests_alone_write_nothing() {
    let case = Case::of(HOLDERS[1]);
    let mut memory = case.memory();
    let all = memory.all_pages();
    let order = *case.order();
    let tests = [Call::TestCreation(order), Call::TestRedemption(order)];
    let state = child(|| {
        if !memory.protect(&all) {
            return NOT_PROTECTED;
        }
        (0..tests.len()).for_each(|at| memory.call(&tests, at));
        FINE
    });
    assert_eq!(state, State::Exited(FINE), "the tests write");
    assert_eq!(memory.left(&case.start), case.start);
    let mut replies = Vec::new();
    for call in &tests {
        replies.extend(Model.call(call, &mut case.start.clone()).numbers());
    }
    assert_eq!(memory.answers.numbers(), replies);
    // Redeeming first or creating first is the same where holdings are ample.
    assert_eq!(replies, case.answers);
}

/// What an order takes in the driver, on a day that is known to be sound: the
/// second of two in a list, from the answer to the first on.
fn in_a_list(accounts: usize, call: Call) -> Option<Count> {
    let (rows, lengths) = rows_of(&[call, call]);
    let start = opened(accounts, 1);
    let day = day_numbers(&start.day);
    let mut lent = Lent {
        runs: lengths.map(|length| vec![0; length]),
        ..start
    };
    let mut answers = vec![7; answers_length(&rows)];
    steps::count_behind_write(answers.as_ptr(), || {
        let Lent {
            book, prices, runs, ..
        } = &mut lent;
        let lists = lists_of(runs.lend());
        lent::run(&day, book, prices, &rows, lists, &mut answers);
        let mut numbers = answers.iter().step_by(ANSWER_NUMBERS);
        match numbers.all(|&number| number == 0) {
            true => FINE,
            false => REFUSED,
        }
    })
}

/// What an order takes by itself, with the day's test.
fn by_itself(accounts: usize, call: Call) -> Option<Count> {
    let start = opened(accounts, 1);
    let mut memory = Memory::of(&start, ANSWER_NUMBERS);
    steps::count(|| {
        memory.call(&[call], 0);
        memory.answers.numbers()[0] as c_int
    })
}

/// The bytes of so many numbers.
fn bytes(numbers: usize) -> u64 {
    (numbers * size_of::<u64>()) as u64
}

/// A count on 2 accounts and on more; where nothing can be traced, that is said
/// past the capture of a test's output.
fn on_two_and_more(
    what: &str,
    more: usize,
    count: fn(usize, Call) -> Option<Count>,
    call: Call,
) -> Option<[Count; 2]> {
    let counts = count(2, call).zip(count(more, call));
    match counts {
        Some((few, many)) => {
            println!("{what}: {few:?} on 2 accounts, {many:?} on {more}");
        }
        None => writeln!(
            std::io::stderr(),
            "SKIPPED, no process may be traced and watched here: {what} is not counted"
        )
        .expect("standard error"),
    }
    counts.map(|(few, many)| [few, many])
}

/// Within five percent: the limits' test adds up two counters of each account.
#[test]
fn an_order_in_the_driver_costs_the_same_on_any_book() {
    let order = order(1);
    for (what, call) in [
        ("creation in the driver", Call::Create(order)),
        ("redemption in the driver", Call::Redeem(order)),
    ] {
        let Some(counts) = on_two_and_more(what, ACCOUNTS, in_a_list, call) else {
            return;
        };
        let [few, many] = counts.map(|count| count.instructions);
        assert!(few > COUNT as u64, "{what}: {few} are too few");
        assert!(100 * many <= 105 * few, "{what}: {few} and {many}");
        for Count { stack, .. } in counts {
            assert!(stack < bytes(COUNT), "{what}: {stack} bytes of stack");
        }
    }
}

/// By itself an order tests the whole book, and a few accounts more are seen: the
/// counts above would differ too. It takes the same stack, and less than the
/// numbers of a day: neither the day nor the book is copied there.
#[test]
fn an_order_by_itself_costs_more_on_a_larger_book() {
    let (what, call) = ("creation by itself", Call::Create(order(1)));
    if let Some(counts) = on_two_and_more(what, 8, by_itself, call) {
        let [few, many] = counts.map(|count| count.instructions);
        assert!(100 * many > 105 * few, "{few} and {many}");
        let [few, many] = counts.map(|count| count.stack);
        assert_eq!(few, many);
        assert!(few < bytes(DAY_NUMBERS), "{few} bytes of stack");
    }
}

/// A list to read: its text, its table, and how many numbers the run has.
struct Reading {
    text: Vec<u8>,
    table: Vec<u64>,
    length: usize,
}

/// The faults of a list that are found last: its last component has the code of
/// the one before, by which it is out of order (3); and the run is a number short
/// (16). The one that is found first, a table that breaks a rule in its last row
/// (21). And a list without a fault (0).
fn readings() -> [(u64, Reading); 4] {
    let numbers = component_run().len();
    let mut text = list_text();
    let place = |line: usize| {
        let code = format!("{}|", 600_000 + line).into_bytes();
        text.windows(code.len()).position(|part| part == code)
    };
    let [before, last] = [COUNT - 2, COUNT - 1].map(|line| place(line).expect("its line"));
    text.copy_within(before..before + 6, last);
    let ours = FlagTable::OURS.numbers().to_vec();
    let mut broken = ours.clone();
    broken[ours.len() - 1] = 2;
    let reading = |text, table, length| Reading {
        text,
        table,
        length,
    };
    [
        (3, reading(text, ours.clone(), numbers)),
        (16, reading(list_text(), ours.clone(), numbers - 1)),
        (21, reading(list_text(), broken, numbers)),
        (0, reading(list_text(), ours, numbers)),
    ]
}

/// Reads a list into the numbers of a run of its own pages, in a child.
fn read(text: &[u8], table: &[u64], run: &mut Run) -> u64 {
    let (mut fields, mut first_row) = ([0; FIELD_NUMBERS], 0);
    lent::read(text, table, run.numbers_mut(), &mut fields, &mut first_row).number
}

/// All pages of the run are read-only while a list is refused, and a list that is
/// accepted ends a child there: it is stored in no other place.
#[test]
fn a_refused_list_writes_nothing() {
    for (number, reading) in readings() {
        let mut run = Run::of(&vec![7; reading.length]);
        let state = child(|| {
            if !run.protect(&run.pages_without(&[])) {
                return NOT_PROTECTED;
            }
            read(&reading.text, &reading.table, &mut run) as c_int
        });
        let expected = match number {
            0 => State::Died(SIGSEGV),
            number => State::Exited(number as c_int),
        };
        assert_eq!(state, expected, "refusal {number}");
        assert_eq!(run.numbers(), vec![7; reading.length], "refusal {number}");
    }
}

/// A list is tested in its text, and each number of its components is stored once:
/// there is no stack on which a number for each would fit.
#[test]
fn reading_a_list_holds_no_number_for_each_component() {
    let text = list_text();
    let components = component_run();
    let mut run = Run::of(&vec![7; components.len()]);
    let count = steps::count(|| read(&text, &[], &mut run) as c_int);
    match count {
        Some(count) => {
            println!("reading: {count:?}");
            assert_eq!(run.numbers(), components);
            assert!(count.stack < bytes(COUNT), "{} bytes of stack", count.stack);
        }
        None => writeln!(std::io::stderr(), "SKIPPED, no process may be traced here")
            .expect("standard error"),
    }
}
